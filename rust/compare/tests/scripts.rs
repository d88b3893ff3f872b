//! The examples and the oracle's scripts beside the kernel's own code: no difference without a reason.

use std::fs;
use std::path::Path;

use compare::beside::{Beside, Taken};
use script::Script;
use tilgurap::numbers::Layer;

#[test]
fn the_kernel_says_the_same() {
    let mut same = 0;
    for folder in ["../../examples", "../oracle/tests/scripts"] {
        let folder = Path::new(env!("CARGO_MANIFEST_DIR")).join(folder);
        for entry in fs::read_dir(folder).expect("the scripts") {
            let path = entry.expect("a script").path();
            if path.extension().is_none_or(|end| end != "script") {
                continue;
            }
            let text = fs::read_to_string(&path).expect("a script");
            let script = Script::parse(&text).expect("its events");
            let layer = Layer::new(script.scheme);
            let mut beside = Beside::new(script.scheme, layer, reasons::ALL);
            for event in &script.events {
                let taken = beside.step(event);
                let taken = taken.unwrap_or_else(|what| panic!("{path:?}: {event}\n{what}"));
                same += u64::from(matches!(taken, Taken::Same(_)));
            }
        }
    }
    assert!(same > 100, "{same} events answered alike");
}
