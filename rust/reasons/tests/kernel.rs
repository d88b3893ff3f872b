//! The oracle's scripts on the layer: each line that the kernel's code answers, behind `#= `, is what the
//! reasons expect of it from what the layer does. The states at the end are not held against each other here.

mod common;

use std::fs;

use script::Script;

use common::{expected, repository};

#[test]
fn the_kernel_answers_as_expected() {
    let folder = repository("rust/oracle/tests/scripts");
    let mut compared = 0;
    for entry in fs::read_dir(folder).expect("the scripts") {
        let path = entry.expect("a script").path();
        let text = fs::read_to_string(&path).expect("a script");
        let script = Script::parse(&text).unwrap_or_else(|mistake| panic!("{path:?}: {mistake}"));
        let lines = text.lines();
        let answered: Vec<&str> = lines.filter_map(|line| line.strip_prefix("#= ")).collect();
        let expected = expected(&script);
        // and the state
        assert_eq!(expected.len() + 1, answered.len(), "{path:?}");
        for ((event, expected), answered) in script.events.iter().zip(&expected).zip(answered) {
            assert_eq!(
                expected.rust.line.to_string(),
                answered,
                "{path:?}: {event}"
            );
            compared += 1;
        }
    }
    assert!(compared > 0);
}
