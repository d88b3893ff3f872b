//! The lines that are cut out of the originals are whole lines of them, in their order.

use std::path::Path;
use std::{env, fs};

/// Lines of the build's own, around what is cut out of `impl Context`.
const AROUND: [&str; 2] = ["impl Context {", "}"];

#[test]
fn cut_lines_are_the_originals() {
    let sources = env::var("REDOX_SRC").expect("REDOX_SRC names the originals");
    for (cut, original) in [
        ("context.rs", "src/context/context.rs"),
        ("memory.rs", "src/context/memory.rs"),
        ("scheme.rs", "src/scheme/mod.rs"),
    ] {
        let text = fs::read_to_string(Path::new(env!("OUT_DIR")).join(cut)).expect(cut);
        let original = fs::read_to_string(Path::new(&sources).join(original)).expect(original);
        let mut lines = original.lines();
        let mut found = 0;
        for line in text.lines() {
            let before = lines.clone();
            if lines.any(|candidate| candidate == line) {
                found += 1;
            } else {
                assert!(
                    AROUND.contains(&line),
                    "{cut}: `{line}` is not the original's"
                );
                lines = before;
            }
        }
        assert!(found > 10, "{cut} has lines");
    }
}
