//! Each of the examples replays to what stands beside it, and its explanation tells the same answers.

mod common;

use std::fs;
use std::path::Path;

use common::{run, text};

#[test]
fn each_example_replays_to_its_expected_output() {
    let folder = Path::new(env!("CARGO_MANIFEST_DIR")).join("../../examples");
    let paths = fs::read_dir(folder).expect("the examples");
    let paths: Vec<_> = (paths.map(|entry| entry.expect("a file").path()))
        .filter(|path| path.extension().is_some_and(|of| of == "script"))
        .collect();
    assert!(!paths.is_empty());
    for path in paths {
        let expected = fs::read_to_string(path.with_extension("expected"));
        let expected = expected.unwrap_or_else(|error| panic!("{path:?}: {error}"));
        let script = path.to_str().expect("a path that is text");
        let output = run(&["replay", script], b"");
        assert_eq!(text(&output.stdout), expected, "{path:?}");

        let output = run(&["replay", "--explain", script], b"");
        let told = text(&output.stdout);
        let (run, _) = told.split_once("\nAt the end:\n").expect("the end");
        // an event's line, then its answer and its sentence further in
        let inner: Vec<&str> = run
            .lines()
            .filter_map(|line| line.strip_prefix("  "))
            .collect();
        let answers: Vec<&str> = inner[1..].iter().step_by(2).copied().collect();
        let (events, _) = expected.rsplit_once("state ").expect("a state");
        let events: Vec<&str> = events.lines().collect();
        assert_eq!(answers, events, "{path:?}");
    }
}
