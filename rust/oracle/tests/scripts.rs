//! Each script in `scripts`, with what the kernel's code answers, as read from its source, behind
//! `#= `. The state is short: what is not as in a fresh one.

use std::fs;
use std::path::Path;

use script::{OutputLine, Script, State};

fn expected(text: &str) -> OutputLine {
    match text.strip_prefix("state ") {
        Some(text) => OutputLine::State(Box::new(State::parse_short(text).expect("a state"))),
        None => OutputLine::parse(text).expect("an output line"),
    }
}

fn check(path: &Path) {
    let text = fs::read_to_string(path).expect("a script");
    let script = Script::parse(&text).unwrap_or_else(|mistake| panic!("{path:?}: {mistake}"));
    let found = oracle::run(&script);
    let wanted: Vec<&str> = text
        .lines()
        .filter_map(|line| line.strip_prefix("#= "))
        .collect();
    let events = script.events.iter().map(ToString::to_string);
    let events = events.chain(["state".to_owned()]);
    for ((found, wanted), event) in found.iter().zip(&wanted).zip(events) {
        assert_eq!(
            found.to_string(),
            expected(wanted).to_string(),
            "{path:?}: {event}"
        );
    }
    assert_eq!(found.len(), wanted.len(), "{path:?}: a line for each event");
}

#[test]
fn scripts_answer_as_the_source_reads() {
    let folder = Path::new(env!("CARGO_MANIFEST_DIR")).join("tests/scripts");
    let mut paths: Vec<_> = fs::read_dir(folder)
        .expect("the scripts")
        .map(|entry| entry.expect("a script").path())
        .collect();
    paths.sort();
    assert!(!paths.is_empty());
    for path in paths {
        check(&path);
    }
}
