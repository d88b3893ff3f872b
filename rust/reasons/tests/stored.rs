//! The reasons on scripts, where the kernel's sources are not needed: the layer runs, and the Rust's
//! lines are the stored ones of tests/differences.

mod common;

use std::fs;

use reasons::{ALL, Expected, Reason};
use script::{Answer, OutputLine, Script};

use common::{expected, repository};

/// A file of a script, if it is there.
fn file(reason: &Reason, end: &str) -> Option<String> {
    let name = format!("tests/differences/{}.{end}", reason.name);
    fs::read_to_string(repository(&name)).ok()
}

/// Which of a script's events has a mark before it.
fn marks(text: &str) -> Vec<bool> {
    let (mut marks, mut marked) = (Vec::new(), false);
    for line in text
        .lines()
        .skip_while(|line| line.starts_with('#'))
        .skip(1)
    {
        match line.starts_with('#') {
            true => marked |= line == "#! differs",
            false => marks.push(std::mem::take(&mut marked)),
        }
    }
    marks
}

#[test]
fn each_shows_in_its_script() {
    for reason in ALL {
        let Some(text) = file(reason, "script") else {
            continue;
        };
        let script = Script::parse(&text).expect("a script");
        let expected = expected(&script);
        let shown: Vec<bool> = expected.iter().map(|e| !e.shown.is_empty()).collect();
        let others = expected.iter().flat_map(|e| &e.shown);
        for other in others {
            assert_eq!(other.name, reason.name);
        }
        assert!(shown.contains(&true), "{}", reason.name);
        // an event that is left out is marked; a difference in the state is marked at the end
        let left_out: Vec<bool> = expected.iter().map(Expected::is_left_out).collect();
        assert_eq!(left_out, marks(&text), "{}", reason.name);
    }
}

/// Scripts without an edit are run on the kernel's code as it is.
#[test]
fn the_rust_said_what_they_predict() {
    let mut compared = 0;
    for reason in ALL {
        let Some(text) = file(reason, "script") else {
            continue;
        };
        if text.contains("\n# edit: ") {
            continue;
        }
        let script = Script::parse(&text).expect("a script");
        let expected = expected(&script);
        let (last, earlier) = expected.split_last().expect("an event");
        assert!(!earlier.iter().any(Expected::lasts), "{}", reason.name);
        let stored = file(reason, "rust").expect("what the Rust said");
        let mut lines = stored.lines();
        for (event, expected) in script.events.iter().zip(&expected) {
            let line = lines.next().map(str::to_owned);
            assert_eq!(line, Some(expected.rust.line.to_string()), "{event}");
        }
        let state = OutputLine::State(Box::new(last.rust.state.clone())).to_string();
        assert_eq!(lines.next(), Some(&state[..]), "{}", reason.name);
        compared += 1;
    }
    assert!(compared > 0);
}

/// The scripts of 01's own refusals: the table gives each number, and gives none where the layer
/// does not refuse by itself.
#[test]
fn the_table_has_what_only_the_layer_refuses() {
    let mut refused = 0;
    for entry in fs::read_dir(repository("tests/recorded/limits")).expect("the scripts") {
        let path = entry.expect("a script").path();
        if path.extension().is_none_or(|end| end != "script") {
            continue;
        }
        let text = fs::read_to_string(&path).expect("a script");
        let script = Script::parse(&text).expect("its events");
        for (event, expected) in script.events.iter().zip(expected(&script)) {
            let own = matches!(expected.layer.line.answer, Answer::No(201..=207));
            let wide = expected.shown.iter().any(|shown| shown.name == "wide_tag");
            assert_eq!(expected.is_left_out(), own || wide, "{path:?}: {event}");
            refused += u64::from(own);
        }
    }
    assert!(refused > 0);
}

#[test]
fn each_has_its_row_in_the_document() {
    let text = fs::read_to_string(repository("docs/DIFFERENCES.md")).expect("the document");
    for reason in ALL {
        let head = format!("| {} |", reason.row);
        let rows: Vec<&str> = text.lines().filter(|row| row.starts_with(&head)).collect();
        assert_eq!(rows.len(), 1, "{}", reason.name);
        let named = rows[0].contains(&format!("| `{}` |", reason.name));
        assert_eq!(named, file(reason, "script").is_some(), "{}", reason.name);
    }
}
