//! The limits that the kernel does not have: what they refuse is skipped, in their order, and
//! changes nothing; what the kernel refuses before them is the kernel's.

use oracle::Oracle;
use script::{Event, State};

/// Runs one line and gives its answer.
fn put(oracle: &mut Oracle, line: &str) -> String {
    let event = Event::parse(line).expect("an event");
    oracle.step(&event).to_string()
}

/// Runs lines that are skipped, and looks whether they left the state alone.
fn skipped(oracle: &mut Oracle, lines: &[&str]) {
    let before = oracle.state();
    for line in lines {
        assert_eq!(put(oracle, line), "skip", "{line}");
    }
    assert_eq!(oracle.state(), before);
}

fn refused(oracle: &mut Oracle, lines: &[(&str, u64)]) {
    let before = oracle.state();
    for (line, errno) in lines {
        assert_eq!(put(oracle, line), format!("no {errno}"), "{line}");
    }
    assert_eq!(oracle.state(), before);
}

/// What the fronts refuse before they take a slot.
const FRONTS: [(&str, u64); 8] = [
    ("generic 1 1 0 0 0 0", 22),
    ("generic 1 1 3 1 2 3 0 0 0", 22),
    ("stdfs 1 1 1 1 0 0 2 1 1", 22),
    ("stdfs 1 1 0 0 0 3 9 0 0", 95),
    ("stdfs 1 1 0 0 0 3 1 0 0", 22),
    ("stdfs 1 1 3 1 2 3 0 0 3 1 0 0", 22),
    ("fdread 1 1 7 0 0 0 0 0", 22),
    ("fdread 1 1 18446744073709551615 0 0 0 0 0", 22),
];

#[test]
fn slots() {
    let mut oracle = Oracle::new(7);
    for tag in 0..64 {
        assert_eq!(put(&mut oracle, "reserve 1"), format!("ok {tag}"));
    }
    skipped(
        &mut oracle,
        &[
            "reserve 1",
            "call 1 6 0 0 0 0 0 0 0 0 0 0",
            "fmap 1 0 0 0 0 0 0",
            "generic 1 1 1 1 0 0 0",
            "stdfs 1 1 2 1 2 0 0 3 1 0 0",
            "fdwrite 1 1 0 0 0 0 0 0",
            "fdread 1 1 8 0 0 0 0 0",
        ],
    );
    refused(&mut oracle, &FRONTS);
    assert_eq!(
        put(&mut oracle, "submit 63 1 6 0 0 0 0 0 0 0 0 0"),
        "ok 63 ; E 5 7 1"
    );
}

#[test]
fn queue() {
    let mut oracle = Oracle::new(7);
    assert_eq!(put(&mut oracle, "reserve 1"), "ok 0");
    assert_eq!(
        put(&mut oracle, "call 1 6 0 0 0 0 0 0 0 0 0 0"),
        "ok 1 ; E 5 7 1"
    );
    assert_eq!(
        put(&mut oracle, "call 1 6 0 0 0 0 0 0 0 0 0 0"),
        "ok 2 ; E 5 7 1"
    );
    for id in 2..128 {
        assert_eq!(put(&mut oracle, &format!("close {id}")), "ok 0 ; E 5 7 5");
    }
    skipped(
        &mut oracle,
        &[
            "close 1",
            "detach 1 1",
            "call 1 6 0 0 0 0 0 0 0 0 0 0",
            "submit 0 1 6 0 0 0 0 0 0 0 0 0",
            "fmap 1 0 0 0 0 0 0",
            "generic 1 1 1 1 0 0 0",
            "stdfs 1 1 2 1 2 0 0 3 1 0 0",
            "fdwrite 1 1 0 0 0 0 0 0",
            "fdread 1 1 0 0 0 0 0 0",
            // a Cancel would be queued
            "wake 1 1 0 0 0",
        ],
    );
    refused(&mut oracle, &FRONTS);
    refused(&mut oracle, &[("wake 0 1 0 0 0", 77)]);
    // a killed call queues nothing, a part entry makes no room, a whole one does
    assert_eq!(put(&mut oracle, "wake 2 1 1 0 0"), "no 4");
    assert!(put(&mut oracle, "read 63 0").starts_with("ok 63 ; B "));
    skipped(&mut oracle, &["wake 1 1 0 0 0"]);
    assert!(put(&mut oracle, "read 64 0").starts_with("ok 64 ; B "));
    assert_eq!(put(&mut oracle, "wake 1 1 0 0 0"), "blocked ; E 5 7 1");
    // full again: the second wake of the same call queues nothing
    assert_eq!(put(&mut oracle, "wake 1 1 0 0 0"), "blocked");
    assert!(put(&mut oracle, "read 8192 0").starts_with("ok 8192 ; B "));
    assert_eq!(oracle.state().queue, 0);
}

#[test]
fn lists() {
    let mut oracle = Oracle::new(7);
    assert_eq!(put(&mut oracle, "open 0"), "ok 0");
    for _ in 0..32 {
        assert_eq!(put(&mut oracle, "copy 0"), "ok 0");
    }
    let list = |count| format!("{count}{}", " 0".repeat(count));
    skipped(
        &mut oracle,
        &[
            &format!("call 1 6 0 0 0 0 0 0 0 0 0 {}", list(17)),
            &format!("fdwrite 1 1 0 0 0 0 0 {}", list(17)),
            &format!("fdwrite 1 1 0 0 0 0 0 {}", list(34)),
            &format!("move 2 1 0 {}", list(17)),
            // more than there are
            &format!("move 2 1 0 {}", list(34)),
        ],
    );
    assert_eq!(
        put(
            &mut oracle,
            &format!("call 1 6 0 0 0 0 0 0 0 0 0 {}", list(16))
        ),
        "ok 0 ; E 5 7 1"
    );
    assert_eq!(
        put(&mut oracle, &format!("move 2 1 0 {}", list(16))),
        "ok 16"
    );
    assert_eq!(oracle.state().holds[0], 17);
    assert_eq!(put(&mut oracle, "obtain 2 0 0"), "ok 16");
    assert_eq!(oracle.state().outside[0], 17);
    let sent = format!("fdwrite 1 1 0 0 0 0 0 {}", list(16));
    assert_eq!(put(&mut oracle, &sent), "ok 1 ; E 5 7 1");
    assert_eq!(oracle.state().outside[0], 1);
}

/// As many as a list can have, into a payload of as many words.
#[test]
fn received() {
    let mut oracle = Oracle::new(7);
    assert_eq!(put(&mut oracle, "open 0"), "ok 0");
    for _ in 1..16 {
        assert_eq!(put(&mut oracle, "copy 0"), "ok 0");
    }
    assert_eq!(
        put(&mut oracle, "fdread 1 1 128 0 0 0 0 0"),
        "ok 0 ; E 5 7 1"
    );
    let list = " 0".repeat(16);
    assert_eq!(put(&mut oracle, &format!("move 2 1 0 16{list}")), "ok 16");
    assert_eq!(
        put(&mut oracle, "write 54 04000000000000000000000000000000"),
        "ok 16 ; E 1 1 0"
    );
    assert_eq!(oracle.state().outside[0], 0);
    assert_eq!(
        put(&mut oracle, "wake 0 1 0 0 0"),
        format!("reply many 16{list}")
    );
    let state = oracle.state();
    assert_eq!((state.holds[0], state.outside[0]), (16, 16));
}

#[test]
fn holds() {
    let mut oracle = Oracle::new(7);
    assert_eq!(put(&mut oracle, "open 0"), "ok 0");
    assert_eq!(put(&mut oracle, "copy 0"), "ok 0");
    // holds inside count as well
    assert_eq!(
        put(&mut oracle, "call 1 6 0 0 0 0 0 0 0 0 0 1 0"),
        "ok 0 ; E 5 7 1"
    );
    for _ in 2..65_535 {
        assert_eq!(put(&mut oracle, "copy 0"), "ok 0");
    }
    skipped(&mut oracle, &["copy 0"]);
    let mut state = State::fresh();
    state.holds[0] = 65_535;
    state.outside[0] = 65_534;
    assert_eq!(oracle.state().holds, state.holds);
    assert_eq!(oracle.state().outside, state.outside);
}
