//! A call on one thread: it takes its slot, is cancelled, has its reply, and leaves nothing.

use std::time::Duration;

use oracle::Oracle;
use script::{Event, State};

#[test]
fn a_call_on_one_thread_leaves_nothing() {
    let mut oracle = Oracle::new(7);
    for line in [
        "call 100 6 1 2 3 4 5 6 7 8 9 0",
        "generic 100 9 1 5 4096 64 3 1 2 3",
        "stdfs 100 9 2 5 6 4096 64 3 1 2 3",
        "fdwrite 100 5 4096 1 1 7 8 9 0",
        "fdread 100 5 64 16384 2 1 2 7 8 9",
        "submit 0 100 6 0 1 2 3 4 5 6 9 0",
    ] {
        let event = Event::parse(line).expect("an event");
        if let Event::Submit { c, .. } = event {
            let reserved = oracle.step(&Event::Reserve { c });
            assert_eq!(reserved.to_string(), "ok 0");
        }
        let parts = oracle.alone(&event);
        assert!(parts.entered > Duration::ZERO, "{line}");
        assert!(parts.canceled > Duration::ZERO, "{line}");
        assert!(parts.handed > Duration::ZERO, "{line}");
        assert_eq!(oracle.state(), State::fresh(), "{line}");
    }
}
