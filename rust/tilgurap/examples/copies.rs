//! How many copies of the state, or of most of it, each event makes: this program's own `memcpy`
//! counts those of 1,024 bytes and more. A step is lent the state's words and changes them in place.

use std::arch::asm;
use std::ffi::c_void;
use std::sync::atomic::{AtomicU64, Ordering};

use script::{Event, State};
use tilgurap::numbers::{self, Layer};

const LARGE: usize = 1_024;

static COPIES: AtomicU64 = AtomicU64::new(0);

/// # Safety
/// As C's.
#[unsafe(no_mangle)]
pub unsafe extern "C" fn memcpy(to: *mut c_void, from: *const c_void, count: usize) -> *mut c_void {
    if count >= LARGE {
        COPIES.fetch_add(1, Ordering::Relaxed);
    }
    // SAFETY: as C's `memcpy`; the string instruction keeps the compiler from calling it again.
    unsafe {
        asm!(
            "rep movsb",
            inout("rdi") to => _,
            inout("rsi") from => _,
            inout("rcx") count => _,
            options(nostack, preserves_flags)
        );
    }
    to
}

fn copies(what: impl FnOnce()) -> u64 {
    let before = COPIES.load(Ordering::Relaxed);
    what();
    COPIES.load(Ordering::Relaxed) - before
}

/// Each accepted, in this order.
const STEPS: [&str; 24] = [
    "open 0",
    "copy 0",
    "put 0 0",
    "drop 0",
    "ended 9",
    "reserve 1",
    "submit 0 1 6 0 1 2 3 4 5 6 9 0",
    "call 1 6 1 2 3 4 5 6 7 8 9 0",
    "generic 1 9 1 5 4096 64 3 1 2 3",
    "stdfs 1 9 1 5 4096 64 3 1 2 3",
    "fmap 1 2 3 4 5 6 7",
    "close 5",
    "detach 5 9",
    "wake 0 1 0 0 0",
    "read 64 0",
    "write 54 00000000000000000700000000000000",
    "wake 0 1 0 0 0",
    "open 1",
    "move 2 1 1 1 1",
    "obtain 2 0 1",
    "supply 4 0 4096 1",
    "fdwrite 1 5 4096 1 6 7 8 9 1 1",
    "fdread 1 5 16 16384 2 6 6 7 8 9",
    "write 108 0000000001000000070000000000000000000000020000000700000000000000",
];

/// Events of runs, each many times.
const RUNS: [&str; 6] = [
    "close 5",
    "read 64 262144",
    "fmap 1 2 3 4 5 6 7",
    "write 54 02000000010000000900000000000000",
    "write 108 0200000001000000090000000000000002000000010000000900000000000000",
    "ended 1",
];
const TIMES: u64 = 50;

fn main() {
    let mut layer = Layer::new(7);
    println!("| event | answer | copies |\n|---|---|---|");
    for line in STEPS {
        let event = Event::parse(line).expect("an event");
        let mut answer = None;
        let count = copies(|| answer = Some(layer.step(&event).answer));
        let answer = answer.expect("it was put");
        println!("| `{line}` | {answer} | {count} |");
    }
    println!("\n| event in a run | copies |\n|---|---|");
    for line in RUNS {
        let event = Event::parse(line).expect("an event");
        let record = event.encode().expect("a record");
        let ran = |times: u64| {
            let events = record.repeat(times as usize);
            let mut out = vec![0; State::BYTES + times as usize * event.room()];
            copies(|| {
                let end = numbers::run(7, &events, &mut out, &mut [0; 108]);
                assert_eq!(end.number, 0, "{line}");
            })
        };
        println!("| `{line}` | {} |", (ran(TIMES) - ran(0)) / TIMES);
    }
}
