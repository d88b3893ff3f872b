//! What events cost: a hand-over by itself, and the kernel's own time for some events, with
//! hand-overs and the oracle's bookkeeping left out.

use std::time::Duration;

use oracle::{Oracle, hand_overs};
use script::Event;

const ROUNDS: u32 = 20_000;

fn main() {
    println!(
        "hand-over there and back: {:?}",
        hand_overs(ROUNDS) / ROUNDS
    );
    let events = [
        "call 1 6 1 2 3 4 5 6 0 0 9 0",
        "read 64 0",
        "wake 0 1 0 0 0",
        "read 64 0",
        "write 54 00000000000000000700000000000000",
        "wake 0 1 0 0 0",
        "close 1",
        "read 64 0",
    ];
    let events = events.map(|line| (line, Event::parse(line).expect("an event")));
    let mut oracle = Oracle::new(7);
    let mut spent = [Duration::ZERO; 8];
    for _ in 0..ROUNDS {
        for ((_, event), spent) in events.iter().zip(&mut spent) {
            *spent += oracle.timed(event).1;
        }
    }
    for ((line, _), spent) in events.iter().zip(spent) {
        println!("{line}: {:?}", spent / ROUNDS);
    }
}
