//! Every exported step on arbitrary words and with arbitrary arguments: none crashes, none stores
//! anything where it was lent nothing, and a refusal leaves the words as they were, but for the four
//! cases that the scope names. So does a read that would wait.
//!
//! `cargo test --release --test any_words` draws a million arrays and puts every event to each; a
//! debug build draws fewer. A failure names its seed, and `ANY_WORDS_SEED=N` draws that seed alone.
//! Where a step crashes, the last seed of each manner stands in `target/tmp/any_words_MANNER`.

#[path = "any_words/drawn.rs"]
mod drawn;
// the exported functions themselves, which the crate keeps to itself
#[allow(dead_code)]
#[path = "../src/ffi.rs"]
mod ffi;
#[path = "any_words/left.rs"]
mod left;
#[path = "any_words/lent.rs"]
mod lent;
#[path = "any_words/places.rs"]
mod places;

use std::{env, fs, path::Path};

use generate::Draw;
use script::Event;
use tilgurap::{Refusal, limits};

use drawn::{ENDED, EVENTS};
use ffi::Words;
use left::{CASES, Case};
use lent::Lent;

/// The arrays of one seed.
const ARRAYS: u64 = 200;

/// How an event was answered.
enum Answered {
    Accepted,
    Refused(Option<Case>),
    WouldWait,
}

/// How often each was reached.
#[derive(Debug, Default)]
struct Reached {
    accepted: [u64; EVENTS],
    refused: [u64; EVENTS],
    cases: [u64; CASES],
    waits: u64,
}

impl Reached {
    fn add(&mut self, event: usize, answered: Answered) {
        match answered {
            Answered::Accepted => self.accepted[event] += 1,
            Answered::WouldWait => self.waits += 1,
            Answered::Refused(case) => {
                self.refused[event] += 1;
                if let Some(case) = case {
                    self.cases[case as usize] += 1;
                }
            }
        }
    }

    /// Nothing was left out: each event was accepted and refused (an ended caller is never
    /// refused), each case of the scope and a wait were reached.
    fn check(&self) {
        for event in 0..EVENTS {
            let refused = event == ENDED || self.refused[event] > 0;
            assert!(self.accepted[event] > 0 && refused, "{event}: {self:?}");
        }
        assert!(!self.cases.contains(&0) && self.waits > 0, "{self:?}");
    }
}

/// Puts an event to the words and looks at all that it was lent. The words keep what it stored.
fn put(lent: &mut Lent, event: &Event) -> Result<Answered, String> {
    let answer = lent.put(event)?;
    let answered = match answer.kind {
        0 | 3 | 4 => return Ok(Answered::Accepted),
        1 if Refusal::from_number(answer.value).is_some() => {
            Answered::Refused(left::case(lent.before(), event, answer.value))
        }
        2 => Answered::WouldWait,
        _ => return Err(format!("{answer:?} is no answer")),
    };
    let mut wanted = *lent.before();
    if let Answered::Refused(Some(case)) = answered {
        case.store(&mut wanted, event);
    }
    if *lent.after() == wanted {
        return Ok(answered);
    }
    let other: Vec<String> = (0..wanted.len())
        .filter(|place| lent.after()[*place] != wanted[*place])
        .map(|place| format!("{place}: {} and not {}", lent.after()[place], wanted[place]))
        .collect();
    Err(format!(
        "{answer:?}, and the words are others at {}",
        other.join(", ")
    ))
}

/// How an array is drawn.
#[derive(Clone, Copy, Debug, PartialEq, Eq)]
enum Manner {
    /// All words uniform.
    Any,
    /// All words small or limits.
    Small,
    /// The words of a run, some of them corrupted.
    Run,
}

fn fresh() -> Words {
    let mut words = [0; 2060];
    // SAFETY: the words are there to be written, the queue's to be read.
    unsafe { ffi::tilgurap_packed(ffi::tilgurap_fresh(7), &[0; 1024], &raw mut words) };
    words
}

/// A run goes on by some events.
fn go_on(run: &mut Words, draw: &mut Draw, lent: &mut Lent) -> Result<(), String> {
    for _ in 0..6 {
        let number = draw.below(EVENTS as u64) as usize;
        // it is the end of all that its caller has there
        if number == ENDED && draw.chance(80) {
            continue;
        }
        lent.set(run);
        let event = drawn::event(draw, run, number);
        put(lent, &event).map_err(|what| format!("in the run, `{event}`: {what}"))?;
        *run = *lent.after();
    }
    Ok(())
}

/// The arrays of one seed, and every step on each.
fn one_seed(manner: Manner, seed: u64, reached: &mut Reached) -> Result<(), String> {
    let (draw, lent, mut run) = (&mut Draw::new(seed), &mut Lent::new(), fresh());
    for array in 0..ARRAYS {
        let at = |what| format!("array {array}, {what}");
        let words = match manner {
            Manner::Any => drawn::any_words(draw),
            Manner::Small => drawn::small_words(draw),
            Manner::Run => {
                go_on(&mut run, draw, lent).map_err(at)?;
                drawn::corrupted(draw, run)
            }
        };
        lent.set(&words);
        for number in 0..EVENTS {
            let event = drawn::event(draw, &words, number);
            let answered = put(lent, &event).map_err(|what| at(format!("`{event}`: {what}")))?;
            // the others have changed no word
            if let Answered::Accepted | Answered::Refused(Some(_)) = answered {
                lent.restore();
            }
            reached.add(number, answered);
        }
        lent.look().map_err(at)?;
    }
    Ok(())
}

/// So many thousand arrays, drawn in this manner.
fn draw_arrays(manner: Manner, thousands: u64) {
    let fewer = if cfg!(debug_assertions) { 100 } else { 1 };
    let count = thousands * 1_000 / ARRAYS / fewer;
    let alone = env::var("ANY_WORDS_SEED").ok();
    let alone = alone.map(|seed| seed.parse().expect("ANY_WORDS_SEED is a number"));
    let seeds = alone.map_or(0..count, |seed: u64| seed..seed + 1);
    let begun = Path::new(env!("CARGO_TARGET_TMPDIR")).join(format!("any_words_{manner:?}"));
    let mut reached = Reached::default();
    for seed in seeds {
        fs::write(&begun, seed.to_string()).expect("cargo's folder for tests can be written");
        let done = one_seed(manner, seed, &mut reached);
        if let Err(what) = done {
            panic!("ANY_WORDS_SEED={seed}, {manner:?}: {what}");
        }
    }
    println!("{manner:?}: {reached:?}");
    // hardly any uniform words are a state that something can be queued in
    if manner != Manner::Any && alone.is_none() {
        reached.check();
    }
}

#[test]
fn uniform_words() {
    draw_arrays(Manner::Any, 250);
}

#[test]
fn small_words_and_limits() {
    draw_arrays(Manner::Small, 350);
}

#[test]
fn corrupted_words_of_a_run() {
    draw_arrays(Manner::Run, 400);
}
