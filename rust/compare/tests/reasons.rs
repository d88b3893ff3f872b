//! The reasons beside the kernel's own code: each shows in its script and is confirmed; without it,
//! with a wrong prediction or with a layer that is another where it shows, the comparison reports a
//! difference. Then reasons of kinds that the list does not have yet, with a layer to match.

mod common;

use std::fs;
use std::path::Path;

use common::{After, Before, Changed, NOT_AFTER, NOT_BEFORE};
use compare::beside::{Beside, Taken};
use compare::limits;
use compare::port::Port;
use generate::Generator;
use reasons::{ALL, EFFECT_WORDS, ENTRY, Kind, Reason, Step, Tally, cut};
use script::{Answer, Effect, Event, Line, Phase, Script, State};
use tilgurap::numbers::Layer;

/// Its smallest script has 65,536 events.
const NO_SCRIPT: &str = "limit_207";
const OCCUPIED: &str = "occupied_handle";

fn script(name: &str) -> Script {
    let folder = Path::new(env!("CARGO_MANIFEST_DIR")).join("../../tests/differences");
    let text = fs::read_to_string(folder.join(name).with_extension("script")).expect("a script");
    Script::parse(&text).expect("its events")
}

fn beside<P: Port>(script: &Script, port: P, reasons: &[Reason]) -> Result<Tally, String> {
    let mut beside = Beside::new(script.scheme, port, reasons);
    for event in &script.events {
        beside.step(event)?;
    }
    Ok(beside.shown().clone())
}

fn layer_beside(name: &str, reasons: &[Reason]) -> Result<Tally, String> {
    let script = script(name);
    beside(&script, Layer::new(script.scheme), reasons)
}

/// Runs of many seeds, as far as the reasons let them go; how many of them were cut short.
fn seeds((before, after): (Before, After), reasons: &[Reason]) -> Result<(Tally, u64), String> {
    let (mut shown, mut over) = (Tally::default(), 0);
    for seed in 0..40 {
        let mut generator = Generator::new(seed, false);
        let scheme = generator.scheme();
        let mut beside = Beside::new(scheme, Changed::new(scheme, before, after), reasons);
        while let Some(event) = generator.event(300) {
            let taken = beside.step(&event)?;
            if beside.is_over() {
                over += 1;
                break;
            }
            if let Taken::Same(line) | Taken::Cut(_, line) | Taken::Skipped(line) = &taken {
                generator.learn(&event, line, beside.state());
            }
        }
        shown.add_all(beside.shown());
    }
    Ok((shown, over))
}

fn with(reason: Reason) -> Vec<Reason> {
    let others = ALL.iter().filter(|other| other.name != reason.name);
    [reason].into_iter().chain(others.copied()).collect()
}

type Shows = fn(&Step) -> bool;
type Predicts = fn(&Step) -> (Line, State);

fn differs(name: &'static str, shows: Shows, rust: Predicts) -> Reason {
    Reason {
        name,
        sentence: "",
        row: "",
        kind: Kind::Differs { shows, rust },
    }
}

#[test]
fn each_shows_in_its_script_and_without_it_there_is_a_difference() {
    for reason in ALL.iter().filter(|reason| reason.name != NO_SCRIPT) {
        let shown = layer_beside(reason.name, ALL).expect("no difference");
        assert!(shown.of(reason.name) > 0, "{}", reason.name);
        let others = ALL.iter().filter(|other| other.name != reason.name);
        let others: Vec<Reason> = others.copied().collect();
        assert!(
            layer_beside(reason.name, &others).is_err(),
            "{}",
            reason.name
        );
    }
    let (_, shown) = limits::compare().expect("no difference");
    assert_eq!(shown.of(NO_SCRIPT), 1);
}

/// What the list says that the Rust does with an occupied handle.
fn known() -> (Shows, Predicts) {
    let reason = ALL.iter().find(|reason| reason.name == OCCUPIED);
    match reason.expect("it is known").kind {
        Kind::Differs { shows, rust } => (shows, rust),
        _ => panic!("both sides take it"),
    }
}

#[test]
fn a_wrong_prediction_is_reported() {
    let (shows, right) = known();
    assert!(layer_beside(OCCUPIED, &with(differs(OCCUPIED, shows, right))).is_ok());
    let wrong: [Predicts; 5] = [
        // as the layer
        |step| (step.line.clone(), step.after.clone()),
        // a close follows
        |step| {
            let (mut line, state) = known().1(step);
            let (kind, a, b) = (3, 1, 0);
            line.effects.push(Effect { kind, a, b });
            (line, state)
        },
        // the hold of the one before stays
        |step| {
            let (line, mut state) = known().1(step);
            state.holds[1] += 1;
            (line, state)
        },
        // the handle is empty
        |step| {
            let (line, mut state) = known().1(step);
            state.handles[0] = None;
            (line, state)
        },
        // it is refused
        |step| (Line::answer(Answer::No(22)), step.before.clone()),
    ];
    for (place, rust) in wrong.into_iter().enumerate() {
        let what = layer_beside(OCCUPIED, &with(differs(OCCUPIED, shows, rust)));
        let what = what.expect_err("the Rust does something else");
        // the first predicts no difference at all
        assert_eq!(what.contains(OCCUPIED), place > 0, "{what}");
    }
}

#[test]
fn a_layer_that_is_another_where_the_difference_shows_is_reported() {
    let script = script(OCCUPIED);
    let slips: [After; 3] = [
        // the handle takes the description obtained, as the Rust's
        |before, layer, event, _| {
            if let Event::Write { .. } = event {
                let new = before.parts().table.slots[0].fds.at[0];
                layer.change_parts(|state| {
                    state.driver.handles.at[0] = u64::from(new) + 1;
                    state.table.holds.holds[usize::from(new)] += 1;
                    state.table.holds.holds[1] -= 1;
                });
            }
        },
        // both lose a hold
        |_, layer, event, _| {
            if let Event::Write { .. } = event {
                layer.change_parts(|state| state.table.holds.holds[1] -= 1);
            }
        },
        |_, _, event, line| {
            if let Event::Write { .. } = event {
                let (kind, a, b) = (3, 0, 0);
                line.effects.push(Effect { kind, a, b });
            }
        },
    ];
    for after in slips {
        let fresh = |after| Changed::new(script.scheme, NOT_BEFORE, after);
        assert!(beside(&script, fresh(NOT_AFTER), ALL).is_ok());
        assert!(beside(&script, fresh(after), ALL).is_err());
    }
}

/// The first entry of a write that has a spare flag bit, where enough words are lent.
fn spare(event: &Event) -> Option<usize> {
    let Event::Write { words, bytes } = event else {
        return None;
    };
    let mut entries = bytes.chunks_exact(ENTRY);
    let enough = *words >= (EFFECT_WORDS * entries.len()) as u64;
    entries.position(|entry| enough && entry[0] > 7)
}

/// A layer that refuses entries with spare flag bits, which the Rust takes: the Rust gets what
/// comes before them.
#[test]
fn entries_that_only_the_layer_refuses() {
    let refuses: Before = |layer, event| match spare(event)? {
        0 => Some(Line::answer(Answer::No(209))),
        place => Some(layer.step(&cut(event, place))),
    };
    let reason = Reason {
        name: "spare_bits",
        sentence: "",
        row: "",
        kind: Kind::LeftOut {
            refused: |_, step| spare(&step.event).map(|_| 209),
            rust_skips: false,
        },
    };
    let sides = (refuses, NOT_AFTER);
    let (shown, _) = seeds(sides, &with(reason)).expect("no difference");
    assert!(shown.of("spare_bits") > 0);
    assert!(seeds(sides, ALL).is_err());
    // the layer takes what the reason says that it refuses
    assert!(seeds((NOT_BEFORE, NOT_AFTER), &with(reason)).is_err());
    let skipped = Reason {
        kind: match reason.kind {
            Kind::LeftOut { refused, .. } => Kind::LeftOut {
                refused,
                rust_skips: true,
            },
            other => other,
        },
        ..reason
    };
    // the Rust is asked and does not skip it
    assert!(seeds(sides, &with(skipped)).is_err());
}

/// The descriptions whose last hold went.
fn closed(before: &State, after: &State) -> Vec<u64> {
    let last = |d: &usize| before.holds[*d] > 0 && after.holds[*d] == 0;
    (0..64).filter(last).map(|d| d as u64).collect()
}

fn is_move(step: &Step) -> bool {
    matches!(step.event, Event::Move { .. }) && !closed(&step.before, &step.after).is_empty()
}

/// A layer whose moves close what they drop, which the Rust's do not: the states are the same, and
/// the run goes on with the event.
#[test]
fn effects_that_only_the_layer_makes() {
    let closes: After = |before, layer, event, line| {
        if let Event::Move { .. } = event {
            let closed = closed(&before.state(), &layer.state()).into_iter();
            let close = |a| Effect { kind: 3, a, b: 0 };
            line.effects.extend(closed.map(close));
        }
    };
    let sides = (NOT_BEFORE, closes);
    let right = differs("closes", is_move, |step| {
        (Line::answer(step.line.answer.clone()), step.after.clone())
    });
    let (shown, _) = seeds(sides, &with(right)).expect("no difference");
    assert!(shown.of("closes") > 0);
    assert!(seeds(sides, ALL).is_err());
    // it predicts closes of others
    let wrong = differs("closes", is_move, |step| {
        let mut line = step.line.clone();
        line.effects.iter_mut().for_each(|effect| effect.a += 1);
        (line, step.after.clone())
    });
    let what = seeds(sides, &with(wrong)).expect_err("the Rust closes nothing");
    assert!(what.contains("closes"), "{what}");
}

/// Runs that the Rust cannot follow end there.
#[test]
fn runs_that_are_left_out_from_some_state_on() {
    let ends = |reached: fn(&State) -> bool| Reason {
        name: "full",
        sentence: "",
        row: "",
        kind: Kind::Ends { reached },
    };
    // one slot early the layer says 202, and the Rust gives the last slot out
    fn one_left(state: &State) -> bool {
        let vacant = state.slots.iter().filter(|phase| **phase == Phase::Vacant);
        vacant.count() == 1
    }
    let early: Before = |layer, event| match event {
        Event::Reserve { .. } if one_left(&layer.state()) => Some(Line::answer(Answer::No(202))),
        _ => None,
    };
    let sides = (early, NOT_AFTER);
    let (shown, over) = seeds(sides, &with(ends(one_left))).expect("no difference");
    assert!(over > 0);
    assert_eq!(shown.of("full"), over);
    assert!(seeds(sides, &with(ends(|_| false))).is_err());
}
