//! What only the layer refuses, worked out again from 01's table: the number, from the event, the
//! state before it and what was answered until then.

use script::{Answer, Event, Line, Phase, State};

use crate::list::is_wide;
use crate::step::{EFFECT_WORDS, ENTRY, Step};

const LISTED: usize = 16;
const QUEUE: u64 = 128;
const HOLDS: u64 = 65_535;
/// The bytes of a handle in an fdread's payload.
const WORD: u64 = 8;

#[derive(Clone, Copy)]
struct Given {
    caller: u32,
    ended: bool,
    returned: bool,
    /// Its Cancel is queued.
    cancelling: bool,
}

/// Whose each slot is, from the answers so far.
#[derive(Clone)]
pub struct Table([Option<Given>; 64]);

fn no_room(state: &State, event: &Event) -> Option<u64> {
    let takes_slot = !matches!(event, Event::Close { .. } | Event::Detach { .. });
    let queues = !matches!(event, Event::Reserve { .. });
    if takes_slot && state.slots.iter().all(|phase| *phase != Phase::Vacant) {
        Some(202)
    } else {
        (queues && state.queue >= QUEUE).then_some(203)
    }
}

fn has_outside(state: &State, d: u64, count: u64) -> bool {
    d < 64 && state.outside[d as usize] >= count
}

/// Do outside holds allow that list, and is it short enough?
fn list(state: &State, list: &[u64]) -> Option<u64> {
    let asked = |d: u64| list.iter().filter(|other| **other == d).count() as u64;
    if !list.iter().all(|d| has_outside(state, *d, asked(*d))) {
        Some(205)
    } else {
        (list.len() > LISTED).then_some(206)
    }
}

fn opcode(op: u64) -> Option<u64> {
    (!(3..=34).contains(&op)).then_some(205)
}

fn phase(state: &State, tag: u64) -> Phase {
    let slot = usize::try_from(tag)
        .ok()
        .and_then(|tag| state.slots.get(tag));
    slot.copied().unwrap_or(Phase::Vacant)
}

impl Table {
    pub fn new() -> Table {
        Table([None; 64])
    }

    fn given(&self, tag: u64) -> Option<Given> {
        let tag = usize::try_from(tag).ok()?;
        self.0.get(tag).copied().flatten()
    }

    /// What an event answered.
    pub fn learn(&mut self, event: &Event, line: &Line) {
        let caller = event.caller_of_tag();
        match (event, &line.answer, caller) {
            (Event::Ended { c }, _, _) => {
                let own = self.0.iter_mut().flatten();
                own.filter(|given| given.caller == *c)
                    .for_each(|given| given.ended = true);
            }
            (Event::Wake { tag, .. }, answer, _) => {
                if let Some(Some(given)) = self.0.get_mut(*tag as usize) {
                    given.returned |= *answer == Answer::No(4);
                    given.cancelling |= *answer == Answer::Blocked;
                }
            }
            (_, Answer::Ok(tag), Some(caller)) => {
                self.0[*tag as usize] = Some(Given {
                    caller,
                    ended: false,
                    returned: false,
                    cancelling: false,
                });
            }
            _ => {}
        }
    }

    pub(crate) fn refused_with(&self, step: &Step, number: u64) -> Option<u64> {
        self.refusal(step).filter(|refusal| *refusal == number)
    }

    /// The number with which only the layer refuses it, if it does. The side's own answer tells no
    /// more than whether a front refused before it asked for a slot.
    pub fn refusal(&self, step: &Step) -> Option<u64> {
        let (state, event) = (&step.before, &step.event);
        let refused = |refused: bool, number: u64| refused.then_some(number);
        match event {
            Event::Open { d } => refused(*d > 63 || state.holds[*d as usize] != 0, 205),
            Event::Copy { d } if has_outside(state, *d, 1) => {
                refused(state.holds[*d as usize] >= HOLDS, 207)
            }
            Event::Copy { .. } => Some(205),
            Event::Drop { d } => refused(!has_outside(state, *d, 1), 205),
            Event::Put { d, h } => {
                let full = *h > 63 || state.handles[*h as usize].is_some();
                refused(full || !has_outside(state, *d, 1), 205)
            }
            Event::Submit {
                tag,
                c,
                op,
                list: l,
                ..
            } => {
                let given = self.given(*tag);
                let own = given.is_some_and(|given| given.caller == *c && !given.ended)
                    && phase(state, *tag) == Phase::Placeholder;
                (opcode(*op).or_else(|| list(state, l)))
                    .or_else(|| refused(!own, 201))
                    .or_else(|| refused(state.queue >= QUEUE, 203))
            }
            Event::Call { op, list: l, .. } => {
                (opcode(*op).or_else(|| list(state, l))).or_else(|| no_room(state, event))
            }
            Event::Fdwrite { list: l, .. } => list(state, l).or_else(|| no_room(state, event)),
            Event::Fdread { len, .. } if len % WORD != 0 => None,
            Event::Generic(_) | Event::Stdfs(_) => match step.line.answer {
                Answer::No(22 | 95) => None,
                _ => no_room(state, event),
            },
            Event::Wake { tag, c, killed, .. } => {
                let given = self.given(*tag);
                let own = given
                    .is_some_and(|given| given.caller == *c && !given.ended && !given.returned);
                let cancels = *killed == 0 && given.is_some_and(|given| !given.cancelling);
                match phase(state, *tag) {
                    _ if *killed > 1 => Some(205),
                    Phase::Waiting | Phase::Responded if !own => Some(201),
                    Phase::Waiting => refused(cancels && state.queue >= QUEUE, 203),
                    _ => refused(is_wide(event), 77),
                }
            }
            Event::Write { words, bytes } => {
                let wanted = EFFECT_WORDS * (bytes.len() / ENTRY);
                refused(*words < wanted as u64, 204)
            }
            Event::Move { list: l, .. } => list(state, l),
            Event::Supply { .. } => refused(is_wide(event), 22),
            Event::Reserve { .. }
            | Event::Fmap { .. }
            | Event::Close { .. }
            | Event::Detach { .. }
            | Event::Fdread { .. } => no_room(state, event),
            Event::Ended { .. }
            | Event::Read { .. }
            | Event::Obtain { .. }
            | Event::Front { .. }
            | Event::Status => None,
        }
    }
}

impl Default for Table {
    fn default() -> Table {
        Table::new()
    }
}
