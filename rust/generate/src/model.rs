//! What a run has been told so far, which event comes next, and the tail that brings hidden state
//! out.

use script::{Answer, Event, Line, Phase, State};

use crate::draw::Draw;

/// Whose a slot is.
#[derive(Clone, Copy)]
pub(crate) struct Given {
    pub(crate) caller: u32,
    pub(crate) ended: bool,
    pub(crate) returned: bool,
    /// How many descriptions its list has.
    pub(crate) listed: u64,
    /// Its call is an fdread, which is to have many descriptors in reply.
    pub(crate) receives: bool,
}

/// Each kind of event, in the order of the weights.
#[derive(Clone, Copy, PartialEq)]
pub(crate) enum Kind {
    Open,
    Copy,
    Drop,
    Put,
    Ended,
    Reserve,
    Submit,
    Call,
    Generic,
    Stdfs,
    Fmap,
    Close,
    Detach,
    Wake,
    Read,
    Write,
    Move,
    Obtain,
    Supply,
    Fdwrite,
    Fdread,
}

const KINDS: [Kind; 21] = [
    Kind::Open,
    Kind::Copy,
    Kind::Drop,
    Kind::Put,
    Kind::Ended,
    Kind::Reserve,
    Kind::Submit,
    Kind::Call,
    Kind::Generic,
    Kind::Stdfs,
    Kind::Fmap,
    Kind::Close,
    Kind::Detach,
    Kind::Wake,
    Kind::Read,
    Kind::Write,
    Kind::Move,
    Kind::Obtain,
    Kind::Supply,
    Kind::Fdwrite,
    Kind::Fdread,
];

/// How often each kind comes, while a part of a run lasts.
const PARTS: [[u64; 21]; 7] = [
    // a bit of everything
    [
        4, 4, 2, 3, 1, 4, 6, 8, 4, 4, 3, 2, 2, 16, 8, 18, 5, 4, 3, 4, 4,
    ],
    // the table fills
    [
        2, 2, 1, 1, 1, 14, 8, 12, 6, 6, 8, 2, 2, 6, 8, 6, 3, 3, 2, 6, 6,
    ],
    // the queue fills
    [
        1, 1, 1, 1, 0, 3, 6, 8, 4, 4, 4, 20, 14, 16, 1, 8, 2, 2, 2, 4, 4,
    ],
    // descriptions wander
    [
        8, 10, 4, 6, 1, 3, 5, 8, 2, 2, 1, 1, 1, 12, 4, 20, 12, 10, 1, 6, 6,
    ],
    // calls are cancelled and killed
    [
        2, 2, 1, 2, 3, 2, 4, 8, 4, 4, 2, 1, 1, 30, 6, 22, 4, 3, 2, 4, 4,
    ],
    // maps
    [
        1, 1, 1, 1, 3, 4, 3, 4, 1, 1, 22, 1, 1, 8, 6, 10, 2, 2, 22, 1, 1,
    ],
    // slots come free
    [
        1, 1, 3, 1, 1, 1, 4, 2, 1, 1, 1, 0, 0, 36, 16, 30, 2, 3, 8, 1, 1,
    ],
];
const FILLS_QUEUE: usize = 2;

/// What a part may begin with: many of a kind, until holds, handles, slots or the queue run full.
const BURSTS: [Option<(Kind, u64)>; 16] = [
    None,
    None,
    None,
    None,
    Some((Kind::Open, 5)),
    Some((Kind::Copy, 20)),
    Some((Kind::Copy, 60)),
    Some((Kind::Put, 6)),
    Some((Kind::Put, 6)),
    Some((Kind::Call, 30)),
    Some((Kind::Call, 66)),
    Some((Kind::Reserve, 66)),
    Some((Kind::Close, 100)),
    Some((Kind::Detach, 130)),
    Some((Kind::Fdwrite, 30)),
    Some((Kind::Fdread, 66)),
];

/// No tail is longer: 128 reads, then four passes over the slots. A side that answers wrongly
/// could hold it up.
const TAIL: u32 = 128 + 4 * 64 + 1;

/// Where the tail stands.
#[derive(Clone, Copy, PartialEq)]
enum Tail {
    Reading,
    Replying,
    Waking(u64),
    Supplying,
    Reserving,
    Over,
}

pub struct Generator {
    pub(crate) draw: Draw,
    scheme: u64,
    pub(crate) occupied: bool,
    pub(crate) state: State,
    pub(crate) given: [Option<Given>; 64],
    part: usize,
    part_left: u64,
    /// The kind that comes again, and how often.
    burst: Option<(Kind, u64)>,
    made: usize,
    tail: Tail,
    tail_left: u32,
}

impl Generator {
    /// `occupied`: obtain entries may be aimed at occupied handles.
    pub fn new(seed: u64, occupied: bool) -> Generator {
        let mut draw = Draw::new(seed);
        let scheme = if draw.chance(50) { 7 } else { draw.word() };
        Generator {
            draw,
            scheme,
            occupied,
            state: State::fresh(),
            given: [None; 64],
            part: 0,
            part_left: 30,
            burst: None,
            made: 0,
            tail: Tail::Reading,
            tail_left: TAIL,
        }
    }

    pub fn scheme(&self) -> u64 {
        self.scheme
    }

    /// The next event: one of `count`, then the tail's, then none.
    pub fn event(&mut self, count: usize) -> Option<Event> {
        if self.made == count {
            self.tail_left = self.tail_left.checked_sub(1)?;
            return self.tail_event();
        }
        self.made += 1;
        if self.part_left == 0 {
            self.part = self.draw.below(PARTS.len() as u64) as usize;
            self.part_left = 20 + self.draw.below(150);
            self.burst = self.draw.one_of(&BURSTS);
        }
        self.part_left -= 1;
        let kind = self.burst_kind().unwrap_or_else(|| self.kind());
        Some(self.aimed(kind))
    }

    /// The kind of a burst while it lasts: it ends soon after there is no room for more.
    fn burst_kind(&mut self) -> Option<Kind> {
        let (kind, left) = self.burst?;
        let room = match kind {
            Kind::Call | Kind::Reserve | Kind::Fdwrite | Kind::Fdread => {
                !self.full() && self.state.queue < 128
            }
            Kind::Close | Kind::Detach => self.state.queue < 128,
            _ => true,
        };
        if left == 0 || !room && self.draw.chance(60) {
            self.burst = None;
            return None;
        }
        self.burst = Some((kind, left - 1));
        let held = self.state.outside.iter().any(|n| *n != 0);
        match kind {
            Kind::Copy | Kind::Put if !held => Some(Kind::Open),
            _ => Some(kind),
        }
    }

    /// What an event answered, and the state that it left.
    pub fn learn(&mut self, event: &Event, line: &Line, state: State) {
        self.state = state;
        let caller = event.caller_of_tag();
        let listed = match event {
            Event::Submit { list, .. } | Event::Call { list, .. } | Event::Fdwrite { list, .. } => {
                list.len() as u64
            }
            _ => 0,
        };
        match (&line.answer, event) {
            (Answer::Ok(tag), _) if caller.is_some() => {
                if let Some(given) = self.given.get_mut(*tag as usize) {
                    *given = caller.map(|caller| Given {
                        caller,
                        ended: false,
                        returned: false,
                        listed,
                        receives: matches!(event, Event::Fdread { .. }),
                    });
                }
            }
            (Answer::Ok(count), Event::Move { meta, .. }) => self.set_listed(meta, *count),
            (Answer::Ok(_), Event::Obtain { meta }) => self.set_listed(meta, 0),
            (Answer::Ok(count), Event::Write { bytes, .. }) => {
                let taken = (*count as usize).min(bytes.len());
                self.learn_entries(&bytes[..taken]);
            }
            (Answer::No(4), Event::Wake { tag, .. }) => {
                if let Some(Some(given)) = self.given.get_mut(*tag as usize) {
                    given.returned = true;
                }
            }
            (Answer::Ok(_), Event::Ended { c }) => {
                let own = self.given.iter_mut().flatten();
                own.filter(|given| given.caller == *c)
                    .for_each(|given| given.ended = true);
            }
            _ => {}
        }
        for (given, phase) in self.given.iter_mut().zip(self.state.slots) {
            if phase == Phase::Vacant {
                *given = None;
            }
        }
    }

    fn set_listed(&mut self, meta: &[u64], listed: u64) {
        let request = meta.get(1).map(|request| *request as usize);
        if let Some(Some(given)) = request.and_then(|request| self.given.get_mut(request)) {
            given.listed = listed;
        }
    }

    /// The Waiting slots whose call is such a one.
    fn waiting(&self, is: fn(&Given) -> bool) -> Vec<u64> {
        let mut tags = self.in_phase(Phase::Waiting);
        tags.retain(|tag| self.given[*tag as usize].as_ref().is_some_and(is));
        tags
    }

    /// Those with a list that is not empty.
    pub(crate) fn with_list(&self) -> Vec<u64> {
        self.waiting(|given| given.listed != 0)
    }

    /// Those of an fdread, with a list or without.
    pub(crate) fn receiving(&self, listed: bool) -> Vec<u64> {
        match listed {
            true => self.waiting(|given| given.receives && given.listed != 0),
            false => self.waiting(|given| given.receives && given.listed == 0),
        }
    }

    pub(crate) fn in_phase(&self, phase: Phase) -> Vec<u64> {
        let slots = self.state.slots.iter().zip(0..);
        slots
            .filter(|(p, _)| **p == phase)
            .map(|(_, tag)| tag)
            .collect()
    }

    fn full(&self) -> bool {
        self.state.slots.iter().all(|phase| *phase != Phase::Vacant)
    }

    /// One that has something to do, mostly.
    fn kind(&mut self) -> Kind {
        let mut kind = self.weighted();
        for _ in 0..6 {
            let takes_slot = matches!(
                kind,
                Kind::Reserve
                    | Kind::Call
                    | Kind::Generic
                    | Kind::Stdfs
                    | Kind::Fmap
                    | Kind::Fdwrite
                    | Kind::Fdread
            );
            let queues = takes_slot && kind != Kind::Reserve
                || matches!(kind, Kind::Submit | Kind::Close | Kind::Detach)
                || kind == Kind::Wake && self.part != FILLS_QUEUE;
            let has = |phase| self.state.slots.contains(&phase);
            let idle = match kind {
                Kind::Submit => !has(Phase::Placeholder),
                Kind::Wake => !has(Phase::Waiting) && !has(Phase::Responded),
                Kind::Supply => !has(Phase::Fmap),
                Kind::Move | Kind::Obtain => !has(Phase::Waiting),
                Kind::Copy | Kind::Drop | Kind::Put => self.state.outside.iter().all(|n| *n == 0),
                _ => false,
            };
            let stopped = takes_slot && self.full() || queues && self.state.queue == 128;
            if !idle && !stopped || self.draw.chance(8) {
                break;
            }
            kind = if stopped && self.state.queue == 128 && self.draw.chance(30) {
                // a full queue is kept for a while where it is the aim
                if self.part == FILLS_QUEUE && self.draw.chance(70) {
                    Kind::Write
                } else {
                    Kind::Read
                }
            } else {
                self.weighted()
            };
        }
        kind
    }

    fn weighted(&mut self) -> Kind {
        KINDS[self.draw.weighted(&PARTS[self.part])]
    }

    /// Reads the queue empty, replies to every Waiting slot, wakes every Responded one by its
    /// caller, supplies every Fmap, then reserves until there is no slot.
    fn tail_event(&mut self) -> Option<Event> {
        loop {
            match self.tail {
                Tail::Reading if self.state.queue != 0 => {
                    let len = self.draw.one_of(&[64, 640, 1_000, 8_192]);
                    let flags = 0;
                    return Some(Event::Read { len, flags });
                }
                Tail::Reading => self.tail = Tail::Replying,
                Tail::Replying => match self.in_phase(Phase::Waiting).first() {
                    Some(tag) => {
                        let mut bytes = vec![0; 16];
                        bytes[0] = self.draw.one_of(&[0, 4]);
                        bytes[4] = *tag as u8;
                        bytes[8] = self.draw.byte();
                        return Some(Event::Write { words: 54, bytes });
                    }
                    None => self.tail = Tail::Waking(0),
                },
                Tail::Waking(64) => self.tail = Tail::Supplying,
                Tail::Waking(tag) => {
                    self.tail = Tail::Waking(tag + 1);
                    if self.state.slots[tag as usize] == Phase::Responded
                        && let Some(given) = self.given[tag as usize]
                    {
                        return Some(Event::Wake {
                            tag,
                            c: given.caller,
                            killed: self.draw.below(2),
                            base: 1,
                            count: 1,
                        });
                    }
                }
                Tail::Supplying => match self.in_phase(Phase::Fmap).first() {
                    Some(tag) => {
                        return Some(Event::Supply {
                            tag: *tag,
                            offset: 0,
                            base: 4_096,
                            count: 1,
                        });
                    }
                    None => self.tail = Tail::Reserving,
                },
                Tail::Reserving => {
                    if self.full() {
                        self.tail = Tail::Over;
                    }
                    return Some(Event::Reserve { c: 1 });
                }
                Tail::Over => return None,
            }
        }
    }
}
