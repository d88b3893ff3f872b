//! An event of a kind, aimed at what the run has: most of them do something, some are refused, a
//! few are wild.

use script::{Event, FdCall, Payload, Phase};

use crate::draw::Draw;
use crate::model::{Generator, Kind};

const CALLERS: [u32; 8] = [1, 2, 3, 4, 5, 100, 0, u32::MAX];
const NON_BLOCKING: u32 = 0x0004_0000;

/// The verbs of a driver's calls.
const OBTAIN: u64 = 0;
const MOVE: u64 = 1;

/// The flags of a call that fdwrite and fdread look at.
const FD_EXCLUSIVE: u64 = 1 << 12;
const FD_UPPER: u64 = 1 << 14;

fn args(draw: &mut Draw) -> [u64; 6] {
    [(); 6].map(|()| draw.word())
}

fn opcode(draw: &mut Draw) -> u64 {
    match draw.below(100) {
        0..97 => 3 + draw.below(32),
        97 | 98 => draw.one_of(&[0, 1, 2, 35, 36, 255, 256, 259]),
        _ => draw.word(),
    }
}

/// Either bit that is looked at, both, none, all but one, all, a bit nearby.
fn call_flags(draw: &mut Draw) -> u64 {
    match draw.below(100) {
        0..15 => 0,
        15..30 => FD_EXCLUSIVE,
        30..45 => FD_UPPER,
        45..60 => FD_EXCLUSIVE | FD_UPPER,
        60..68 => !FD_EXCLUSIVE,
        68..76 => !FD_UPPER,
        76..80 => u64::MAX,
        80..90 => 1 << (10 + draw.below(8)),
        _ => draw.word(),
    }
}

/// No words to three, mostly.
fn fd_meta(draw: &mut Draw) -> Vec<u64> {
    match draw.chance(95) {
        true => words(draw, 3),
        false => words(draw, 40),
    }
}

/// The bytes of a payload: mostly whole words, as many as a list may have or about so many.
fn payload_length(draw: &mut Draw) -> u64 {
    match draw.below(100) {
        0..35 => 8 * draw.below(4),
        35..65 => 8 * draw.below(18),
        65..78 => draw.below(140),
        78..90 => draw.word() & !7,
        _ => draw.word(),
    }
}

/// A list of words, of no length more than others.
fn words(draw: &mut Draw, most: u64) -> Vec<u64> {
    let count = draw.below(most + 1);
    (0..count).map(|_| draw.word()).collect()
}

impl Generator {
    fn caller(&mut self) -> u32 {
        self.draw.one_of(&CALLERS)
    }

    /// Descriptions that have outside holds.
    fn outside(&self) -> Vec<u64> {
        let outside = self.state.outside.iter().zip(0..);
        outside.filter(|(n, _)| **n != 0).map(|(_, d)| d).collect()
    }

    fn odd_number(&mut self) -> u64 {
        if self.draw.chance(60) {
            self.draw.below(64)
        } else {
            self.draw.word()
        }
    }

    fn outside_one(&mut self) -> u64 {
        let outside = self.outside();
        match self.draw.maybe_of(&outside) {
            Some(d) if !self.draw.chance(8) => d,
            _ => self.odd_number(),
        }
    }

    fn unopened(&mut self) -> u64 {
        let holds = self.state.holds.iter().zip(0..);
        // few descriptions, so that they are listed again and again
        let most = if self.draw.chance(80) { 8 } else { 64 };
        let unopened: Vec<u64> = holds
            .filter(|(n, d)| **n == 0 && *d < most)
            .map(|(_, d)| d)
            .collect();
        match self.draw.maybe_of(&unopened) {
            Some(d) if !self.draw.chance(8) => d,
            _ => self.odd_number(),
        }
    }

    /// A list that outside holds allow, unless it is odd.
    fn list(&mut self) -> Vec<u64> {
        let mut left = self.state.outside;
        let most = match self.draw.below(100) {
            0..45 => 0,
            45..65 => 1,
            65..80 => 2 + self.draw.below(3),
            80..88 => 5 + self.draw.below(10),
            88..98 => 16,
            _ => 17 + self.draw.below(3),
        };
        let mut list = Vec::new();
        let again = self.draw.chance(40);
        for _ in 0..most {
            let last = list
                .last()
                .copied()
                .filter(|d| again && left[*d as usize] != 0);
            let held: Vec<u64> = (0..64).filter(|d| left[*d as usize] != 0).collect();
            let Some(d) = last.or_else(|| self.draw.maybe_of(&held)) else {
                break;
            };
            left[d as usize] -= 1;
            list.push(d);
        }
        if self.draw.chance(2) {
            let odd = self.odd_number();
            let place = self.draw.below(list.len() as u64 + 1) as usize;
            list.insert(place, odd);
        }
        list
    }

    /// A tag in that phase, mostly, or another.
    pub(crate) fn tag_in(&mut self, phase: Phase) -> u64 {
        let tags = self.in_phase(phase);
        match self.draw.maybe_of(&tags) {
            Some(tag) if !self.draw.chance(10) => tag,
            _ => self.odd_number(),
        }
    }

    fn owner(&mut self, tag: u64) -> u32 {
        let given = usize::try_from(tag)
            .ok()
            .and_then(|tag| *self.given.get(tag)?);
        match given {
            Some(given) if !self.draw.chance(3) => given.caller,
            _ => self.caller(),
        }
    }

    /// What fdwrite and fdread share; what one of them has behind the number is drawn there.
    fn fd_call<T>(&mut self, behind_number: fn(&mut Draw) -> T) -> (FdCall, T) {
        let (c, number) = (self.caller(), self.draw.word());
        let behind = behind_number(&mut self.draw);
        let call = FdCall {
            c,
            number,
            flags: call_flags(&mut self.draw),
            meta: fd_meta(&mut self.draw),
            uid: self.draw.half(),
            gid: self.draw.half(),
            pid: self.draw.word(),
        };
        (call, behind)
    }

    fn payload(&mut self, kinds: &[u64]) -> Payload {
        let draw = &mut self.draw;
        let fds = match draw.below(100) {
            0..45 => 1,
            45..90 => 2,
            90..95 => 0,
            _ => 3 + draw.below(3),
        };
        let mut meta = match draw.below(100) {
            0..60 => (0..3).map(|_| draw.word()).collect(),
            60..95 => words(draw, 6),
            _ => words(draw, 40),
        };
        if let Some(kind) = meta.first_mut()
            && !kinds.is_empty()
        {
            let low = match draw.below(100) {
                0..80 => draw.one_of(kinds),
                80..92 => draw.one_of(&[0, 9, 17, 18, 255]),
                _ => *kind & 0xff,
            };
            *kind = *kind & !0xff | low;
        }
        Payload {
            c: draw.one_of(&CALLERS),
            pid: draw.word(),
            fds: (0..fds).map(|_| draw.word()).collect(),
            base: draw.word(),
            len: draw.word(),
            meta,
        }
    }

    fn wake(&mut self) -> Event {
        let mut good = Vec::new();
        for (tag, given) in self.given.iter().enumerate() {
            let phase = self.state.slots[tag];
            let Some(given) = given else { continue };
            if given.ended || given.returned {
                continue;
            }
            // a reply is handed over sooner than a call is disturbed
            match phase {
                Phase::Waiting => good.push(tag as u64),
                Phase::Responded => good.extend([tag as u64; 3]),
                _ => {}
            }
        }
        let tag = match self.draw.below(100) {
            0..90 => match self.draw.maybe_of(&good) {
                Some(tag) => tag,
                None => self.tag_in(Phase::Waiting),
            },
            90..93 => self.tag_in(Phase::Responded),
            93..95 => self.tag_in(Phase::Placeholder),
            95 => self.tag_in(Phase::Fmap),
            _ => self.odd_number(),
        };
        let c = self.owner(tag);
        let draw = &mut self.draw;
        Event::Wake {
            tag,
            c,
            killed: match draw.below(100) {
                0..65 => 0,
                65..98 => 1,
                _ => draw.word(),
            },
            base: draw.word(),
            count: if draw.chance(40) { 0 } else { draw.word() },
        }
    }

    fn read(&mut self) -> Event {
        let draw = &mut self.draw;
        let len = match draw.below(100) {
            0..45 => 64 * (1 + draw.below(4)),
            45..60 => draw.below(64),
            60..75 => draw.below(600),
            75..85 => 64 * draw.below(130),
            85..92 => 8_192,
            _ => draw.word(),
        };
        let flags = match draw.below(100) {
            0..50 => NON_BLOCKING,
            50..85 => 0,
            85..95 => draw.half() | NON_BLOCKING,
            _ => draw.half(),
        };
        Event::Read { len, flags }
    }

    fn meta(&mut self, verb: u64) -> Vec<u64> {
        let verb = match self.draw.below(100) {
            0..92 => verb,
            92..96 => 1 - verb,
            _ => self.draw.word(),
        };
        let mut request = self.tag_in(Phase::Waiting);
        let listed = self.with_list();
        if let Some(listed) = self.draw.maybe_of(&listed)
            && self.draw.chance(50)
        {
            request = listed;
        }
        // an fdread has no list of its own
        let receiving = self.receiving(false);
        if let Some(receiving) = self.draw.maybe_of(&receiving)
            && verb == MOVE
            && self.draw.chance(60)
        {
            request = receiving;
        }
        if self.draw.chance(3) {
            request |= 1 << 32;
        }
        match self.draw.below(100) {
            0..94 => vec![verb, request],
            94 => vec![verb],
            95 => vec![],
            96 | 97 => vec![verb, request, self.draw.word()],
            _ => words(&mut self.draw, 20),
        }
    }

    fn supply(&mut self) -> Event {
        let tag = self.tag_in(Phase::Fmap);
        let draw = &mut self.draw;
        let mut page = || match draw.below(100) {
            0..90 => draw.word() & !4_095,
            _ => draw.word(),
        };
        Event::Supply {
            tag,
            offset: page(),
            base: page(),
            count: if draw.chance(92) { 1 } else { draw.word() },
        }
    }

    pub(crate) fn aimed(&mut self, kind: Kind) -> Event {
        match kind {
            Kind::Open => Event::Open { d: self.unopened() },
            Kind::Copy => Event::Copy {
                d: self.outside_one(),
            },
            Kind::Drop => Event::Drop {
                d: self.outside_one(),
            },
            Kind::Put => {
                let d = self.outside_one();
                let handles = self.state.handles.iter().zip(0..);
                let most = if self.draw.chance(70) { 6 } else { 64 };
                let empty: Vec<u64> = handles
                    .filter(|(held, h)| held.is_none() && *h < most)
                    .map(|(_, h)| h)
                    .collect();
                let h = match self.draw.maybe_of(&empty) {
                    Some(h) if !self.draw.chance(6) => h,
                    _ => self.odd_number(),
                };
                Event::Put { d, h }
            }
            Kind::Ended => {
                let callers: Vec<u32> = self.given.iter().flatten().map(|g| g.caller).collect();
                let c = match self.draw.maybe_of(&callers) {
                    Some(c) if !self.draw.chance(10) => c,
                    _ => self.caller(),
                };
                Event::Ended { c }
            }
            Kind::Reserve => Event::Reserve { c: self.caller() },
            Kind::Submit => {
                let tag = self.tag_in(Phase::Placeholder);
                Event::Submit {
                    tag,
                    c: self.owner(tag),
                    op: opcode(&mut self.draw),
                    fl: self.draw.byte(),
                    args: args(&mut self.draw),
                    pid: self.draw.word(),
                    list: self.list(),
                }
            }
            Kind::Call => Event::Call {
                c: self.caller(),
                op: opcode(&mut self.draw),
                args: args(&mut self.draw),
                uid: self.draw.half(),
                gid: self.draw.half(),
                pid: self.draw.word(),
                list: self.list(),
            },
            Kind::Generic => Event::Generic(self.payload(&[])),
            Kind::Stdfs => {
                let kinds: Vec<u64> = (1..9).chain(10..17).collect();
                Event::Stdfs(self.payload(&kinds))
            }
            Kind::Fmap => Event::Fmap {
                c: self.caller(),
                id: self.draw.word(),
                pages: self.draw.word(),
                flags: self.draw.word(),
                uid: self.draw.half(),
                gid: self.draw.half(),
                pid: self.draw.word(),
            },
            Kind::Close => Event::Close {
                id: self.draw.word(),
            },
            Kind::Detach => Event::Detach {
                id: self.draw.word(),
                pid: self.draw.word(),
            },
            Kind::Wake => self.wake(),
            Kind::Read => self.read(),
            Kind::Write => self.write(),
            Kind::Move => {
                let meta = self.meta(MOVE);
                let mut list = self.list();
                if list.is_empty() && self.draw.chance(60) {
                    list = self.list();
                }
                Event::Move { meta, list }
            }
            Kind::Obtain => Event::Obtain {
                meta: self.meta(OBTAIN),
            },
            Kind::Supply => self.supply(),
            Kind::Fdwrite => Event::Fdwrite {
                call: self.fd_call(|_| ()).0,
                list: self.list(),
            },
            Kind::Fdread => {
                let (call, len) = self.fd_call(payload_length);
                Event::Fdread { call, len }
            }
        }
    }
}
