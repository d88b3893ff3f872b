//! Events and output lines as bytes: the run's format, docs/FORMAT.md.

use std::fmt::{self, Display, Formatter};

use crate::event::{Event, FdCall, Payload};
use crate::output::{Answer, Line, Reply};
use crate::state::State;

/// What the format has no place for.
#[derive(Clone, Copy, Debug, PartialEq, Eq)]
pub enum NoPlace {
    /// A list in an event of more than 255 words, and how many it has.
    List(usize),
    /// A write of 2^32 bytes or more, and how many it has.
    Bytes(usize),
    /// A line that is no event of a run, or its answer: the word that it begins with.
    Question(&'static str),
    /// The answer `skip`, which a run never gives.
    Skip,
    /// Status words that are not those of the slots: the slots' own states are not written.
    Status,
    /// The handle with that number holds description 2^64 - 1: one more is no word.
    Handle(usize),
}

impl Display for NoPlace {
    fn fmt(&self, f: &mut Formatter) -> fmt::Result {
        match self {
            NoPlace::List(len) => write!(f, "a list of {len} words, more than 255"),
            NoPlace::Bytes(len) => write!(f, "a write of {len} bytes, 2^32 or more"),
            NoPlace::Question(name) => {
                write!(f, "the line `{name}`, which is no event of a run")
            }
            NoPlace::Skip => write!(f, "the answer `skip`"),
            NoPlace::Status => write!(f, "status words that are not those of the slots"),
            NoPlace::Handle(h) => write!(f, "handle {h} holds description 2^64 - 1"),
        }
    }
}

impl std::error::Error for NoPlace {}

/// The bytes of a full queue: no read stores more.
const QUEUE_BYTES: u64 = 8_192;

/// The parts of a record that are not 0 or empty for every event.
#[derive(Default)]
struct Record<'a> {
    kind: u8,
    flags: u8,
    /// The caller, a read's flags or a write's length.
    number: u32,
    uid: u32,
    gid: u32,
    words: Vec<u64>,
    first: &'a [u64],
    second: &'a [u64],
    bytes: &'a [u8],
}

fn put_words(out: &mut Vec<u8>, words: &[u64]) {
    words
        .iter()
        .for_each(|word| out.extend_from_slice(&word.to_le_bytes()));
}

fn list_len(list: &[u64]) -> Result<u8, NoPlace> {
    u8::try_from(list.len()).map_err(|_| NoPlace::List(list.len()))
}

impl Record<'_> {
    fn encode(&self) -> Result<Vec<u8>, NoPlace> {
        let (first, second) = (list_len(self.first)?, list_len(self.second)?);
        let mut out = vec![self.kind, first, second, self.flags];
        for number in [self.number, self.uid, self.gid] {
            out.extend_from_slice(&number.to_le_bytes());
        }
        put_words(&mut out, &self.words);
        put_words(&mut out, self.first);
        put_words(&mut out, self.second);
        out.extend_from_slice(self.bytes);
        Ok(out)
    }
}

fn of_words(kind: u8, words: &[u64]) -> Record<'static> {
    Record {
        kind,
        words: words.to_vec(),
        ..Record::default()
    }
}

fn of_caller(kind: u8, c: u32) -> Record<'static> {
    Record {
        kind,
        number: c,
        ..Record::default()
    }
}

fn of_payload(kind: u8, payload: &Payload) -> Record<'_> {
    Record {
        first: &payload.fds,
        second: &payload.meta,
        words: vec![payload.pid, payload.base, payload.len],
        ..of_caller(kind, payload.c)
    }
}

fn of_fd_call(kind: u8, call: &FdCall) -> Record<'_> {
    Record {
        uid: call.uid,
        gid: call.gid,
        first: &call.meta,
        ..of_caller(kind, call.c)
    }
}

impl Event {
    /// The event's record, but for what is no event of a run or doesn't fit into one.
    pub fn encode(&self) -> Result<Vec<u8>, NoPlace> {
        let record = match self {
            Event::Open { d } => of_words(1, &[*d]),
            Event::Copy { d } => of_words(2, &[*d]),
            Event::Drop { d } => of_words(3, &[*d]),
            Event::Put { d, h } => of_words(4, &[*d, *h]),
            Event::Ended { c } => of_caller(5, *c),
            Event::Reserve { c } => of_caller(6, *c),
            Event::Submit {
                tag,
                c,
                op,
                fl,
                args: [a0, a1, a2, a3, a4, a5],
                pid,
                list,
            } => Record {
                flags: *fl,
                words: vec![*tag, *op, *a0, *a1, *a2, *a3, *a4, *a5, *pid],
                first: list,
                ..of_caller(7, *c)
            },
            Event::Call {
                c,
                op,
                args: [a0, a1, a2, a3, a4, a5],
                uid,
                gid,
                pid,
                list,
            } => Record {
                uid: *uid,
                gid: *gid,
                words: vec![*op, *a0, *a1, *a2, *a3, *a4, *a5, *pid],
                first: list,
                ..of_caller(8, *c)
            },
            Event::Generic(payload) => of_payload(9, payload),
            Event::Stdfs(payload) => of_payload(10, payload),
            Event::Fmap {
                c,
                id,
                pages,
                flags,
                uid,
                gid,
                pid,
            } => Record {
                uid: *uid,
                gid: *gid,
                words: vec![*id, *pages, *flags, *pid],
                ..of_caller(11, *c)
            },
            Event::Close { id } => of_words(12, &[*id]),
            Event::Detach { id, pid } => of_words(13, &[*id, *pid]),
            Event::Wake {
                tag,
                c,
                killed,
                base,
                count,
            } => Record {
                words: vec![*tag, *killed, *base, *count],
                ..of_caller(14, *c)
            },
            Event::Read { len, flags } => Record {
                number: *flags,
                ..of_words(15, &[*len])
            },
            Event::Write { words, bytes } => Record {
                number: u32::try_from(bytes.len()).map_err(|_| NoPlace::Bytes(bytes.len()))?,
                bytes,
                ..of_words(16, &[*words])
            },
            Event::Move { meta, list } => Record {
                kind: 17,
                first: meta,
                second: list,
                ..Record::default()
            },
            Event::Obtain { meta } => Record {
                kind: 18,
                first: meta,
                ..Record::default()
            },
            Event::Supply {
                tag,
                offset,
                base,
                count,
            } => of_words(19, &[*tag, *offset, *base, *count]),
            Event::Fdwrite { call, list } => Record {
                words: vec![call.number, call.flags, call.pid],
                second: list,
                ..of_fd_call(20, call)
            },
            Event::Fdread { call, len } => Record {
                words: vec![call.number, *len, call.flags, call.pid],
                ..of_fd_call(21, call)
            },
            Event::Front { .. } | Event::Status => return Err(NoPlace::Question(self.name())),
        };
        record.encode()
    }

    /// How many bytes a run's output needs for it.
    pub fn room(&self) -> usize {
        let more = match self {
            Event::Read { len, .. } => (*len).min(QUEUE_BYTES) as usize,
            Event::Write { bytes, .. } => 27 * bytes.len(),
            _ => 0,
        };
        192 + more
    }
}

impl Line {
    /// What a run writes of one event.
    pub fn encode(&self) -> Result<Vec<u8>, NoPlace> {
        let mut words = match &self.answer {
            Answer::Ok(value) => vec![0, *value],
            Answer::No(number) => vec![1, *number],
            Answer::Wait => vec![2, 0],
            Answer::Blocked => vec![3, 0],
            Answer::Reply(Reply::Regular {
                result,
                extra0,
                notice,
            }) => {
                let (kind, value) = match result {
                    Ok(word) => (4, *word),
                    Err(errno) => (5, *errno),
                };
                vec![kind, value, u64::from(*extra0), u64::from(*notice)]
            }
            Answer::Reply(Reply::Fd(d)) => vec![6, *d],
            Answer::Reply(Reply::Many(list)) => {
                let mut words = vec![7, list.len() as u64];
                words.extend(list);
                words
            }
            Answer::Status(_) => return Err(NoPlace::Question(Event::Status.name())),
            Answer::Skip => return Err(NoPlace::Skip),
        };
        words.push(3 * self.effects.len() as u64);
        for effect in &self.effects {
            words.extend([effect.kind, effect.a, effect.b]);
        }
        words.push(self.bytes.len() as u64);
        let mut out = Vec::new();
        put_words(&mut out, &words);
        out.extend_from_slice(&self.bytes);
        Ok(out)
    }
}

impl State {
    /// How many bytes a run's output needs for it.
    pub const BYTES: usize = 1_624;

    /// What a run writes after its last event.
    pub fn encode(&self) -> Result<Vec<u8>, NoPlace> {
        if !self.has_its_status() {
            return Err(NoPlace::Status);
        }
        let mut words = vec![self.queue];
        words.extend(self.holds);
        words.extend(self.outside);
        for (h, handle) in self.handles.iter().enumerate() {
            words.push(match handle {
                None => 0,
                Some(d) => d.checked_add(1).ok_or(NoPlace::Handle(h))?,
            });
        }
        for (word, ones) in self.status {
            words.extend([word, ones]);
        }
        let mut out = Vec::new();
        put_words(&mut out, &words);
        Ok(out)
    }
}

#[cfg(test)]
mod tests {
    use super::*;
    use crate::fields::hex;
    use crate::state::Phase;

    /// Hex digits with spaces between parts; `7*00` is seven bytes 00.
    fn bytes(text: &str) -> String {
        let mut out = String::new();
        for part in text.split_whitespace() {
            match part.split_once('*') {
                Some((count, byte)) => out += &byte.repeat(count.parse().unwrap()),
                None => out += part,
            }
        }
        out
    }

    /// Written out by hand from docs/FORMAT.md: the head in parts of four bytes, then the words.
    #[test]
    fn records() {
        for (line, wanted) in [
            ("open 1", "01000000 12*00 01 7*00"),
            ("copy 513", "02000000 12*00 0102 6*00"),
            ("drop 18446744073709551615", "03000000 12*00 8*ff"),
            ("put 1 2", "04000000 12*00 01 7*00 02 7*00"),
            ("ended 4294967295", "05000000 ffffffff 8*00"),
            ("reserve 256", "06000000 00010000 8*00"),
            (
                "submit 10 11 12 13 1 2 3 4 5 6 7 2 8 9",
                "0702000d 0b000000 8*00 0a 7*00 0c 7*00 01 7*00 02 7*00 03 7*00 04 7*00 05 7*00
                 06 7*00 07 7*00 08 7*00 09 7*00",
            ),
            (
                "call 10 11 1 2 3 4 5 6 7 8 9 1 12",
                "08010000 0a000000 07000000 08000000 0b 7*00 01 7*00 02 7*00 03 7*00 04 7*00
                 05 7*00 06 7*00 09 7*00 0c 7*00",
            ),
            (
                "generic 1 2 2 3 4 5 6 3 7 8 9",
                "09020300 01000000 8*00 02 7*00 05 7*00 06 7*00 03 7*00 04 7*00 07 7*00 08 7*00
                 09 7*00",
            ),
            (
                "stdfs 1 2 0 3 4 1 5",
                "0a000100 01000000 8*00 02 7*00 03 7*00 04 7*00 05 7*00",
            ),
            (
                "fmap 1 2 3 4 5 6 7",
                "0b000000 01000000 05000000 06000000 02 7*00 03 7*00 04 7*00 07 7*00",
            ),
            ("close 1", "0c000000 12*00 01 7*00"),
            ("detach 1 2", "0d000000 12*00 01 7*00 02 7*00"),
            (
                "wake 1 2 3 4 5",
                "0e000000 02000000 8*00 01 7*00 03 7*00 04 7*00 05 7*00",
            ),
            ("read 64 262144", "0f000000 00000400 8*00 40 7*00"),
            ("write 54 a1b2c3", "10000000 03000000 8*00 36 7*00 a1b2c3"),
            ("write 0 -", "10000000 12*00 8*00"),
            (
                "move 2 1 2 3 4 5 6",
                "11020300 12*00 01 7*00 02 7*00 04 7*00 05 7*00 06 7*00",
            ),
            ("obtain 1 9", "12010000 12*00 09 7*00"),
            (
                "supply 1 2 3 4",
                "13000000 12*00 01 7*00 02 7*00 03 7*00 04 7*00",
            ),
            (
                "fdwrite 1 2 3 1 4 5 6 7 3 8 9 10",
                "14010300 01000000 05000000 06000000 02 7*00 03 7*00 07 7*00 04 7*00 08 7*00
                 09 7*00 0a 7*00",
            ),
            (
                "fdwrite 4294967295 1 18446744073709551615 0 4294967295 256 2 0",
                "14000000 ffffffff ffffffff 00010000 01 7*00 8*ff 02 7*00",
            ),
            (
                "fdread 1 2 3 4 2 5 6 7 8 9",
                "15020000 01000000 07000000 08000000 02 7*00 03 7*00 04 7*00 09 7*00 05 7*00
                 06 7*00",
            ),
        ] {
            let event = Event::parse(line).unwrap();
            assert_eq!(hex(&event.encode().unwrap()), bytes(wanted), "{line}");
            assert!(event.is_of_a_run(), "{line}");
        }
    }

    #[test]
    fn what_an_event_says() {
        for (line, wanted) in [
            ("ok 513", "8*00 0102 6*00 8*00 8*00"),
            ("no 205", "01 7*00 cd 7*00 8*00 8*00"),
            ("wait", "02 7*00 8*00 8*00 8*00"),
            (
                "blocked ; E 5 7 1",
                "03 7*00 8*00 03 7*00 05 7*00 07 7*00 01 7*00 8*00",
            ),
            (
                "reply regular ok 18446744073709551615 255 0",
                "04 7*00 8*ff ff 7*00 8*00 8*00 8*00",
            ),
            (
                "reply regular err 132 3 1",
                "05 7*00 84 7*00 03 7*00 01 7*00 8*00 8*00",
            ),
            ("reply fd 63", "06 7*00 3f 7*00 8*00 8*00"),
            ("reply many 0", "07 7*00 8*00 8*00 8*00"),
            (
                "reply many 3 1 2 1",
                "07 7*00 03 7*00 01 7*00 02 7*00 01 7*00 8*00 8*00",
            ),
            (
                "ok 16 ; E 1 100 2 ; E 3 4 0",
                "8*00 10 7*00 06 7*00 01 7*00 64 7*00 02 7*00 03 7*00 04 7*00 8*00 8*00",
            ),
            ("ok 3 ; B a1b2c3", "8*00 03 7*00 8*00 03 7*00 a1b2c3"),
        ] {
            let line_read = Line::parse(line).unwrap();
            assert_eq!(hex(&line_read.encode().unwrap()), bytes(wanted), "{line}");
        }
    }

    #[test]
    fn the_state() {
        let fresh = State::fresh().encode().unwrap();
        assert_eq!(fresh, [0; 1624]);
        assert_eq!(fresh.len(), State::BYTES);
        let mut state = State::fresh();
        state.slots[0] = Phase::Responded;
        state.slots[1] = Phase::Waiting;
        state.slots[2] = Phase::Placeholder;
        state.slots[9] = Phase::Placeholder;
        state.slots[10] = Phase::Waiting;
        state.slots[63] = Phase::Fmap;
        state.status = State::status_of(&state.slots, 1 << 10);
        state.queue = 128;
        state.holds[0] = 65_535;
        state.outside[63] = 2;
        state.handles[0] = Some(0);
        state.handles[63] = Some(63);
        let wanted = "80 7*00 ffff 6*00 504*00 504*00 02 7*00 01 7*00 496*00 40 7*00
                      0402 6*00 02 7*00 02 7*00 01 7*00 01 7*00 01 7*00 7*00 80 01 7*00 0004 6*00 01 7*00";
        assert_eq!(hex(&state.encode().unwrap()), bytes(wanted));
    }

    #[test]
    fn room() {
        for (line, wanted) in [
            ("open 1", 192),
            ("read 100 0", 292),
            ("read 18446744073709551615 0", 192 + 8_192),
            ("write 0 -", 192),
            ("write 54 00112233", 192 + 4 * 27),
        ] {
            assert_eq!(Event::parse(line).unwrap().room(), wanted, "{line}");
        }
    }

    #[test]
    fn no_place() {
        let mut event = Event::Obtain { meta: vec![7; 255] };
        let record = event.encode().unwrap();
        assert_eq!((record.len(), record[1]), (16 + 8 * 255, 255));
        event = Event::Obtain { meta: vec![7; 256] };
        assert_eq!(event.encode(), Err(NoPlace::List(256)));
        event = Event::Move {
            meta: vec![],
            list: vec![0; 300],
        };
        assert_eq!(event.encode(), Err(NoPlace::List(300)));
        for (line, name) in [("front fdread many 0", "front"), ("status", "status")] {
            event = Event::parse(line).unwrap();
            assert_eq!(event.encode(), Err(NoPlace::Question(name)));
            assert!(!event.is_of_a_run());
        }
        let words = Line::answer(Answer::Status(State::fresh().status));
        assert_eq!(words.encode(), Err(NoPlace::Question("status")));
        assert_eq!(Line::answer(Answer::Skip).encode(), Err(NoPlace::Skip));
        let mut state = State::fresh();
        state.handles[5] = Some(u64::MAX);
        assert_eq!(state.encode(), Err(NoPlace::Handle(5)));
        state.slots[0] = Phase::Waiting;
        assert_eq!(state.encode(), Err(NoPlace::Status));
    }
}
