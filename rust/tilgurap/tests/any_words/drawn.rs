//! Arbitrary words, and events with arbitrary arguments, most of which are aimed at what the words
//! hold: a tag in a state, that slot's caller, an open description, a handle in use.

use generate::Draw;
use script::{Event, FdCall, Payload};

use crate::ffi::Words;
use crate::places::{ALL, CALLER, HANDLES, MARKS, OUTSIDE, QUEUE, SLOT};

/// The events there are, from `open` to `fdread`.
pub const EVENTS: usize = 21;
pub const ENDED: usize = 4;

const LIMITS: [u64; 8] = [
    63,
    64,
    128,
    65_535,
    65_536,
    u32::MAX as u64,
    1 << 32,
    u64::MAX,
];

/// 0 to 70, or a limit.
fn small(draw: &mut Draw) -> u64 {
    let word = draw.any();
    if word.is_multiple_of(8) {
        LIMITS[(word / 8 % 8) as usize]
    } else {
        ((word >> 32) * 71) >> 32
    }
}

/// All words uniform.
pub fn any_words(draw: &mut Draw) -> Words {
    std::array::from_fn(|_| draw.any())
}

/// All words small or limits, and any marks on the slots.
pub fn small_words(draw: &mut Draw) -> Words {
    let mut words = std::array::from_fn(|_| small(draw));
    for slot in 0..64 {
        words[SLOT * slot] |= draw.any() & MARKS;
    }
    words
}

/// Up to seven words become others, most of them before the queue's.
pub fn corrupted(draw: &mut Draw, mut words: Words) -> Words {
    for _ in 0..draw.below(8) {
        let within = if draw.chance(80) { QUEUE } else { words.len() };
        let word = &mut words[draw.below(within as u64) as usize];
        *word = match draw.below(4) {
            0 => *word ^ 1 << draw.below(64),
            1 => draw.any(),
            _ => small(draw),
        };
    }
    words
}

/// One of 64 that is so, where there is one, else any.
fn aimed(draw: &mut Draw, is_so: impl Fn(usize) -> bool) -> u64 {
    let from = draw.below(64) as usize;
    let mut places = (from..from + 64).map(|place| place % 64);
    places.find(|place| is_so(*place)).unwrap_or(from) as u64
}

/// As `aimed`, and now and then any number.
fn number(draw: &mut Draw, is_so: impl Fn(usize) -> bool) -> u64 {
    match draw.below(8) {
        0 => small(draw),
        1 => draw.word(),
        _ => aimed(draw, is_so),
    }
}

fn tag(draw: &mut Draw, words: &Words) -> u64 {
    let state = 1 + draw.below(4);
    number(draw, |slot| words[SLOT * slot] % 256 == state)
}

/// Few, so that they match.
fn caller(draw: &mut Draw) -> u32 {
    if draw.chance(90) {
        draw.below(4) as u32
    } else {
        draw.half()
    }
}

fn caller_of(draw: &mut Draw, words: &Words, tag: u64) -> u32 {
    if tag < 64 && draw.chance(80) {
        words[SLOT * tag as usize + CALLER] as u32
    } else {
        caller(draw)
    }
}

/// A description with so many outside holds.
fn held(draw: &mut Draw, words: &Words, least: u64) -> u64 {
    number(draw, |d| words[ALL + d] != 0 && words[OUTSIDE + d] >= least)
}

/// 0 to 20 descriptions.
fn list(draw: &mut Draw, words: &Words) -> Vec<u64> {
    match draw.below(8) {
        0 | 1 => Vec::new(),
        2 => (0..draw.below(21)).map(|_| draw.below(71)).collect(),
        // one many times: 16 are the most that a list may have
        3 => {
            let many = 14 + draw.below(7);
            vec![held(draw, words, many); many as usize]
        }
        _ => (0..1 + draw.below(4))
            .map(|_| held(draw, words, 1))
            .collect(),
    }
}

fn opcode(draw: &mut Draw) -> u64 {
    match draw.below(8) {
        0 => draw.below(61),
        1 => draw.word(),
        _ => 3 + draw.below(32),
    }
}

fn args(draw: &mut Draw) -> [u64; 6] {
    std::array::from_fn(|_| draw.any())
}

fn payload(draw: &mut Draw) -> Payload {
    let (files, metadata) = (draw.below(4), draw.below(5));
    let mut meta: Vec<u64> = (0..metadata).map(|_| draw.any()).collect();
    if let Some(kind) = meta.first_mut().filter(|_| draw.chance(75)) {
        *kind = draw.below(18);
    }
    Payload {
        c: caller(draw),
        pid: draw.any(),
        fds: (0..files).map(|_| draw.word()).collect(),
        base: draw.any(),
        len: draw.any(),
        meta,
    }
}

/// 0 to 4 words.
fn any_metadata(draw: &mut Draw) -> Vec<u64> {
    (0..draw.below(5)).map(|_| draw.any()).collect()
}

fn fd_call(draw: &mut Draw) -> FdCall {
    FdCall {
        c: caller(draw),
        number: draw.any(),
        flags: draw.any(),
        meta: any_metadata(draw),
        uid: draw.half(),
        gid: draw.half(),
        pid: draw.any(),
    }
}

/// One completion entry.
fn entry(draw: &mut Draw, words: &Words) -> [u8; 16] {
    let kind = draw.below(8) as u8;
    let spare = if draw.chance(25) { draw.byte() } else { 0 };
    let result = match kind {
        1 => number(draw, |handle| words[HANDLES + handle] != 0),
        3 => number(draw, |handle| words[HANDLES + handle] == 0),
        _ if draw.chance(50) => u64::from((draw.below(134) as u32).wrapping_neg()),
        _ => draw.word(),
    };
    let mut entry = [0; 16];
    entry[0] = kind | spare & 0xf8;
    entry[1] = draw.below(18) as u8;
    if draw.chance(10) {
        entry[1..4].copy_from_slice(&draw.any().to_le_bytes()[..3]);
    }
    entry[4..8].copy_from_slice(&(tag(draw, words) as u32).to_le_bytes());
    entry[8..].copy_from_slice(&result.to_le_bytes());
    entry
}

fn write(draw: &mut Draw, words: &Words) -> Event {
    let count = draw.below(4);
    let mut bytes: Vec<u8> = (0..count).flat_map(|_| entry(draw, words)).collect();
    if draw.chance(25) {
        bytes.extend((0..draw.below(16)).map(|place| place as u8));
    }
    let enough = 54 * count;
    let words = match draw.below(8) {
        0 => draw.below(enough + 1),
        1 => enough + draw.below(9),
        _ => enough,
    };
    Event::Write { words, bytes }
}

fn read(draw: &mut Draw) -> Event {
    let len = match draw.below(32) {
        0 => 8_160 + draw.below(65),
        1..8 => draw.below(200),
        _ => draw.one_of(&[0, 1, 63, 64, 65, 100, 128]),
    };
    let any = draw.half();
    let flags = draw.one_of(&[0, 0x4_0000, any]);
    Event::Read { len, flags }
}

/// A verb and a request id, or other words.
fn metadata(draw: &mut Draw, words: &Words, verb: u64) -> Vec<u64> {
    if draw.chance(10) {
        return (0..draw.below(5)).map(|_| draw.below(3)).collect();
    }
    vec![verb, tag(draw, words)]
}

fn page(draw: &mut Draw) -> u64 {
    if draw.chance(90) {
        draw.below(9) * 4_096
    } else {
        draw.word()
    }
}

/// The event of this number on these words.
pub fn event(draw: &mut Draw, words: &Words, number_of_event: usize) -> Event {
    match number_of_event {
        0 => Event::Open {
            d: number(draw, |d| words[ALL + d] == 0),
        },
        1 => Event::Copy {
            d: held(draw, words, 1),
        },
        2 => Event::Drop {
            d: held(draw, words, 1),
        },
        3 => Event::Put {
            d: held(draw, words, 1),
            h: number(draw, |handle| words[HANDLES + handle] == 0),
        },
        ENDED => Event::Ended { c: caller(draw) },
        5 => Event::Reserve { c: caller(draw) },
        6 => {
            let tag = tag(draw, words);
            Event::Submit {
                tag,
                c: caller_of(draw, words, tag),
                op: opcode(draw),
                fl: draw.byte(),
                args: args(draw),
                pid: draw.any(),
                list: list(draw, words),
            }
        }
        7 => Event::Call {
            c: caller(draw),
            op: opcode(draw),
            args: args(draw),
            uid: draw.half(),
            gid: draw.half(),
            pid: draw.any(),
            list: list(draw, words),
        },
        8 => Event::Generic(payload(draw)),
        9 => Event::Stdfs(payload(draw)),
        10 => Event::Fmap {
            c: caller(draw),
            id: draw.any(),
            pages: draw.any(),
            flags: draw.any(),
            uid: draw.half(),
            gid: draw.half(),
            pid: draw.any(),
        },
        11 => Event::Close { id: draw.any() },
        12 => Event::Detach {
            id: draw.any(),
            pid: draw.any(),
        },
        13 => {
            let tag = tag(draw, words);
            let any = draw.word();
            Event::Wake {
                tag,
                c: caller_of(draw, words, tag),
                killed: draw.one_of(&[0, 0, 0, 1, 1, 1, any]),
                base: draw.any(),
                count: draw.below(3),
            }
        }
        14 => read(draw),
        15 => write(draw, words),
        16 => Event::Move {
            meta: metadata(draw, words, 1),
            list: list(draw, words),
        },
        17 => Event::Obtain {
            meta: metadata(draw, words, 0),
        },
        18 => Event::Supply {
            tag: tag(draw, words),
            offset: page(draw),
            base: page(draw),
            count: if draw.chance(90) { 1 } else { draw.word() },
        },
        19 => Event::Fdwrite {
            call: fd_call(draw),
            list: list(draw, words),
        },
        20 => Event::Fdread {
            call: fd_call(draw),
            len: if draw.chance(75) {
                8 * draw.below(20)
            } else {
                draw.word()
            },
        },
        _ => unreachable!("there are {EVENTS} events"),
    }
}
