//! What is no event: error words, entries from and to bytes, refusals before the tag, and how
//! replies are read.

use generate::Draw;
use oracle::abi::error::Error;
use oracle::abi::schemev2::{Cqe, Sqe, SqeFlags};
use oracle::{Front, Reading, read_reply};
use script::{Form, Reply};
use tilgurap::numbers::{self, Opened};

/// How many of each were compared.
#[derive(Default)]
pub struct Compared {
    pub error_words: u64,
    pub entries: u64,
    pub refusals: u64,
    pub readings: u64,
}

fn same<T: PartialEq + std::fmt::Debug>(
    what: impl Fn() -> String,
    rust: T,
    port: T,
) -> Result<(), String> {
    if rust == port {
        return Ok(());
    }
    Err(format!("{}\n  rust: {rust:?}\n  port: {port:?}", what()))
}

/// Words around every power of two and around the ends of errors.
pub fn edges() -> Vec<u64> {
    let powers = (0..64).map(|bits| 1u64 << bits).chain([0, 1 << 32]);
    let near = |word: u64| (0..=140).flat_map(move |by| [word.wrapping_sub(by), word + by]);
    let mut words: Vec<u64> = powers
        .flat_map(|word| [word.wrapping_sub(1), word, word + 1])
        .collect();
    words.extend(near(0).chain(near(1 << 32)).chain(near(1 << 31)));
    for errno in [4_094, 4_095, 4_096, 4_097] {
        words.extend([0u64.wrapping_sub(errno), (1 << 32) - errno]);
    }
    words
}

fn error_words(draw: &mut Draw, count: u64) -> Result<u64, String> {
    let demux = |word: u64| {
        let rust = Error::demux(word as usize);
        let rust = rust.map(|word| word as u64).map_err(|e| e.errno as u64);
        same(|| format!("demux {word:#x}"), rust, numbers::demux(word))
    };
    let mux = |errno: i32| {
        let rust = Error::mux(Err(Error { errno })) as u64;
        same(|| format!("mux {errno}"), rust, numbers::mux_error(errno))
    };
    let edges = edges();
    for word in &edges {
        demux(*word)?;
        mux(*word as i32)?;
    }
    for _ in 0..count {
        demux(draw.any())?;
        // so that many have an errno in the low half
        demux(draw.any() << 32 | u64::from(0u32.wrapping_sub(draw.below(200) as u32)))?;
        mux(draw.any() as i32)?;
    }
    Ok(2 * edges.len() as u64 + 3 * count)
}

fn filled<const N: usize>(draw: &mut Draw) -> [u8; N] {
    [(); N].map(|()| draw.byte())
}

fn rust_cqe(bytes: &[u8; 16]) -> Cqe {
    let mut entry = Cqe::default();
    entry.copy_from_slice(bytes);
    entry
}

/// The kernel reads no part of an entry; the layer reads what is missing as 0.
fn part_entries(draw: &mut Draw, bytes: &[u8; 64]) -> Result<(), String> {
    let part = draw.below(64) as usize;
    let mut padded = [0; 64];
    padded[..part].copy_from_slice(&bytes[..part]);
    let told = || format!("the first {part} of {bytes:?}");
    same(told, numbers::sqe(&padded), numbers::sqe(&bytes[..part]))?;
    same(told, numbers::cqe(&padded), numbers::cqe(&bytes[..part]))
}

fn entries(draw: &mut Draw, count: u64) -> Result<u64, String> {
    for _ in 0..count {
        // the reserved bytes are zero (docs/DIFFERENCES.md)
        let mut bytes = filled::<64>(draw);
        bytes[2..4].fill(0);
        let mut rust = Sqe::default();
        rust.copy_from_slice(&bytes);
        let port = numbers::sqe(&bytes);
        let twin = Sqe {
            opcode: port.opcode,
            sqe_flags: SqeFlags::from_bits_retain(port.sqe_flags),
            tag: port.tag,
            args: port.args,
            caller: port.caller,
            ..Sqe::default()
        };
        same(|| format!("sqe of {bytes:?}"), &rust[..], &twin[..])?;
        same(
            || format!("bytes of {port:?}"),
            &rust[..],
            &numbers::sqe_bytes(port)[..],
        )?;

        part_entries(draw, &bytes)?;

        let bytes = filled::<16>(draw);
        let rust = rust_cqe(&bytes);
        let port = numbers::cqe(&bytes);
        same(
            || format!("cqe of {bytes:?}"),
            (rust.flags, rust.extra_raw, rust.tag, rust.result),
            (port.flags, port.extra_raw, port.tag, port.result),
        )?;
        same(
            || format!("bytes of {port:?}"),
            &rust[..],
            &numbers::cqe_bytes(port)[..],
        )?;
    }
    Ok(4 * count)
}

fn refusals(draw: &mut Draw, count: u64) -> Result<u64, String> {
    let refusal = |bytes: [u8; 16]| {
        let rust = oracle::parse_cqe(&rust_cqe(&bytes));
        let port = numbers::parse_cqe(numbers::cqe(&bytes));
        same(|| format!("parse_cqe of {bytes:?}"), rust, port)
    };
    let mut compared = 0;
    for flags in 0..=255 {
        for low in 0..=255 {
            for (second, third) in [(0, 0), (1, 0), (0, 1)] {
                // the byte in the place of obtain's flags, then in that of an event's
                let extra = [low, second, third];
                let mut entry = [0; 16];
                entry[0] = flags;
                entry[1..4].copy_from_slice(&extra);
                refusal(entry)?;
                let mut entry = [0; 16];
                entry[0] = flags;
                entry[4..7].copy_from_slice(&extra);
                refusal(entry)?;
                compared += 2;
            }
        }
    }
    for _ in 0..count {
        refusal(filled(draw))?;
    }
    Ok(compared + count)
}

fn read_both(reply: &Reply) -> Result<(), String> {
    let result = |reading: Reading| match reading {
        Reading::Word(word) => Ok(word),
        Reading::Error(errno) => Err(errno),
        other => unreachable!("{other:?} is no word and no error"),
    };
    let opened = |reading: Reading| match reading {
        Reading::Local(number, flags) => Opened::Local(number, flags as u8),
        Reading::External(d) => Opened::External(d),
        Reading::Error(errno) => Opened::Refused(errno),
        Reading::Word(word) => unreachable!("{word} is no file"),
    };
    let told = |front: Front| move || format!("{front:?} reads {reply}");

    let (rust, _) = read_reply(Front::Regular, reply);
    same(
        told(Front::Regular),
        result(rust),
        numbers::into_regular(reply),
    )?;
    let port = numbers::read_call_generic(reply);
    let (rust, _) = read_reply(Front::Call, reply);
    same(told(Front::Call), result(rust), port.0)?;
    let (rust, notice) = read_reply(Front::StdFsCall, reply);
    // descriptors bring no notice
    let rust = (result(rust), notice.unwrap_or(false));
    same(told(Front::StdFsCall), rust, port)?;
    for (front, form) in [
        (Front::Fdwrite, Form::Fdwrite),
        (Front::Fdread, Form::Fdread),
    ] {
        let (rust, _) = read_reply(front, reply);
        same(told(front), result(rust), numbers::front(form, reply))?;
    }
    let (rust, _) = read_reply(Front::Open, reply);
    same(told(Front::Open), opened(rust), numbers::kopenat(reply))?;
    let (rust, _) = read_reply(Front::Dup, reply);
    same(told(Front::Dup), opened(rust), numbers::kdup(reply))
}

fn readings(draw: &mut Draw) -> Result<u64, String> {
    let mut replies = Vec::new();
    let mut results: Vec<Result<u64, u64>> = (1..=132).map(Err).collect();
    results.extend((0..40).map(|_| Ok(draw.word())));
    results.extend([0, 1, u64::MAX, 1 << 31, (1 << 32) - 4].map(Ok));
    for result in results {
        for notice in [false, true] {
            for extra0 in [0, 1, 2, 255, draw.byte()] {
                replies.push(Reply::Regular {
                    result,
                    extra0,
                    notice,
                });
            }
        }
    }
    // each byte of extra0 by itself
    replies.extend((0..=255).map(|extra0| Reply::Regular {
        result: Ok(7),
        extra0,
        notice: false,
    }));
    replies.extend((0..64).map(Reply::Fd));
    replies.extend((0..=16).map(|len| Reply::Many((0..len).map(|_| draw.below(64)).collect())));
    replies.iter().try_for_each(read_both)?;
    Ok(7 * replies.len() as u64)
}

/// Compares them all, with so many random words.
pub fn compare(count: u64) -> Result<Compared, String> {
    let draw = &mut Draw::new(1);
    Ok(Compared {
        error_words: error_words(draw, count)?,
        entries: entries(draw, count / 8)?,
        refusals: refusals(draw, count / 4)?,
        readings: readings(draw)?,
    })
}
