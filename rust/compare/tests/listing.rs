//! The proved program `listing` beside the kernel's own reading of completions: the same file, the same lines. `./tilgurap list`
//! builds it; where it is missing the test says so.

use std::io::Write;
use std::path::Path;
use std::process::{Command, Stdio};

use generate::Draw;
use oracle::abi::Error;
use oracle::abi::schemev2::{Cqe, CqeOpcode};

const PROGRAM: &str = concat!(env!("CARGO_MANIFEST_DIR"), "/../../target/bin/listing");
const MOST: usize = 65_536;

/// A line's fields behind its number: kind, tag, word, value, extra.
fn line(bytes: &[u8]) -> String {
    let mut entry = Cqe::default();
    entry.copy_from_slice(bytes);
    let kind = entry.flags % 8;
    let [x, y, z] = entry.extra_raw;
    let extra = u32::from_le_bytes([x, y, z, 0]);
    let regular = matches!(
        CqeOpcode::try_from_raw(kind),
        Some(CqeOpcode::RespondRegular | CqeOpcode::RespondAndNotifyOnDetach)
    );
    let (word, value) = match oracle::parse_cqe(&entry) {
        Err(number) => ("bad", number),
        Ok(()) if regular => match Error::demux(entry.result as usize) {
            Ok(word) => ("ok", word as u64),
            Err(error) => ("err", error.errno as u64),
        },
        Ok(()) => ("num", entry.result),
    };
    format!("{kind} {} {word} {value} {extra}", entry.tag)
}

fn listing(bytes: &[u8]) -> String {
    let read = &bytes[..bytes.len().min(MOST)];
    let entries = read.chunks_exact(16);
    let left = entries.remainder().len();
    let mut lines = vec!["entry kind tag word value extra".to_owned()];
    lines.extend(
        entries
            .enumerate()
            .map(|(n, bytes)| format!("{n} {}", line(bytes))),
    );
    lines.push(format!("left {left}"));
    lines.join("\n") + "\n"
}

fn printed(bytes: &[u8]) -> String {
    let mut child = Command::new(PROGRAM)
        .stdin(Stdio::piped())
        .stdout(Stdio::piped())
        .spawn()
        .expect("the program starts");
    let mut input = child.stdin.take().expect("its standard input");
    let bytes = bytes.to_vec();
    let writer = std::thread::spawn(move || {
        // it stops reading at its limit
        let _ = input.write_all(&bytes);
    });
    let output = child.wait_with_output().expect("its output");
    writer.join().expect("the writer ends");
    assert!(output.status.success());
    String::from_utf8(output.stdout).expect("text")
}

/// Entries that mean something more often than random bytes do: small kinds, errnos in the low half.
fn entry(draw: &mut Draw) -> [u8; 16] {
    let mut bytes = [(); 16].map(|()| draw.byte());
    if draw.below(2) == 0 {
        bytes[0] = draw.below(8) as u8;
    }
    if draw.below(2) == 0 {
        let low = 0u32.wrapping_sub(draw.below(140) as u32);
        bytes[8..12].copy_from_slice(&low.to_le_bytes());
    }
    bytes
}

#[test]
fn lists_as_the_kernel_reads() {
    if !Path::new(PROGRAM).exists() {
        println!("skipped: {PROGRAM} is not built: run `./tilgurap list` with a file");
        return;
    }
    for seed in 0..200 {
        let mut draw = Draw::new(seed);
        let count = draw.below(if seed % 20 == 0 { 4_200 } else { 60 });
        let mut bytes: Vec<u8> = (0..count).flat_map(|_| entry(&mut draw)).collect();
        bytes.extend((0..draw.below(16)).map(|n| n as u8));
        let (port, rust) = (printed(&bytes), listing(&bytes));
        for (port, rust) in port.lines().zip(rust.lines()) {
            assert_eq!(port, rust, "seed {seed}");
        }
        assert!(port == rust, "seed {seed}: one ends before the other");
    }
}
