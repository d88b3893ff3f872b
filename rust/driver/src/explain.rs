//! A run told in plain sentences: what each event asks, what the answer and each effect mean.

use std::fmt::Display;
use std::io::{self, Write};

use script::{Answer, Effect, Event, Form, Line, Payload, Script, StatusWords, source_lines};
use tilgurap::numbers::Layer;
use tilgurap::{CallFlags, Cqe, Opcode, Sqe};

use crate::reasons;
use crate::reply::{self, list, told};
use crate::table;

/// The comments that belong to one event: the lines above it, and what stands behind it.
#[derive(Default)]
struct Comments<'a> {
    above: Vec<&'a str>,
    behind: Option<&'a str>,
}

/// The comments of each line that says something, the first `scheme`, then those below the last one. A blank line
/// between two comments is kept.
fn comments(text: &str) -> Vec<Comments<'_>> {
    let mut all = Vec::new();
    let (mut next, mut blank) = (Comments::default(), false);
    for line in source_lines(text) {
        if !line.said.is_empty() {
            next.behind = line.comment;
            all.push(std::mem::take(&mut next));
            blank = false;
        } else if let Some(comment) = line.comment {
            if blank && !next.above.is_empty() {
                next.above.push("");
            }
            next.above.push(comment);
            blank = false;
        } else {
            blank = true;
        }
    }
    all.push(next);
    all
}

impl Comments<'_> {
    fn print_above(&self, out: &mut dyn Write) -> io::Result<()> {
        self.above
            .iter()
            .try_for_each(|line| writeln!(out, "{line}"))
    }

    /// An event's line, with what stands behind it.
    fn print_line(&self, out: &mut dyn Write, line: &dyn Display) -> io::Result<()> {
        match self.behind {
            Some(behind) => writeln!(out, "{line} {behind}"),
            None => writeln!(out, "{line}"),
        }
    }
}

fn descriptions(named: &[u64]) -> String {
    match named {
        [] => "no description".to_owned(),
        [one] => format!("description {one}"),
        many => format!("descriptions {}", list(many)),
    }
}

fn along(sent: &[u64]) -> String {
    match sent {
        [] => String::new(),
        some => format!(" and sends {} along", descriptions(some)),
    }
}

/// What follows where this one is among a call's flags.
fn flagged(flags: u64, flag: CallFlags, what: &'static str) -> &'static str {
    match CallFlags::from_bits(flags).contains(flag) {
        true => what,
        false => "",
    }
}

fn opcode(number: u64) -> String {
    match Opcode::new(number) {
        Some(opcode) => format!("opcode {number} ({opcode})"),
        None => format!("opcode {number}"),
    }
}

/// A number of things, by their name.
fn count(number: u64, name: &str) -> String {
    match number {
        1 => format!("1 {name}"),
        _ => format!("{number} {name}s"),
    }
}

fn files(payload: &Payload) -> String {
    match &payload.fds[..] {
        [] => "no file".to_owned(),
        [one] => format!("file {one}"),
        many => format!("files {}", list(many)),
    }
}

/// A completion entry in a few words.
fn completion(bytes: &[u8]) -> String {
    let entry = Cqe::from_bytes(bytes.try_into().expect("a whole entry"));
    let (tag, word) = (entry.tag(), entry.result());
    let result = || match tilgurap::demux(word) {
        Ok(word) => format!("success with {word}"),
        Err(errno) => format!("error {errno}"),
    };
    match entry.kind() {
        0 => format!("{} for tag {tag}", result()),
        1 => format!("the description in handle {word} for tag {tag}"),
        2 => format!("event {tag} of file {word}"),
        3 => format!("tag {tag}'s first description wanted in handle {word}"),
        4 => format!("its list of descriptions for tag {tag}"),
        5 => format!("{} for tag {tag}, to be told on detach", result()),
        kind => format!("an entry of kind {kind}"),
    }
}

fn written(bytes: &[u8]) -> String {
    let entries = bytes.chunks_exact(Cqe::BYTES);
    let rest = entries.remainder();
    let told: Vec<String> = entries.map(completion).collect();
    let mut text = match &told[..] {
        [] => "no whole entry".to_owned(),
        [one] => format!("one entry ({one})"),
        many => format!("{} entries ({})", many.len(), many.join("; ")),
    };
    if !rest.is_empty() {
        text += &format!(" and {} over", count(rest.len() as u64, "byte"));
    }
    text
}

/// What is asked.
fn asked(event: &Event) -> String {
    match event {
        Event::Open { d } => format!("the host opens description {d}"),
        Event::Copy { d } => format!("the host copies a hold of description {d}"),
        Event::Drop { d } => format!("the host drops a hold of description {d}"),
        Event::Put { d, h } => {
            format!("the host puts description {d} into the driver's handle {h}")
        }
        Event::Ended { c } => format!("the host reports that caller {c} has ended"),
        Event::Reserve { c } => format!("caller {c} reserves a slot"),
        Event::Submit {
            tag, c, op, list, ..
        } => {
            format!(
                "caller {c} submits tag {tag} with {}{}",
                opcode(*op),
                along(list)
            )
        }
        Event::Call { c, op, list, .. } => {
            format!("caller {c} calls with {}{}", opcode(*op), along(list))
        }
        Event::Generic(payload) => {
            format!(
                "caller {} makes a call of the driver's own about {}",
                payload.c,
                files(payload)
            )
        }
        Event::Stdfs(payload) => {
            format!(
                "caller {} makes a standard file system call about {}",
                payload.c,
                files(payload)
            )
        }
        Event::Fmap { c, id, pages, .. } => {
            format!(
                "caller {c} asks for a mapping of file {id}, {}",
                count(*pages, "page")
            )
        }
        Event::Close { id } => format!("the driver is to be told that file {id} was closed"),
        Event::Detach { id, pid } => {
            format!("the driver is to be told that process {pid} detached file {id}")
        }
        Event::Wake {
            tag, c, killed: 1, ..
        } => {
            format!("caller {c} is killed while it waits for tag {tag}")
        }
        Event::Wake { tag, c, .. } => format!("caller {c} is woken and asks for tag {tag}"),
        Event::Read { len, .. } => format!("the driver reads up to {}", count(*len, "byte")),
        Event::Write { bytes, .. } => format!("the driver writes {}", written(bytes)),
        Event::Move { meta, list } => match meta[..] {
            [_, tag] => format!(
                "the driver gives tag {tag} {}",
                count(list.len() as u64, "description")
            ),
            _ => format!(
                "the driver gives a call {}",
                count(list.len() as u64, "description")
            ),
        },
        Event::Obtain { meta } => match meta[..] {
            [_, tag] => format!("the driver takes tag {tag}'s descriptions"),
            _ => "the driver takes a call's descriptions".to_owned(),
        },
        Event::Supply { tag, base, .. } => {
            format!("the driver supplies the page at {base} for tag {tag}")
        }
        Event::Fdwrite { call, list } => format!(
            "caller {} sends {} to file {}{}",
            call.c,
            descriptions(list),
            call.number,
            flagged(call.flags, CallFlags::FD_EXCLUSIVE, ", exclusively")
        ),
        Event::Fdread { call, len } => format!(
            "caller {} asks file {} for descriptions, into {}{}",
            call.c,
            call.number,
            count(*len, "byte"),
            flagged(
                call.flags,
                CallFlags::FD_UPPER,
                ", for the upper file table"
            )
        ),
        Event::Front { form, reply } => {
            format!("a call by {} reads its reply, {}", form.name(), told(reply))
        }
        Event::Status => "the status words are asked for".to_owned(),
    }
}

/// The entries that a read stored.
fn entries(bytes: &[u8]) -> String {
    let whole = bytes.chunks_exact(Sqe::BYTES);
    let rest = whole.remainder();
    let told: Vec<String> = whole
        .map(|bytes| {
            let entry = Sqe::from_bytes(bytes.try_into().expect("a whole entry"));
            format!("{} with tag {}", table::opcode(&entry), entry.tag)
        })
        .collect();
    let mut text = match told.len() {
        0 => "no whole entry".to_owned(),
        _ => told.join(", "),
    };
    if !rest.is_empty() {
        text += &format!(
            ", and {} of an entry that comes again",
            count(rest.len() as u64, "byte")
        );
    }
    text
}

fn accepted(event: &Event, number: u64, line: &Line, before: &Layer) -> String {
    match event {
        Event::Reserve { .. } => format!("accepted, tag {number} is its own"),
        Event::Submit { .. }
        | Event::Call { .. }
        | Event::Generic(_)
        | Event::Stdfs(_)
        | Event::Fmap { .. }
        | Event::Fdwrite { .. }
        | Event::Fdread { .. } => format!("accepted, tag {number}"),
        Event::Front {
            form: Form::Fdwrite,
            ..
        } => format!("it returns {number}"),
        Event::Front {
            form: Form::Fdread, ..
        } => format!("it returns {number}, how many came"),
        Event::Read { .. } => format!(
            "it gets {}: {}",
            count(number, "byte"),
            entries(&line.bytes)
        ),
        Event::Write { bytes, .. } => {
            let whole = bytes.len() / Cqe::BYTES * Cqe::BYTES;
            let taken = number as usize;
            if taken == whole {
                return format!("taken, {number} bytes");
            }
            // the layer as the entry that was turned down found it
            let mut layer = before.typed().clone();
            let _ = layer.write(&bytes[..taken]);
            let (entry, all) = (taken / Cqe::BYTES + 1, whole / Cqe::BYTES);
            let why = reasons::completion(&layer, &bytes[taken..]);
            format!("{number} bytes are taken, entry {entry} of {all} is turned down: {why}")
        }
        Event::Move { .. } | Event::Obtain { .. } => {
            format!("accepted, {}", count(number, "description"))
        }
        Event::Supply { .. } => "accepted, the slot is vacant again".to_owned(),
        Event::Ended { .. } => "noted".to_owned(),
        Event::Open { .. }
        | Event::Copy { .. }
        | Event::Drop { .. }
        | Event::Put { .. }
        | Event::Close { .. }
        | Event::Detach { .. } => "accepted".to_owned(),
        Event::Wake { .. } => unreachable!("a wake hands a reply over, blocks or is refused"),
        Event::Status => unreachable!("it is answered with the words"),
    }
}

/// The tags in each status word.
fn tags(words: &StatusWords) -> String {
    let told = table::words(words).map(|(name, word)| {
        let tags: Vec<u64> = word.tags().map(|tag| tag.0).collect();
        match &tags[..] {
            [] => format!("{name} none"),
            [one] => format!("{name} tag {one}"),
            many => format!("{name} tags {}", list(many)),
        }
    });
    told.join("; ")
}

/// What the answer means.
fn answered(event: &Event, line: &Line, before: &Layer) -> String {
    match &line.answer {
        Answer::Ok(number) => accepted(event, *number, line, before),
        Answer::No(number) if !event.is_of_a_run() => {
            let why = reasons::refusal(event, *number, before.typed());
            format!("it returns with {}: {why}", reply::error(*number))
        }
        Answer::No(4) => {
            "its call returns with EINTR (4), the slot stays taken until the driver has replied"
                .to_owned()
        }
        Answer::No(number) => {
            let why = reasons::refusal(event, *number, before.typed());
            format!("refused with {number}: {why}")
        }
        Answer::Wait => "the queue is empty, the driver would wait".to_owned(),
        Answer::Blocked if line.effects.is_empty() => "no reply yet, it stays blocked".to_owned(),
        Answer::Blocked => "no reply yet, it stays blocked and a Cancel is queued".to_owned(),
        Answer::Reply(handed) => format!("it is handed its reply: {}", told(handed)),
        Answer::Status(words) => tags(words),
        Answer::Skip => unreachable!("the layer answers every event"),
    }
}

fn effect(effect: &Effect) -> String {
    let typed = tilgurap::Effect::from_words([effect.kind, effect.a, effect.b]);
    typed.expect("an effect of the layer's").to_string()
}

/// One sentence on an event and what came of it.
fn sentence(event: &Event, line: &Line, before: &Layer) -> String {
    let mut text = format!("{}; {}", asked(event), answered(event, line, before));
    match &line.effects[..] {
        [] => {}
        [one] => text += &format!("; effect: {}", effect(one)),
        many => {
            let told: Vec<String> = many.iter().map(effect).collect();
            text += &format!("; effects: {}", told.join("; "));
        }
    }
    let (first, rest) = text.split_at(1);
    format!("{}{rest}.", first.to_uppercase())
}

/// The whole run, with the script's own comments, and the state at its end.
pub fn explain(out: &mut impl Write, script: &Script, text: &str) -> io::Result<()> {
    let comments = comments(text);
    let (of_scheme, others) = comments.split_first().expect("the scheme's");
    of_scheme.print_above(out)?;
    of_scheme.print_line(out, &format_args!("scheme {}", script.scheme))?;
    writeln!(out, "  A fresh layer: every slot vacant, all else empty.")?;

    let mut layer = Layer::new(script.scheme);
    for (event, comments) in script.events.iter().zip(others) {
        let before = layer.clone();
        let line = layer.step(event);
        writeln!(out)?;
        comments.print_above(out)?;
        comments.print_line(out, event)?;
        writeln!(out, "  {line}\n  {}", sentence(event, &line, &before))?;
    }
    writeln!(out)?;
    others.last().expect("those below").print_above(out)?;
    writeln!(out, "At the end:")?;
    write!(out, "{}", table::table(&layer))
}
