//! A run as JSON Lines, one object a line, and the listing of completion entries too: docs/JSON.md.

use std::fmt::{self, Display, Formatter};
use std::io::{self, Write};

use script::{Answer, Effect, Event, Line, Reply, Script, StatusWords, Value, source_lines};
use tilgurap::numbers;
use tilgurap::{Description, Handle, Holds, Slot, Sqe, StatusWord, Tag};

use crate::reply;
use crate::table;

/// Rises with every change that a reader of the objects could stumble over.
const FORMAT: u64 = 2;

/// A value of JSON.
enum Json<'a> {
    Null,
    Bool(bool),
    Number(u64),
    Text(String),
    List(Vec<Json<'a>>),
    Object(Vec<(&'a str, Json<'a>)>),
}

use Json::{Bool, List, Null, Number, Object, Text};

fn text(text: &str) -> Json<'static> {
    Text(text.to_owned())
}

fn numbers(list: &[u64]) -> Json<'static> {
    List(list.iter().copied().map(Number).collect())
}

/// What is between two brackets.
fn inside<T>(
    f: &mut Formatter,
    items: &[T],
    one: impl Fn(&mut Formatter, &T) -> fmt::Result,
) -> fmt::Result {
    for (at, item) in items.iter().enumerate() {
        if at > 0 {
            f.write_str(",")?;
        }
        one(f, item)?;
    }
    Ok(())
}

fn quoted(f: &mut Formatter, text: &str) -> fmt::Result {
    f.write_str("\"")?;
    for c in text.chars() {
        match c {
            '"' | '\\' => write!(f, "\\{c}")?,
            c if c.is_control() => write!(f, "\\u{:04x}", u32::from(c))?,
            c => write!(f, "{c}")?,
        }
    }
    f.write_str("\"")
}

impl Display for Json<'_> {
    fn fmt(&self, f: &mut Formatter) -> fmt::Result {
        match self {
            Null => f.write_str("null"),
            Bool(is_so) => write!(f, "{is_so}"),
            Number(number) => write!(f, "{number}"),
            Text(text) => quoted(f, text),
            List(items) => {
                f.write_str("[")?;
                inside(f, items, |f, item| write!(f, "{item}"))?;
                f.write_str("]")
            }
            Object(fields) => {
                f.write_str("{")?;
                inside(f, fields, |f, (name, value)| {
                    write!(f, "\"{name}\":{value}")
                })?;
                f.write_str("}")
            }
        }
    }
}

/// Two hex digits a byte, nothing for none.
fn hex(bytes: &[u8]) -> Json<'static> {
    match bytes {
        [] => text(""),
        bytes => Text(script::hex(bytes)),
    }
}

fn start(command: &str) -> Vec<(&'static str, Json<'static>)> {
    vec![
        ("type", text("start")),
        ("format", Number(FORMAT)),
        ("command", text(command)),
    ]
}

fn event(event: &Event) -> Json<'static> {
    let value = |value| match value {
        Value::Number(number) => Number(number),
        Value::Six(arguments) => numbers(arguments),
        Value::List(list) => numbers(list),
        Value::Bytes(bytes) => hex(bytes),
        Value::Word(word) => text(word),
        Value::Reply(reply) => handed_over(reply),
    };
    let fields = event.fields().into_iter();
    let name = ("name", text(event.name()));
    let named = fields.map(|(name, field)| (name, value(field)));
    Object([name].into_iter().chain(named).collect())
}

fn handed_over(reply: &Reply) -> Json<'static> {
    Object(match reply {
        Reply::Regular {
            result,
            extra0,
            notice,
        } => vec![
            ("kind", text("regular")),
            match result {
                Ok(word) => ("ok", Number(*word)),
                Err(errno) => ("err", Number(*errno)),
            },
            ("extra0", Number(u64::from(*extra0))),
            ("notice", Bool(*notice)),
        ],
        Reply::Fd(description) => {
            vec![("kind", text("fd")), ("description", Number(*description))]
        }
        Reply::Many(many) => vec![("kind", text("many")), ("descriptions", numbers(many))],
    })
}

fn answer(answer: &Answer) -> Json<'static> {
    Object(match answer {
        Answer::Ok(number) => vec![("kind", text("ok")), ("number", Number(*number))],
        Answer::No(number) => vec![("kind", text("no")), ("number", Number(*number))],
        Answer::Wait => vec![("kind", text("wait"))],
        Answer::Blocked => vec![("kind", text("blocked"))],
        Answer::Reply(reply) => vec![("kind", text("reply")), ("reply", handed_over(reply))],
        Answer::Status(words) => vec![("kind", text("status")), ("status", status(words))],
        Answer::Skip => unreachable!("the layer answers every event"),
    })
}

fn effect(effect: &Effect) -> Json<'static> {
    let (kind, names): (_, &[&str]) = match effect.kind {
        1 => ("wake", &["caller", "tag"]),
        2 => ("unmap", &["base", "count"]),
        3 => ("close", &["description"]),
        4 => ("event", &["number", "flags"]),
        5 => ("readable", &["scheme", "flags"]),
        kind => unreachable!("{kind} is no kind of effect"),
    };
    let words = [effect.a, effect.b].map(Number);
    let named = names.iter().copied().zip(words);
    Object([("kind", text(kind))].into_iter().chain(named).collect())
}

fn stepped(number: usize, line: usize, asked: &Event, answered: &Line) -> Json<'static> {
    let effects = answered.effects.iter();
    Object(vec![
        ("type", text("event")),
        ("number", Number(number as u64)),
        ("line", Number(line as u64)),
        ("event", event(asked)),
        ("answer", answer(&answered.answer)),
        ("effects", List(effects.map(effect).collect())),
        ("bytes", hex(&answered.bytes)),
    ])
}

/// The status words. A word's bits are hex: it often has more digits than a JSON reader keeps of a number.
fn status(words: &StatusWords) -> Json<'static> {
    let word = |(name, word): (&'static str, StatusWord)| {
        let bits = ("bits", Text(table::bits(word)));
        (name, Object(vec![bits, ("count", Number(word.count))]))
    };
    Object(table::words(words).map(word).into())
}

fn slot((tag, slot): &(Tag, Slot)) -> Json<'static> {
    let span = vec![
        ("base", Number(slot.span.base)),
        ("count", Number(slot.span.count)),
    ];
    let stored = slot.reply.as_ref().map(reply::stored);
    Object(vec![
        ("tag", Number(tag.0)),
        ("state", Text(format!("{:?}", slot.state))),
        ("caller", Number(u64::from(slot.caller.0))),
        ("cancelling", Bool(slot.cancelling)),
        ("returned", Bool(slot.returned)),
        ("ended", Bool(slot.ended)),
        ("span", Object(span)),
        ("descriptions", numbers(&reply::numbers(&slot.descriptions))),
        ("reply", stored.as_ref().map_or(Null, handed_over)),
    ])
}

fn entry(entry: &Sqe) -> Json<'static> {
    Object(vec![
        ("opcode", Number(u64::from(entry.opcode))),
        (
            "name",
            entry.opcode().map_or(Null, |of| Text(of.to_string())),
        ),
        ("flags", Number(u64::from(entry.flags.bits()))),
        ("tag", Number(entry.tag.0)),
        ("arguments", numbers(&entry.args)),
        ("pid", Number(entry.pid.0)),
    ])
}

/// All that the command `status` shows.
fn state(of: &numbers::Layer) -> Json<'static> {
    let layer = of.typed();
    let handle = |(Handle(handle), Description(description))| {
        Object(vec![
            ("handle", Number(handle)),
            ("description", Number(description)),
        ])
    };
    let description = |(Description(description), holds): (_, Holds)| {
        Object(vec![
            ("description", Number(description)),
            ("holds", Number(holds.all)),
            ("outside", Number(holds.outside)),
        ])
    };
    Object(vec![
        ("type", text("state")),
        ("status", status(&of.status())),
        ("slots", List(layer.occupied().iter().map(slot).collect())),
        ("queue", List(layer.unread().iter().map(entry).collect())),
        (
            "handles",
            List(table::handles(layer).into_iter().map(handle).collect()),
        ),
        (
            "descriptions",
            List(table::open(layer).into_iter().map(description).collect()),
        ),
    ])
}

/// The run that a command is on, and the layer at its end.
fn run(
    out: &mut impl Write,
    command: &str,
    script: &Script,
    mut each: impl FnMut(&mut dyn Write, usize, &Event, &Line) -> io::Result<()>,
) -> io::Result<()> {
    let mut head = start(command);
    head.push(("scheme", Number(script.scheme)));
    writeln!(out, "{}", Object(head))?;
    let mut layer = numbers::Layer::new(script.scheme);
    for (at, event) in script.events.iter().enumerate() {
        let line = layer.step(event);
        each(out, at, event, &line)?;
    }
    writeln!(out, "{}", state(&layer))
}

/// An object for each event, and the state at the end.
pub fn replay(out: &mut impl Write, script: &Script, text: &str) -> io::Result<()> {
    let said = source_lines(text).filter(|line| !line.said.is_empty());
    // the first one says the scheme
    let places: Vec<usize> = said.skip(1).map(|line| line.number).collect();
    run(out, "replay", script, |out, at, event, line| {
        writeln!(out, "{}", stepped(at + 1, places[at], event, line))
    })
}

/// The state at the end alone.
pub fn state_alone(out: &mut impl Write, script: &Script) -> io::Result<()> {
    run(out, "status", script, |_, _, _, _| Ok(()))
}

/// The listing program's lines as objects: it prints a line of names, one for each entry, and how many bytes were left over.
/// `cut` says that there were more bytes than it reads.
pub fn listing(listed: &str, cut: bool) -> Result<String, String> {
    let field = |word: &str| word.parse().map_or_else(|_| text(word), Number);
    let (entries, left) = listed
        .trim_end()
        .rsplit_once("\nleft ")
        .ok_or("it ends without `left`")?;
    let (names, entries) = entries.split_once('\n').unwrap_or((entries, ""));
    let mut objects = vec![Object(start("list"))];
    for line in entries.lines() {
        let (names, words) = (names.split(' '), line.split(' '));
        let fields = names.zip(words.map(field));
        objects.push(Object(
            [("type", text("entry"))]
                .into_iter()
                .chain(fields)
                .collect(),
        ));
    }
    objects.push(Object(vec![
        ("type", text("end")),
        ("left", field(left)),
        ("cut", Bool(cut)),
    ]));
    Ok(objects.iter().map(|object| format!("{object}\n")).collect())
}
