//! What a layer holds, as tables that a person can read.

use std::array;
use std::fmt::{self, Display, Formatter};

use script::StatusWords;
use tilgurap::numbers;
use tilgurap::{Description, Handle, Holds, Layer, Slot, Sqe, StatusWord, Tag};

use crate::reply;

pub struct Table<'a>(&'a numbers::Layer);

pub fn table(layer: &numbers::Layer) -> Table<'_> {
    Table(layer)
}

/// The status words, each with its name.
pub fn words(words: &StatusWords) -> [(&'static str, StatusWord); 5] {
    let names = ["Placeholder", "Outstanding", "Responded", "Fmap", "Orphans"];
    array::from_fn(|of| {
        let (bits, count) = words[of];
        (names[of], StatusWord { bits, count })
    })
}

/// One bit a slot, as hex.
pub fn bits(word: StatusWord) -> String {
    format!("0x{:016x}", word.bits)
}

/// The handles in use.
pub fn handles(layer: &Layer) -> Vec<(Handle, Description)> {
    let held = |h| layer.handle(Handle(h)).map(|d| (Handle(h), d));
    (0..64).filter_map(held).collect()
}

/// The descriptions that are open.
pub fn open(layer: &Layer) -> Vec<(Description, Holds)> {
    let all = (0..64).map(|d| (Description(d), layer.holds(Description(d))));
    all.filter(|(_, holds)| holds.all != 0).collect()
}

fn notes(slot: &Slot) -> String {
    let mut notes = Vec::new();
    for (is_so, what) in [
        (slot.cancelling, "cancelling"),
        (slot.returned, "returned"),
        (slot.ended, "caller ended"),
    ] {
        if is_so {
            notes.push(what.to_owned());
        }
    }
    if slot.span.count != 0 {
        let (base, count) = (slot.span.base, slot.span.count);
        notes.push(format!("pages to unmap: {count} from {base}"));
    }
    if !slot.descriptions.is_empty() {
        let list = reply::list(&reply::numbers(&slot.descriptions));
        notes.push(format!("descriptions {list}"));
    }
    if let Some(stored) = &slot.reply {
        notes.push(format!("reply: {}", reply::told(&reply::stored(stored))));
    }
    notes.join("; ")
}

/// An entry's opcode by its name.
pub fn opcode(entry: &Sqe) -> String {
    (entry.opcode()).map_or_else(|| format!("opcode {}", entry.opcode), |of| of.to_string())
}

/// A line without the spaces at its end.
fn line(f: &mut Formatter, text: String) -> fmt::Result {
    writeln!(f, "{}", text.trim_end())
}

fn slots(f: &mut Formatter, occupied: &[(Tag, Slot)]) -> fmt::Result {
    if occupied.is_empty() {
        return writeln!(f, "slots: all 64 vacant");
    }
    writeln!(f, "slots: {} vacant, the others:", 64 - occupied.len())?;
    writeln!(f, "  tag  state            caller  notes")?;
    for (tag, slot) in occupied {
        let state = format!("{:?}", slot.state);
        let (caller, notes) = (slot.caller, notes(slot));
        line(f, format!("  {tag:>3}  {state:<11} {caller:>11}  {notes}"))?;
    }
    Ok(())
}

fn queue(f: &mut Formatter, unread: &[Sqe]) -> fmt::Result {
    if unread.is_empty() {
        return writeln!(f, "queue: empty");
    }
    writeln!(
        f,
        "queue: {} of 128 entries, first to be read first:",
        unread.len()
    )?;
    writeln!(f, "  opcode       tag  flags         pid  arguments")?;
    for entry in unread {
        let (name, tag, flags, pid) = (opcode(entry), entry.tag, entry.flags.bits(), entry.pid);
        let args: Vec<String> = entry.args.iter().map(u64::to_string).collect();
        let args = args.join(" ");
        line(
            f,
            format!("  {name:<11} {tag:>4}  {flags:>5}  {pid:>10}  {args}"),
        )?;
    }
    Ok(())
}

impl Display for Table<'_> {
    fn fmt(&self, f: &mut Formatter) -> fmt::Result {
        writeln!(f, "status        slots  word (bit N is tag N)")?;
        for (name, word) in words(&self.0.status()) {
            writeln!(f, "  {name:<11} {:>5}  {}", word.count, bits(word))?;
        }
        let layer = self.0.typed();
        slots(f, &layer.occupied())?;
        queue(f, &layer.unread())?;

        let handles = handles(layer);
        if handles.is_empty() {
            writeln!(f, "handles: all 64 empty")?;
        } else {
            writeln!(f, "handles in use:")?;
            writeln!(f, "  handle  description")?;
        }
        for (handle, description) in handles {
            writeln!(f, "  {handle:>6}  {description:>11}")?;
        }

        let open = open(layer);
        if open.is_empty() {
            writeln!(f, "descriptions: none open")?;
        } else {
            writeln!(f, "open descriptions:")?;
            writeln!(f, "  description  holds  of them outside")?;
        }
        for (d, holds) in open {
            writeln!(f, "  {d:>11}  {:>5}  {:>15}", holds.all, holds.outside)?;
        }
        Ok(())
    }
}
