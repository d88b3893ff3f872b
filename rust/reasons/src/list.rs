//! The list, and how each reason is recognised.

use script::{Answer, Event, Line, State};

use crate::step::{ENTRY, Step};
use crate::table::Table;

#[derive(Clone, Copy)]
pub struct Reason {
    /// Its script in tests/differences has this name.
    pub name: &'static str,
    pub sentence: &'static str,
    /// The first cell of its row in docs/DIFFERENCES.md.
    pub row: &'static str,
    pub kind: Kind,
}

#[derive(Clone, Copy)]
pub enum Kind {
    /// Only the layer refuses the event or entry, and nothing changes. The Rust gets a write's
    /// entries before this one, if there are any.
    LeftOut {
        /// The layer's number, where it refuses for this reason, from 01's table and either side's
        /// step.
        refused: fn(&Table, &Step) -> Option<u64>,
        /// Where nothing comes before it: is the event put to the Rust all the same, which then
        /// answers `skip`?
        rust_skips: bool,
    },
    /// Both take it, and what the Rust says or leaves is another.
    Differs {
        /// Does the difference show in that step, whichever side's it is?
        shows: fn(&Step) -> bool,
        /// The Rust's line and the state that it leaves, from the layer's step.
        rust: fn(&Step) -> (Line, State),
    },
    /// From that state on the Rust's side cannot follow: the rest of the run is left out.
    Ends { reached: fn(&State) -> bool },
}

impl Reason {
    /// Is an event that is left out for this put to the Rust, which skips it?
    pub fn rust_skips(&self) -> bool {
        matches!(self.kind, Kind::LeftOut { rust_skips, .. } if rust_skips)
    }

    /// What the Rust says and leaves, from the layer's step in which this shows.
    pub fn rust(&self, step: &Step) -> (Line, State) {
        match self.kind {
            Kind::Differs { rust, .. } => rust(step),
            _ => (step.line.clone(), step.after.clone()),
        }
    }
}

const OBTAIN: u8 = 3;

/// A tag that the Rust's types do not hold.
pub(crate) fn is_wide(event: &Event) -> bool {
    match event {
        Event::Wake { tag, .. } | Event::Supply { tag, .. } => *tag >> 32 != 0,
        _ => false,
    }
}

/// An obtain entry's handle, and the description that is there before it.
fn obtains_into(step: &Step) -> Option<(usize, u64)> {
    let Event::Write { bytes, .. } = &step.event else {
        return None;
    };
    let entry: &[u8; ENTRY] = bytes.first_chunk()?;
    let (head, handle) = entry.split_at(8);
    let handle = u64::from_le_bytes(handle.try_into().expect("eight bytes"));
    let handle = usize::try_from(handle).ok()?;
    let held = step.before.handles.get(handle).copied().flatten()?;
    (head[0] % 8 == OBTAIN).then_some((handle, held))
}

fn occupied(step: &Step) -> bool {
    obtains_into(step).is_some() && step.line.answer == Answer::Ok(ENTRY as u64)
}

/// The Rust's handle takes the description obtained and drops the hold of the one before; the
/// layer's handle stays, and the hold that goes tells which one was obtained. Neither closes it.
fn occupied_in_the_rust(step: &Step) -> (Line, State) {
    let mut state = step.after.clone();
    let less = |d: &usize| step.after.holds[*d] < step.before.holds[*d];
    if let (Some((handle, old)), Some(new)) = (obtains_into(step), (0..64).find(less)) {
        state.handles[handle] = Some(new as u64);
        state.holds[new] += 1;
        state.holds[old as usize] -= 1;
    }
    (step.line.clone(), state)
}

/// Only the layer refuses, and the Rust skips the event.
const fn left_out_by(
    name: &'static str,
    row: &'static str,
    sentence: &'static str,
    refused: fn(&Table, &Step) -> Option<u64>,
) -> Reason {
    Reason {
        name,
        sentence,
        row,
        kind: Kind::LeftOut {
            refused,
            rust_skips: true,
        },
    }
}

/// A number of the layer's own.
const fn limit<const NUMBER: u64>(
    name: &'static str,
    row: &'static str,
    sentence: &'static str,
) -> Reason {
    left_out_by(name, row, sentence, |table, step| {
        table.refused_with(step, NUMBER)
    })
}

/// What is known, the first that is recognised first.
pub const ALL: &[Reason] = &[
    limit::<201>(
        "limit_201",
        "201",
        "only the layer refuses: the slot or the call is not this caller's",
    ),
    limit::<202>(
        "limit_202",
        "202",
        "only the layer refuses: no slot is vacant",
    ),
    limit::<203>(
        "limit_203",
        "203",
        "only the layer refuses: the queue is full",
    ),
    limit::<204>(
        "limit_204",
        "204",
        "only the layer refuses: too few words are lent for effects",
    ),
    limit::<205>(
        "limit_205",
        "205",
        "only the layer refuses: an argument that the Rust's types rule out",
    ),
    limit::<206>(
        "limit_206",
        "206",
        "only the layer refuses: a list of more than 16",
    ),
    limit::<207>(
        "limit_207",
        "207",
        "only the layer refuses: a description has 65,535 holds",
    ),
    left_out_by(
        "wide_tag",
        "a tag of 2^32 or more in a wake or a map supply",
        "the Rust's types do not hold the tag, which counts as vacant in the layer",
        |table, step| table.refusal(step).filter(|_| is_wide(&step.event)),
    ),
    Reason {
        name: "occupied_handle",
        sentence: "an obtain entry is taken and names an occupied handle, which only the Rust fills anew",
        row: "an obtain entry into an occupied handle",
        kind: Kind::Differs {
            shows: occupied,
            rust: occupied_in_the_rust,
        },
    },
];

/// The number with which only the layer refuses a step, and the reason that it is left out for.
/// A refusal of 01's table without a reason is a mistake in the list.
pub fn left_out<'r>(
    list: &'r [Reason],
    table: &Table,
    step: &Step,
) -> Result<Option<(u64, &'r Reason)>, String> {
    let found = list.iter().find_map(|reason| match reason.kind {
        Kind::LeftOut { refused, .. } => Some((refused(table, step)?, reason)),
        _ => None,
    });
    match (found, table.refusal(step)) {
        (None, Some(number)) => Err(format!("  01: no {number}, which no reason has")),
        _ => Ok(found),
    }
}

/// The known difference that shows in a step.
pub fn differs<'r>(list: &'r [Reason], step: &Step) -> Option<&'r Reason> {
    list.iter().find(|reason| match reason.kind {
        Kind::Differs { shows, .. } => shows(step),
        _ => false,
    })
}

/// The reason for which a run ends in that state.
pub fn ends<'r>(list: &'r [Reason], state: &State) -> Option<&'r Reason> {
    list.iter().find(|reason| match reason.kind {
        Kind::Ends { reached } => reached(state),
        _ => false,
    })
}
