//! How often each answer, effect and slot state was reached, by kind of event.

use std::collections::BTreeMap;
use std::fmt::{self, Display, Formatter};

use reasons::{EFFECT_WORDS, ENTRY, Tally};
use script::{Answer, Event, Line, Phase, Reply, State};
use tilgurap::numbers::Layer;

use crate::beside::Taken;

#[derive(Default)]
pub struct Counts {
    pub compared: u64,
    pub skipped: u64,
    /// The reasons that showed and were confirmed.
    pub shown: Tally,
    answers: BTreeMap<(&'static str, String), u64>,
    effects: BTreeMap<(&'static str, u64), u64>,
    phases: BTreeMap<(&'static str, &'static str), u64>,
    replies: BTreeMap<(&'static str, String), u64>,
    /// The event that each slot was given out for last.
    calls: BTreeMap<u64, &'static str>,
    entries: BTreeMap<(u8, &'static str, String), u64>,
    most_slots: u64,
    most_queued: u64,
    /// The events before which some call was an orphan, and those of them before which another one was outstanding.
    orphans: u64,
    parted: u64,
}

fn answer(answer: &Answer) -> String {
    match answer {
        Answer::Ok(_) => "ok".to_owned(),
        Answer::No(number) => format!("no {number}"),
        Answer::Wait => "wait".to_owned(),
        Answer::Blocked => "blocked".to_owned(),
        Answer::Status(_) => "status".to_owned(),
        Answer::Skip => "skip".to_owned(),
        Answer::Reply(reply) => match reply {
            Reply::Regular { result, notice, .. } => format!(
                "reply {}{}",
                if result.is_ok() { "ok" } else { "err" },
                if *notice { " noticed" } else { "" }
            ),
            Reply::Fd(_) => "reply fd".to_owned(),
            Reply::Many(_) => "reply many".to_owned(),
        },
    }
}

/// What stands at a tag.
fn phase(state: &State, tag: u64) -> &'static str {
    let slot = usize::try_from(tag)
        .ok()
        .and_then(|tag| state.slots.get(tag));
    match slot {
        None => "over 63",
        Some(Phase::Vacant) => "vacant",
        Some(Phase::Placeholder) => "Placeholder",
        Some(Phase::Waiting) => "Waiting",
        Some(Phase::Responded) => "Responded",
        Some(Phase::Fmap) => "Fmap",
    }
}

/// Does the event make a call, which is handed a reply?
fn is_call(event: &Event) -> bool {
    let gives_alone = matches!(event, Event::Reserve { .. } | Event::Fmap { .. });
    event.caller_of_tag().is_some() && !gives_alone
}

fn more<K: Ord>(counts: &mut BTreeMap<K, u64>, key: K) {
    *counts.entry(key).or_default() += 1;
}

impl Counts {
    /// What an event came to, on the layer that it was put to.
    pub fn add(&mut self, before: &Layer, event: &Event, taken: &Taken) {
        let (line, mark) = match taken {
            Taken::Same(line) | Taken::Cut(_, line) => {
                self.compared += 1;
                (line, "")
            }
            Taken::Skipped(line) => {
                self.skipped += 1;
                (line, " (the port alone)")
            }
            Taken::Known => return,
        };
        let (kind, state) = (event.name(), before.state());
        more(&mut self.answers, (kind, answer(&line.answer) + mark));
        self.effects_of(kind, line);
        let tag = match event {
            Event::Submit { tag, .. } | Event::Wake { tag, .. } | Event::Supply { tag, .. } => {
                Some(*tag)
            }
            Event::Move { meta, .. } | Event::Obtain { meta } => meta.get(1).copied(),
            _ => None,
        };
        if let Some(tag) = tag {
            more(&mut self.phases, (kind, phase(&state, tag)));
        }
        match (event, &line.answer) {
            (Event::Wake { tag, .. }, Answer::Reply(_)) => {
                if let Some(call) = self.calls.get(tag) {
                    more(&mut self.replies, (*call, answer(&line.answer)));
                }
            }
            (_, Answer::Ok(tag)) if is_call(event) => {
                self.calls.insert(*tag, kind);
            }
            _ => {}
        }
        if let Event::Write { bytes, .. } = event
            && mark.is_empty()
        {
            self.entries_of(before, bytes);
        }
        let occupied = state.slots.iter().filter(|p| **p != Phase::Vacant);
        self.most_slots = self.most_slots.max(occupied.count() as u64);
        self.most_queued = self.most_queued.max(state.queue);
        let [_, outstanding, _, _, orphans] = state.status.map(|(word, _)| word != 0);
        self.orphans += u64::from(orphans);
        self.parted += u64::from(orphans && outstanding);
    }

    fn effects_of(&mut self, kind: &'static str, line: &Line) {
        for effect in &line.effects {
            more(&mut self.effects, (kind, effect.kind));
        }
    }

    /// Each entry down to the first that is refused: its kind, what stands at its tag, its answer.
    fn entries_of(&mut self, before: &Layer, bytes: &[u8]) {
        let mut layer = before.clone();
        for entry in bytes.chunks_exact(ENTRY) {
            let tag = u32::from_le_bytes(entry[4..8].try_into().expect("four bytes"));
            let at = match entry[0] % 8 {
                2 => "-",
                _ => phase(&layer.state(), u64::from(tag)),
            };
            let told = layer.write(&mut [0; EFFECT_WORDS], entry).0;
            more(&mut self.entries, (entry[0] % 8, at, answer(&told)));
            if !matches!(told, Answer::Ok(_)) {
                break;
            }
        }
    }
}

impl Display for Counts {
    fn fmt(&self, f: &mut Formatter) -> fmt::Result {
        writeln!(
            f,
            "{} events compared, {} skipped by the Rust ({} in 100)",
            self.compared,
            self.skipped,
            100 * self.skipped / (self.compared + self.skipped).max(1)
        )?;
        writeln!(
            f,
            "at most {} slots and {} queued entries; orphans before {} events, beside outstanding calls before {}",
            self.most_slots, self.most_queued, self.orphans, self.parted
        )?;
        writeln!(f, "\nreasons, and how often each showed and was confirmed")?;
        write!(f, "{}", self.shown.lines(reasons::ALL))?;
        writeln!(f, "\nanswers")?;
        for ((kind, answer), count) in &self.answers {
            writeln!(f, "  {kind:8} {answer:26} {count:>10}")?;
        }
        writeln!(f, "\nreplies, by the event of their call")?;
        for ((kind, answer), count) in &self.replies {
            writeln!(f, "  {kind:8} {answer:26} {count:>10}")?;
        }
        writeln!(f, "\neffects")?;
        for ((kind, effect), count) in &self.effects {
            writeln!(f, "  {kind:8} {effect:26} {count:>10}")?;
        }
        writeln!(f, "\nwhat stood at the tag")?;
        for ((kind, phase), count) in &self.phases {
            writeln!(f, "  {kind:8} {phase:26} {count:>10}")?;
        }
        writeln!(f, "\nentries of writes, down to the first refused one")?;
        for ((kind, phase, answer), count) in &self.entries {
            writeln!(f, "  kind {kind}   {phase:12} {answer:13} {count:>10}")?;
        }
        Ok(())
    }
}
