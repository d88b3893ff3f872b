//! What the recorded runs cover: how often each event got each answer, each kind of completion
//! entry its own, each of them by the phase of its slot, each call each kind of reply, and each of
//! 01's own refusals each event.

use std::collections::BTreeMap;
use std::fmt::{self, Display, Formatter};

use reasons::Tally;
use script::{Answer, Event, Line, Phase, Reply, State};

const ENTRY: usize = 16;
const PAGE: u64 = 4_096;

/// Each answer that the kernel has for each event, as its source reads.
const ANSWERS: [(&str, &[&str]); 21] = [
    ("open", &["ok"]),
    ("copy", &["ok"]),
    ("drop", &["ok"]),
    ("put", &["ok"]),
    ("ended", &["ok"]),
    ("reserve", &["ok"]),
    ("submit", &["ok"]),
    ("call", &["ok"]),
    ("generic", &["ok", "no 22"]),
    ("stdfs", &["ok", "no 22", "no 95"]),
    ("fmap", &["ok"]),
    ("close", &["ok"]),
    ("detach", &["ok"]),
    ("wake", WAKE),
    ("read", &["ok 0", "ok", "wait", "no 22", "no 11"]),
    ("write", &["ok 0", "ok", "no 22", "no 77", "no 2"]),
    ("move", &["ok", "no 22", "no 2"]),
    ("obtain", &["ok", "no 22", "no 2"]),
    ("supply", &["ok", "no 22", "no 77", "no 3"]),
    ("fdwrite", &["ok"]),
    ("fdread", &["ok", "no 22"]),
];

const WAKE: &[&str] = &[
    "no 77",
    "no 4",
    "blocked, Cancel queued",
    "blocked",
    "regular ok",
    "regular ok, notice",
    "regular err",
    "regular err, notice",
    "fd",
    "many",
];
/// Those of them that hand a reply over.
const REPLIES: &[&str] = WAKE.split_at(4).1;

/// The replies that each event's call was handed.
const REPLIED: [(&str, &[&str]); 6] = [
    ("reply to submit", REPLIES),
    ("reply to call", REPLIES),
    ("reply to generic", REPLIES),
    ("reply to stdfs", REPLIES),
    ("reply to fdwrite", REPLIES),
    ("reply to fdread", REPLIES),
];

/// Each answer to a completion entry. One that is refused behind a good one tells no number.
const ENTRY_ANSWERS: [(&str, &[&str]); 7] = [
    ("kind 0", &["taken", "no 22", "no 77", "refused later"]),
    ("kind 1", &["taken", "no 22", "no 77", "refused later"]),
    ("kind 2", &["taken", "no 22", "refused later"]),
    ("kind 3", &["taken", "no 22", "no 2", "refused later"]),
    ("kind 4", &["taken", "no 22", "no 77", "refused later"]),
    ("kind 5", &["taken", "no 22", "no 77", "refused later"]),
    ("kind 6, 7", &["no 22", "refused later"]),
];

const PHASES: [(Phase, &str); 5] = [
    (Phase::Vacant, "Vacant"),
    (Phase::Placeholder, "Placeholder"),
    (Phase::Waiting, "Waiting"),
    (Phase::Responded, "Responded"),
    (Phase::Fmap, "Fmap"),
];

const REPLY_BY_PHASE: [&[&str]; 5] = [&["no 77"], &["no 77"], &["ok"], &["no 22"], &["no 22"]];
const CALL_BY_PHASE: [&[&str]; 5] = [&["no 22"], &["no 2"], &["ok"], &["no 2"], &["no 2"]];

/// The answers by the phase of the slot before, where nothing else is wrong with the event or with
/// the first entry of the write.
const BY_PHASE: [(&str, [&[&str]; 5]); 10] = [
    (
        "wake",
        [
            &["no 77"],
            &["no 77"],
            &["no 4", "blocked, Cancel queued", "blocked"],
            REPLIES,
            &["no 77"],
        ],
    ),
    ("entry of kind 0", REPLY_BY_PHASE),
    ("entry of kind 1, its handle full", REPLY_BY_PHASE),
    ("entry of kind 1, its handle empty", [&["no 22"]; 5]),
    (
        "entry of kind 3",
        [&["no 22"], &["no 2"], &["ok", "no 2"], &["no 2"], &["no 2"]],
    ),
    ("entry of kind 4", REPLY_BY_PHASE),
    ("entry of kind 5", REPLY_BY_PHASE),
    ("move", CALL_BY_PHASE),
    ("obtain", CALL_BY_PHASE),
    (
        "supply",
        [
            &["no 22"],
            &["no 77"],
            &["no 22"],
            &["no 22"],
            &["ok", "no 3"],
        ],
    ),
];

/// The events that 01 refuses by its own numbers, 207 apart.
const LIMITS: [(&str, &[&str]); 6] = [
    ("no 201", &["submit", "wake"]),
    (
        "no 202",
        &[
            "reserve", "call", "generic", "stdfs", "fmap", "fdwrite", "fdread",
        ],
    ),
    (
        "no 203",
        &[
            "submit", "call", "generic", "stdfs", "fmap", "close", "detach", "wake", "fdwrite",
            "fdread",
        ],
    ),
    ("no 204", &["write"]),
    (
        "no 205",
        &[
            "open", "copy", "drop", "put", "submit", "call", "move", "wake", "fdwrite",
        ],
    ),
    ("no 206", &["submit", "call", "move", "fdwrite"]),
];

/// The status words that are not 0 at the end of a run.
const ENDS: [(&str, &[&str]); 1] = [(
    "words at the end",
    &[
        "Placeholder",
        "outstanding",
        "Responded",
        "Fmap",
        "orphans",
        "orphans beside outstanding",
    ],
)];

/// The bits of an obtain entry's extra bytes that have a name (syscall/src/flag.rs).
const OBTAIN_BITS: u32 = 15;

fn answer(event: &Event, line: &Line) -> String {
    match (&line.answer, event) {
        (Answer::Ok(0), Event::Read { .. } | Event::Write { .. }) => "ok 0".to_owned(),
        (Answer::Ok(_), _) => "ok".to_owned(),
        (Answer::No(number), _) => format!("no {number}"),
        (Answer::Wait, _) => "wait".to_owned(),
        (Answer::Blocked, _) if line.effects.is_empty() => "blocked".to_owned(),
        (Answer::Blocked, _) => "blocked, Cancel queued".to_owned(),
        (Answer::Reply(Reply::Fd(_)), _) => "fd".to_owned(),
        (Answer::Reply(Reply::Many(_)), _) => "many".to_owned(),
        (Answer::Reply(Reply::Regular { result, notice, .. }), _) => {
            let word = if result.is_ok() { "ok" } else { "err" };
            let notice = if *notice { ", notice" } else { "" };
            format!("regular {word}{notice}")
        }
        (Answer::Status(_), _) => unreachable!("a question is not recorded"),
        (Answer::Skip, _) => "skip".to_owned(),
    }
}

fn entry_kind(entry: &[u8]) -> &'static str {
    ENTRY_ANSWERS[usize::from(entry[0] % 8).min(6)].0
}

/// The first entry of a write: its row of `BY_PHASE` and its tag.
fn first_entry(bytes: &[u8], state: &State) -> Option<(&'static str, u64)> {
    let entry: &[u8; ENTRY] = bytes.first_chunk()?;
    let number = |at: usize| {
        let half: &[u8; 4] = entry[at..].first_chunk().expect("four bytes");
        u32::from_le_bytes(*half)
    };
    let handle = u64::from(number(8)) | u64::from(number(12)) << 32;
    let held = usize::try_from(handle)
        .ok()
        .and_then(|h| state.handles.get(h));
    let row = match entry[0] % 8 {
        0 => "entry of kind 0",
        1 if held.is_some_and(Option::is_some) => "entry of kind 1, its handle full",
        1 => "entry of kind 1, its handle empty",
        3 if number(0) >> 8 <= OBTAIN_BITS => "entry of kind 3",
        4 => "entry of kind 4",
        5 => "entry of kind 5",
        _ => return None,
    };
    Some((row, u64::from(number(4))))
}

/// The event's row of `BY_PHASE` and its tag, where it has one and nothing else is wrong with it.
fn tagged(event: &Event, state: &State) -> Option<(&'static str, u64)> {
    match event {
        Event::Wake { tag, .. } => Some(("wake", *tag)),
        Event::Write { bytes, .. } => first_entry(bytes, state),
        Event::Move { meta, .. } if meta.len() == 2 && meta[0] == 1 => Some(("move", meta[1])),
        Event::Obtain { meta } if meta.len() == 2 && meta[0] == 0 => Some(("obtain", meta[1])),
        Event::Supply {
            tag,
            offset,
            base,
            count,
        } if offset % PAGE == 0 && base % PAGE == 0 && *count == 1 => Some(("supply", *tag)),
        _ => None,
    }
}

fn phase_name(state: &State, tag: u64) -> &'static str {
    let slot = usize::try_from(tag)
        .ok()
        .and_then(|tag| state.slots.get(tag));
    let phase = slot.copied().unwrap_or(Phase::Vacant);
    PHASES[phase as usize].1
}

/// How often each row got each answer.
#[derive(Default)]
struct Counts(BTreeMap<String, BTreeMap<String, u64>>);

impl Counts {
    fn add(&mut self, row: &str, answer: &str) {
        let row = self.0.entry(row.to_owned()).or_default();
        *row.entry(answer.to_owned()).or_default() += 1;
    }

    fn count(&self, row: &str, answer: &str) -> u64 {
        let row = self.0.get(row);
        row.and_then(|row| row.get(answer)).copied().unwrap_or(0)
    }
}

/// The row of `REPLIED` for an event that makes a call.
fn calls(event: &Event) -> Option<&'static str> {
    let row = |name: &str| REPLIED.iter().find(|(row, _)| row.ends_with(name));
    row(&format!(" {}", event.name())).map(|(row, _)| *row)
}

/// A table's rows, and the answers of each.
type Table = Vec<(String, &'static [&'static str])>;

fn plain(rows: &[(&str, &'static [&'static str])]) -> Table {
    let own = |row: &(&str, &'static [&'static str])| (row.0.to_owned(), row.1);
    rows.iter().map(own).collect()
}

fn by_phase() -> Table {
    let mut table = Table::new();
    for (row, answers) in BY_PHASE {
        for ((_, phase), answers) in PHASES.iter().zip(answers) {
            table.push((format!("{row}, {phase}"), answers));
        }
    }
    table
}

#[derive(Default)]
pub struct Cover {
    pub runs: u64,
    /// Left out: by the reasons of rust/reasons, and what the format or the program has no place for.
    pub left_out: Tally,
    pub no_place: u64,
    recorded: u64,
    events: Counts,
    entries: Counts,
    phases: Counts,
    replies: Counts,
    limits: Counts,
    ends: Counts,
    /// The row of `REPLIED` of the call that each slot was given out for last.
    calls: BTreeMap<u64, &'static str>,
    /// By kind.
    effects: BTreeMap<u64, u64>,
}

impl Cover {
    /// An event, the state before it, and what it answered.
    pub fn add(&mut self, event: &Event, before: &State, line: &Line) {
        self.recorded += 1;
        let answer = answer(event, line);
        for effect in &line.effects {
            *self.effects.entry(effect.kind).or_default() += 1;
        }
        if let Event::Write { bytes, .. } = event {
            self.add_entries(bytes, &line.answer);
        }
        if let Some((row, tag)) = tagged(event, before) {
            let row = format!("{row}, {}", phase_name(before, tag));
            self.phases.add(&row, &answer);
        }
        match (event, &line.answer) {
            (Event::Wake { tag, .. }, Answer::Reply(_)) => {
                self.replies.add(self.calls[tag], &answer);
            }
            (_, Answer::Ok(tag)) => {
                if let Some(row) = calls(event) {
                    self.calls.insert(*tag, row);
                }
            }
            _ => {}
        }
        self.events.add(event.name(), &answer);
    }

    fn add_entries(&mut self, bytes: &[u8], answer: &Answer) {
        let (taken, refused) = match answer {
            Answer::Ok(bytes) => (*bytes as usize / ENTRY, "refused later".to_owned()),
            Answer::No(number) => (0, format!("no {number}")),
            other => unreachable!("a write answers {other}"),
        };
        for (place, entry) in bytes.chunks_exact(ENTRY).enumerate().take(taken + 1) {
            let answer = if place < taken { "taken" } else { &refused };
            self.entries.add(entry_kind(entry), answer);
        }
    }

    /// An event of 01's own list, and what it answers there.
    pub fn add_limit(&mut self, event: &Event, line: &Line) {
        if let Answer::No(201..=207) = line.answer {
            self.limits.add(&answer(event, line), event.name());
        }
    }

    /// The state at the end of a run.
    pub fn add_end(&mut self, state: &State) {
        let [(row, names)] = ENDS;
        let words = state.status.map(|(word, _)| word != 0);
        let [_, outstanding, _, _, orphans] = words;
        let shown = words.into_iter().chain([outstanding && orphans]);
        for (name, _) in names.iter().zip(shown).filter(|(_, is_so)| *is_so) {
            self.ends.add(row, name);
        }
    }

    /// The ends of runs whose events are counted elsewhere.
    pub fn add_ends(&mut self, of: &Cover) {
        for (row, answers) in &of.ends.0 {
            let row = self.ends.0.entry(row.clone()).or_default();
            for (answer, count) in answers {
                *row.entry(answer.clone()).or_default() += count;
            }
        }
    }

    fn tables(&self) -> [(&Counts, Table); 6] {
        [
            (&self.events, plain(&ANSWERS)),
            (&self.entries, plain(&ENTRY_ANSWERS)),
            (&self.phases, by_phase()),
            (&self.replies, plain(&REPLIED)),
            (&self.limits, plain(&LIMITS)),
            (&self.ends, plain(&ENDS)),
        ]
    }

    /// Was everything recorded that the tables have, and nothing else?
    pub fn complete(&self) -> Result<(), String> {
        for (counts, table) in self.tables() {
            for (row, answers) in &counts.0 {
                let wanted = table.iter().find(|(name, _)| name == row);
                let wanted = wanted.map_or(&[][..], |(_, answers)| *answers);
                if let Some(other) = answers.keys().find(|a| !wanted.contains(&a.as_str())) {
                    return Err(format!("{row}: `{other}` is recorded and in no table"));
                }
            }
            for (row, answers) in &table {
                if let Some(missing) = answers.iter().find(|a| counts.count(row, a) == 0) {
                    return Err(format!("{row}: no `{missing}` is recorded"));
                }
            }
        }
        Ok(())
    }
}

impl Display for Cover {
    fn fmt(&self, f: &mut Formatter) -> fmt::Result {
        writeln!(f, "{} runs, {} events", self.runs, self.recorded)?;
        writeln!(
            f,
            "left out: {} with no place, and by reason",
            self.no_place
        )?;
        write!(f, "{}", self.left_out.lines(reasons::ALL))?;
        for (counts, table) in self.tables() {
            for (row, answers) in table {
                let cell = |answer: &&str| format!("{answer}: {}", counts.count(&row, answer));
                let cells: Vec<String> = answers.iter().map(cell).collect();
                writeln!(f, "| {row} | {} |", cells.join("; "))?;
            }
        }
        let effects = self.effects.iter();
        let effects: Vec<String> = effects.map(|(kind, n)| format!("{kind}: {n}")).collect();
        writeln!(f, "| effects, by kind | {} |", effects.join("; "))
    }
}

#[cfg(test)]
mod tests {
    use super::*;

    fn added(cover: &mut Cover, event: &str, before: &State, line: &str) {
        let event = Event::parse(event).unwrap();
        cover.add(&event, before, &Line::parse(line).unwrap());
    }

    #[test]
    fn a_missing_answer_and_one_too_many() {
        let mut cover = Cover::default();
        let what = cover.complete().unwrap_err();
        assert_eq!(what, "open: no `ok` is recorded");
        added(&mut cover, "open 1", &State::fresh(), "no 77");
        let what = cover.complete().unwrap_err();
        assert_eq!(what, "open: `no 77` is recorded and in no table");
    }

    #[test]
    fn rows() {
        let mut cover = Cover::default();
        let mut before = State::fresh();
        before.slots[1] = Phase::Waiting;
        added(&mut cover, "wake 1 100 0 0 0", &before, "blocked ; E 5 7 1");
        added(&mut cover, "wake 64 100 0 0 0", &before, "no 77");
        let (reply, bad) = (
            "00000000010000000000000000000000",
            "06000000000000000000000000000000",
        );
        let write = format!("write 162 {reply}{bad}{reply}");
        added(&mut cover, &write, &before, "ok 16 ; E 1 100 1");
        assert_eq!(cover.recorded, 3);
        assert_eq!(cover.events.count("wake", "blocked, Cancel queued"), 1);
        assert_eq!(
            cover
                .phases
                .count("wake, Waiting", "blocked, Cancel queued"),
            1
        );
        assert_eq!(cover.phases.count("wake, Vacant", "no 77"), 1);
        assert_eq!(cover.phases.count("entry of kind 0, Waiting", "ok"), 1);
        assert_eq!(cover.entries.count("kind 0", "taken"), 1);
        assert_eq!(cover.entries.count("kind 6, 7", "refused later"), 1);
        // the third entry is not read
        assert_eq!(cover.entries.0.values().flatten().count(), 2);
        assert_eq!(cover.effects[&5] + cover.effects[&1], 2);
    }

    #[test]
    fn replies_by_the_call() {
        let mut cover = Cover::default();
        let before = &State::fresh();
        for call in ["fdwrite 1 2 3 0 5 6 7 0", "call 1 6 0 0 0 0 0 0 0 0 0 0"] {
            added(&mut cover, call, before, "ok 4 ; E 5 7 1");
            added(&mut cover, "wake 4 1 0 0 0", before, "reply fd 3");
        }
        added(&mut cover, "reserve 1", before, "ok 4");
        let counts = |row| cover.replies.count(row, "fd");
        assert_eq!(counts("reply to fdwrite") + counts("reply to call"), 2);
        assert_eq!(cover.replies.0.len(), 2);
    }
}
