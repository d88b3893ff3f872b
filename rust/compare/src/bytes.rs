//! The same events through `tilgurap_run`: its whole output held against what was told before.
//! Damaged records, too: the run has to turn them down before it starts.

use generate::Draw;
use reasons::{EFFECT_WORDS, ENTRY};
use script::{Event, Line, State};

use crate::beside::Taken;

const UNTOUCHED: u8 = 0x5a;
/// How many damaged inputs are tried after a run.
const DAMAGED: u32 = 12;

/// Records, the output that they are to have, and what they need.
#[derive(Default)]
struct Records {
    events: Vec<u8>,
    output: Vec<u8>,
    /// Where each record begins.
    places: Vec<usize>,
    room: usize,
    words: usize,
}

/// The bytes of a record's head that its kind has no use for, as docs/FORMAT.md has them.
fn unused(kind: u8) -> Vec<usize> {
    let mut unused = Vec::new();
    if !matches!(kind, 7 | 8 | 9 | 10 | 17 | 18 | 20 | 21) {
        unused.push(1);
    }
    if !matches!(kind, 9 | 10 | 17 | 20) {
        unused.push(2);
    }
    if kind != 7 {
        unused.push(3);
    }
    if !matches!(kind, 5..=11 | 14..=16 | 20 | 21) {
        unused.extend(4..8);
    }
    if !matches!(kind, 8 | 11 | 20 | 21) {
        unused.extend(8..16);
    }
    unused
}

impl Records {
    fn add(&mut self, event: &Event, line: &Line) {
        let (Ok(record), Ok(told)) = (event.encode(), line.encode()) else {
            unreachable!("lists are short and a line that was compared is no skip");
        };
        self.places.push(self.events.len());
        self.events.extend(record);
        self.output.extend(told);
        self.room += event.room();
        if let Event::Write { bytes, .. } = event {
            self.words = self.words.max(EFFECT_WORDS * (bytes.len() / ENTRY));
        }
    }

    fn check(&self, scheme: u64, state: &State) -> Result<(), String> {
        let Ok(last) = state.encode() else {
            unreachable!("the status words are those of the slots");
        };
        let wanted = [&self.output[..], &last[..]].concat();
        let mut fx = vec![0; self.words];

        let mut short = vec![UNTOUCHED; State::BYTES + self.room - 1];
        let end = tilgurap::numbers::run(scheme, &self.events, &mut short, &mut fx);
        if (end.number, end.written) != (204, 0) || short.iter().any(|b| *b != UNTOUCHED) {
            return Err(format!("  run with a byte too little room: {end:?}"));
        }

        let mut out = vec![UNTOUCHED; State::BYTES + self.room];
        let end = tilgurap::numbers::run(scheme, &self.events, &mut out, &mut fx);
        let whole = (0, self.events.len() as u64, wanted.len() as u64);
        if (end.number, end.place, end.written) != whole {
            return Err(format!("  run: {end:?}, wanted {whole:?}"));
        }
        let (written, beyond) = out.split_at(wanted.len());
        if let Some(at) = (0..wanted.len()).find(|at| written[*at] != wanted[*at]) {
            return Err(format!(
                "  run: byte {at} of its output is {}, wanted {}",
                written[at], wanted[at]
            ));
        }
        if beyond.iter().any(|b| *b != UNTOUCHED) {
            return Err("  run: it stored beyond what it told".to_owned());
        }
        Ok(())
    }

    /// The events with one record that is none, and where it begins.
    fn damaged(&self, draw: &mut Draw) -> (Vec<u8>, usize) {
        let place = draw.below(self.places.len() as u64) as usize;
        let start = self.places[place];
        let end = self.places.get(place + 1);
        let end = end.copied().unwrap_or(self.events.len());
        let mut events = self.events.clone();
        match draw.below(3) {
            // cut off, somewhere inside
            0 => events.truncate(start + 1 + draw.below((end - start - 1) as u64) as usize),
            1 => events[start] = draw.one_of(&[0, 22, 23, 128, 255]),
            _ => {
                let field = draw.one_of(&unused(events[start]));
                events[start + field] = draw.one_of(&[1, 2, 128, 255]);
            }
        }
        (events, place)
    }

    /// A damaged record is found before the first event: its place is told, also where the output is too short, and nothing
    /// is run or written.
    fn check_damaged(&self, scheme: u64, draw: &mut Draw) -> Result<(), String> {
        if self.places.is_empty() {
            return Ok(());
        }
        let (events, place) = self.damaged(draw);
        let start = self.places[place];
        let room = draw.one_of(&[0, State::BYTES + self.room]);
        let mut out = vec![UNTOUCHED; room];
        let lent = vec![u64::from(UNTOUCHED); self.words];
        let mut fx = lent.clone();
        let end = tilgurap::numbers::run(scheme, &events, &mut out, &mut fx);
        if (end.number, end.place, end.written) != (205, start as u64, 0) {
            return Err(format!(
                "  run with event {place} damaged, at {start}: {end:?}"
            ));
        }
        if out.iter().any(|byte| *byte != UNTOUCHED) || fx != lent {
            return Err(format!("  run with event {place} damaged: it wrote"));
        }
        Ok(())
    }
}

/// A run's events as the port told them: what the kernel was given, and what the port took.
#[derive(Default)]
pub struct Told {
    kernel: Records,
    port: Records,
}

impl Told {
    pub fn add(&mut self, event: &Event, taken: &Taken) {
        if !event.is_of_a_run() {
            return;
        }
        match taken {
            Taken::Same(line) => {
                self.kernel.add(event, line);
                self.port.add(event, line);
            }
            Taken::Cut(given, line) => {
                self.kernel.add(given, line);
                self.port.add(event, line);
            }
            Taken::Skipped(line) => self.port.add(event, line),
            Taken::Known => {}
        }
    }

    /// Runs both lists. What the kernel was not given changes nothing, so both leave this state.
    pub fn check(&self, scheme: u64, state: &State) -> Result<(), String> {
        self.kernel.check(scheme, state)?;
        self.port.check(scheme, state)?;
        let draw = &mut Draw::new(self.port.events.len() as u64);
        (0..DAMAGED).try_for_each(|_| self.port.check_damaged(scheme, draw))
    }
}
