//! A file of recorded runs, as the program `recorded` reads it, and what one run may have.

use script::{Event, Line, NoPlace, State};

/// What the program has room for: bytes of a run's events, bytes recorded of it, bytes that the
/// run asks for to write them, and words that a write is lent.
const EVENT_BYTES: usize = 65_536;
const RECORDED_BYTES: usize = 65_536;
const ROOM: usize = 262_144;
const LENT_WORDS: usize = 8_192;

const ENTRY: usize = 16;
const EFFECT_WORDS: usize = 54;

/// A run's events, and what is recorded of them.
pub struct Run {
    scheme: u64,
    count: usize,
    events: Vec<u8>,
    recorded: Vec<u8>,
    room: usize,
}

impl Run {
    pub fn new(scheme: u64) -> Run {
        Run {
            scheme,
            count: 0,
            events: Vec::new(),
            recorded: Vec::new(),
            room: State::BYTES,
        }
    }

    /// Has the format a place for that event?
    pub fn takes(event: &Event) -> bool {
        let lent = match event {
            Event::Write { bytes, .. } => EFFECT_WORDS * (bytes.len() / ENTRY),
            _ => 0,
        };
        event.encode().is_ok() && lent <= LENT_WORDS
    }

    /// Has the program room for one more event, whatever is answered?
    pub fn has_room(&self, event: &Event) -> bool {
        let most = event.room();
        let record = event.encode().map_or(0, |record| record.len());
        self.events.len() + record <= EVENT_BYTES
            && self.recorded.len() + most + State::BYTES <= RECORDED_BYTES
            && self.room + most <= ROOM
    }

    pub fn add(&mut self, event: &Event, line: &Line) -> Result<(), NoPlace> {
        self.events.extend(event.encode()?);
        self.recorded.extend(line.encode()?);
        self.room += event.room();
        self.count += 1;
        Ok(())
    }

    /// The state that the run leaves ends it.
    pub fn end(&mut self, state: &State) -> Result<(), NoPlace> {
        self.recorded.extend(state.encode()?);
        Ok(())
    }
}

#[derive(Default)]
pub struct File {
    runs: Vec<Run>,
}

/// The bytes as digits to the base 256, modulo a prime: no single changed byte leaves it.
fn check_number(bytes: &[u8]) -> u64 {
    let digit = |check, byte: &u8| (check * 256 + u64::from(*byte)) % 4_294_967_291;
    bytes.iter().fold(0, digit)
}

impl File {
    pub fn add(&mut self, run: Run) {
        self.runs.push(run);
    }

    /// How many runs; then of each the scheme number, the lengths of its events and of what is
    /// recorded, and these.
    pub fn bytes(&self) -> Vec<u8> {
        let mut bytes = (self.runs.len() as u64).to_le_bytes().to_vec();
        for run in &self.runs {
            for word in [
                run.scheme,
                run.events.len() as u64,
                run.recorded.len() as u64,
            ] {
                bytes.extend(word.to_le_bytes());
            }
            bytes.extend(&run.events);
            bytes.extend(&run.recorded);
        }
        bytes
    }

    /// What the program prints of the file when all is as recorded.
    pub fn line(&self, name: &str) -> String {
        let sum = |of: fn(&Run) -> usize| self.runs.iter().map(of).sum::<usize>();
        format!(
            "{name}: runs {}, events {}, bytes of events {}, bytes of answers {}, all as recorded; check {}\n",
            self.runs.len(),
            sum(|run| run.count),
            sum(|run| run.events.len()),
            sum(|run| run.recorded.len()),
            check_number(&self.bytes())
        )
    }
}

#[cfg(test)]
mod tests {
    use script::Answer;

    use super::*;

    #[test]
    fn layout() {
        let mut run = Run::new(7);
        let event = Event::Close { id: 1 };
        let line = Line::answer(Answer::Ok(0));
        run.add(&event, &line).unwrap();
        run.end(&State::fresh()).unwrap();
        let mut file = File::default();
        file.add(run);
        let bytes = file.bytes();
        let word = |at: usize| u64::from_le_bytes(bytes[at..at + 8].try_into().unwrap());
        assert_eq!(
            [word(0), word(8), word(16), word(24)],
            [1, 7, 24, 32 + State::BYTES as u64]
        );
        assert_eq!(bytes[32..56], event.encode().unwrap());
        assert_eq!(bytes.len(), 32 + 24 + 32 + State::BYTES);
    }

    #[test]
    fn check_numbers() {
        assert_eq!(check_number(b""), 0);
        assert_eq!(check_number(&[1, 2]), 258);
        // 2^32 modulo 2^32 - 5
        assert_eq!(check_number(&[1, 0, 0, 0, 0]), 5);
    }

    #[test]
    fn what_has_no_place() {
        let write = |entries| Event::Write {
            words: u64::MAX,
            bytes: vec![0; ENTRY * entries],
        };
        assert!(Run::takes(&write(151)));
        assert!(!Run::takes(&write(152)));
        let list = |len| Event::Obtain { meta: vec![0; len] };
        assert!(Run::takes(&list(255)));
        assert!(!Run::takes(&list(256)));
    }
}
