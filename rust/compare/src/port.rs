//! The layer as a side, with an eye on what it is lent.

use reasons::{EFFECT_WORDS, ENTRY};
use script::{Event, Line, State};
use tilgurap::numbers::Layer;

/// The layer, or one with a slip in it.
pub trait Port: Clone {
    /// One event's line, or what was wrong with the lent bytes or words after it.
    fn step(&mut self, event: &Event) -> Result<Line, String>;
    fn layer(&self) -> &Layer;

    fn state(&self) -> State {
        self.layer().state()
    }
}

/// Lent beyond what an event can use, so that a store there shows.
const SPARE: usize = 9;
const QUEUE_BYTES: u64 = 8_192;

fn byte(place: usize) -> u8 {
    0xa5 ^ place as u8
}

fn word(place: usize) -> u64 {
    0xa5a5_5a5a_c3c3_3c3c ^ place as u64
}

/// What was lent and not used keeps what it held.
fn kept<T: PartialEq>(lent: &[T], used: usize, held: fn(usize) -> T) -> Result<(), String> {
    match (used..lent.len()).find(|place| lent[*place] != held(*place)) {
        None => Ok(()),
        Some(place) => Err(format!("stored at {place}, beyond the {used} that it told")),
    }
}

impl Port for Layer {
    fn step(&mut self, event: &Event) -> Result<Line, String> {
        match event {
            Event::Read { len, flags } => {
                let lent = (*len).min(QUEUE_BYTES + SPARE as u64) as usize;
                let mut out: Vec<u8> = (0..lent).map(byte).collect();
                let line = self.read_line(&mut out, *flags);
                kept(&out, line.bytes.len(), byte)?;
                Ok(line)
            }
            Event::Write { words, bytes } => {
                let most = EFFECT_WORDS * (bytes.len() / ENTRY) + SPARE;
                let lent = (*words).min(most as u64) as usize;
                let mut fx: Vec<u64> = (0..lent).map(word).collect();
                let line = self.write_line(&mut fx, bytes);
                kept(&fx, 3 * line.effects.len(), word)?;
                Ok(line)
            }
            _ => Ok(Layer::step(self, event)),
        }
    }

    fn layer(&self) -> &Layer {
        self
    }
}
