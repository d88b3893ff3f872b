//! An event as one side took it. A write is its entries, one after the other.

use script::{Answer, Event, Line, State};

/// The bytes of a completion entry, and the words that are lent for its effects.
pub const ENTRY: usize = 16;
pub const EFFECT_WORDS: usize = 54;

/// An event, or one entry of a write, with what a side said and the states around it.
#[derive(Clone, Debug)]
pub struct Step {
    pub event: Event,
    pub before: State,
    pub line: Line,
    pub after: State,
}

/// The entries of a write that is not refused as a whole.
fn entries(event: &Event) -> Option<Vec<Event>> {
    let Event::Write { words, bytes } = event else {
        return None;
    };
    let entries = bytes.chunks_exact(ENTRY);
    if entries.len() == 0 || *words < (EFFECT_WORDS * entries.len()) as u64 {
        return None;
    }
    let one = |entry: &[u8]| Event::Write {
        words: EFFECT_WORDS as u64,
        bytes: entry.to_vec(),
    };
    Some(entries.map(one).collect())
}

/// Puts an event to a side that is in that state, a write entry by entry down to the first that is
/// not taken. `put` gives the side's line and its state afterwards.
pub fn steps<E>(
    event: &Event,
    before: State,
    mut put: impl FnMut(&Event) -> Result<(Line, State), E>,
) -> Result<Vec<Step>, E> {
    let (mut steps, mut before) = (Vec::new(), before);
    for event in entries(event).unwrap_or_else(|| vec![event.clone()]) {
        let (line, after) = put(&event)?;
        let taken = matches!(line.answer, Answer::Ok(_));
        steps.push(Step {
            event,
            before: before.clone(),
            line,
            after: after.clone(),
        });
        if !taken {
            break;
        }
        before = after;
    }
    Ok(steps)
}

/// The line of a whole event from those of its steps: a write counts the entries taken, and tells a
/// refusal where it is the first one's.
pub fn joined<'a>(event: &Event, lines: impl IntoIterator<Item = &'a Line>) -> Line {
    let mut lines = lines.into_iter();
    let mut line = lines.next().expect("an event has a step").clone();
    if entries(event).is_none() {
        return line;
    }
    for later in lines {
        if let (Answer::Ok(bytes), Answer::Ok(more)) = (&mut line.answer, &later.answer) {
            *bytes += more;
        }
        line.effects.extend(later.effects.iter().cloned());
    }
    line
}

/// The write's first entries; any other event as it is.
pub fn cut(event: &Event, count: usize) -> Event {
    match event {
        Event::Write { words, bytes } => Event::Write {
            words: *words,
            bytes: bytes[..(ENTRY * count).min(bytes.len())].to_vec(),
        },
        other => other.clone(),
    }
}

#[cfg(test)]
mod tests {
    use super::*;

    /// A side that takes entries with an even first byte, each with an effect, and refuses others.
    fn put(event: &Event) -> Result<(Line, State), ()> {
        let Event::Write { bytes, .. } = event else {
            return Ok((Line::answer(Answer::Wait), State::fresh()));
        };
        let line = match bytes.first() {
            Some(first) if first % 2 == 0 => format!("ok 16 ; E 1 {first} 0"),
            _ => "no 22".to_owned(),
        };
        let mut after = State::fresh();
        after.queue = u64::from(bytes[0]);
        Ok((Line::parse(&line).unwrap(), after))
    }

    fn write(words: u64, first_bytes: &[u8], spare: usize) -> Event {
        let mut bytes = Vec::new();
        for first in first_bytes {
            bytes.extend([&[*first][..], &[0; ENTRY - 1]].concat());
        }
        bytes.extend(vec![9; spare]);
        Event::Write { words, bytes }
    }

    fn told(event: &Event) -> (usize, String) {
        let steps = steps(event, State::fresh(), put).unwrap();
        let line = joined(event, steps.iter().map(|step| &step.line));
        (steps.len(), line.to_string())
    }

    #[test]
    fn a_write_is_its_entries() {
        let two = "ok 32 ; E 1 2 0 ; E 1 4 0";
        assert_eq!(told(&write(108, &[2, 4], 3)), (2, two.to_owned()));
        // nothing behind the first that is refused
        assert_eq!(told(&write(216, &[2, 4, 1, 2], 0)), (3, two.to_owned()));
        assert_eq!(told(&write(108, &[1, 4], 0)), (1, "no 22".to_owned()));
        // refused as a whole, or no entry at all: one step
        let whole = |event: &Event| steps(event, State::fresh(), put).unwrap()[0].event == *event;
        assert!(whole(&write(107, &[2, 4], 0)));
        assert!(whole(&write(0, &[], 15)));
        assert!(whole(&Event::Ended { c: 1 }));
    }

    #[test]
    fn states_follow_each_other() {
        let steps = steps(&write(108, &[2, 4], 0), State::fresh(), put).unwrap();
        let queues = |step: &Step| (step.before.queue, step.after.queue);
        assert_eq!(
            steps.iter().map(queues).collect::<Vec<_>>(),
            [(0, 2), (2, 4)]
        );
    }

    #[test]
    fn a_write_cut() {
        assert_eq!(cut(&write(108, &[2, 4], 3), 1), write(108, &[2], 0));
        assert_eq!(cut(&Event::Ended { c: 1 }, 0), Event::Ended { c: 1 });
    }
}
