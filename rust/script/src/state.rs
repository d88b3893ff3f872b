//! The last line of a run: the state that it leaves.

use std::fmt::{self, Display, Formatter};

use crate::fields::Fields;

#[derive(Clone, Copy, Debug, PartialEq, Eq)]
pub enum Phase {
    Vacant,
    Placeholder,
    Waiting,
    Responded,
    Fmap,
}

impl Phase {
    const ALL: [(Phase, char); 5] = [
        (Phase::Vacant, 'v'),
        (Phase::Placeholder, 'p'),
        (Phase::Waiting, 'w'),
        (Phase::Responded, 'r'),
        (Phase::Fmap, 'f'),
    ];

    pub fn letter(self) -> char {
        Phase::ALL[self as usize].1
    }

    pub fn from_letter(letter: char) -> Option<Phase> {
        let found = Phase::ALL.iter().find(|(_, l)| *l == letter);
        found.map(|(phase, _)| *phase)
    }
}

#[derive(Clone, Debug, PartialEq, Eq)]
pub struct State {
    pub slots: [Phase; 64],
    pub queue: u64,
    /// All holds of each description, and the outside ones among them.
    pub holds: [u64; 64],
    pub outside: [u64; 64],
    /// The description in each handle.
    pub handles: [Option<u64>; 64],
    pub status: StatusWords,
}

/// Placeholder, outstanding, Responded, Fmap and orphans: one bit a slot, and the count of ones.
pub type StatusWords = [(u64, u64); 5];

impl State {
    /// Every slot vacant, all else empty.
    pub fn fresh() -> State {
        State {
            slots: [Phase::Vacant; 64],
            queue: 0,
            holds: [0; 64],
            outside: [0; 64],
            handles: [None; 64],
            status: StatusWords::default(),
        }
    }

    /// The status words that go with the slots. Bit N of `abandoned` is set where the caller of slot N has ended or its
    /// call has returned: where it waits, nobody will collect its reply.
    pub fn status_of(slots: &[Phase; 64], abandoned: u64) -> StatusWords {
        let of = |phase| {
            let tags = (0..64).filter(|tag| slots[*tag] == phase);
            tags.fold(0u64, |word, tag| word | 1 << tag)
        };
        let waiting = of(Phase::Waiting);
        let words = [
            of(Phase::Placeholder),
            waiting & !abandoned,
            of(Phase::Responded),
            of(Phase::Fmap),
            waiting & abandoned,
        ];
        words.map(|word| (word, u64::from(word.count_ones())))
    }

    /// Are its status words some that go with its slots?
    pub fn has_its_status(&self) -> bool {
        let [.., (orphans, _)] = self.status;
        self.status == State::status_of(&self.slots, orphans)
    }

    pub fn parse(text: &str) -> Result<State, String> {
        let f = &mut Fields::new(text);
        let mut state = State::fresh();
        f.expect("state")?;
        f.expect("slots")?;
        let letters = f.word("SLOTS")?;
        if letters.chars().count() != 64 {
            return Err("field SLOTS: not 64 letters".to_owned());
        }
        for (slot, letter) in state.slots.iter_mut().zip(letters.chars()) {
            *slot = Phase::from_letter(letter)
                .ok_or_else(|| format!("field SLOTS: unknown letter `{letter}`"))?;
        }
        f.expect("queue")?;
        state.queue = f.u64("QUEUE")?;
        f.expect("holds")?;
        state.holds = f.array("HOLDS")?;
        f.expect("outside")?;
        state.outside = f.array("OUTSIDE")?;
        f.expect("handles")?;
        for (i, handle) in state.handles.iter_mut().enumerate() {
            let name = format!("HANDLE{i}");
            let word = f.word(&name)?;
            *handle = match word {
                "-" => None,
                _ => Some(Fields::new(word).u64(&name)?),
            };
        }
        f.expect("status")?;
        state.status = status_words(f)?;
        f.end()?;
        Ok(state)
    }
}

const SECTIONS: [&str; 6] = ["slots", "orphans", "queue", "holds", "outside", "handles"];

impl State {
    /// The state that a short line says behind `state `: what is not as in a fresh one. The first slots' letters; the tags of
    /// orphans, behind them; of holds, outside holds and handles `AT:NUMBER`.
    pub fn parse_short(text: &str) -> Result<State, String> {
        let (mut state, mut abandoned) = (State::fresh(), 0);
        let mut section = "";
        for word in text.split(' ') {
            let wrong = || format!("`{word}` in a state");
            let number = |word: &str| Fields::new(word).u64("NUMBER").map_err(|_| wrong());
            let place = |word: &str| match number(word)? {
                at @ 0..64 => Ok(at as usize),
                _ => Err(wrong()),
            };
            match (section, word.split_once(':')) {
                (_, None) if SECTIONS.contains(&word) => section = word,
                ("slots", None) if word.len() <= state.slots.len() => {
                    for (slot, letter) in state.slots.iter_mut().zip(word.chars()) {
                        *slot = Phase::from_letter(letter).ok_or_else(wrong)?;
                    }
                }
                ("orphans", None) => match place(word)? {
                    tag if state.slots[tag] == Phase::Waiting => abandoned |= 1 << tag,
                    _ => return Err(wrong()),
                },
                ("queue", None) => state.queue = number(word)?,
                ("holds", Some((d, n))) => state.holds[place(d)?] = number(n)?,
                ("outside", Some((d, n))) => state.outside[place(d)?] = number(n)?,
                ("handles", Some((h, d))) => state.handles[place(h)?] = Some(number(d)?),
                _ => return Err(wrong()),
            }
        }
        state.status = State::status_of(&state.slots, abandoned);
        Ok(state)
    }
}

/// The ten numbers behind the word `status`.
pub(crate) fn status_words(f: &mut Fields) -> Result<StatusWords, String> {
    let mut words = StatusWords::default();
    for (word, count) in &mut words {
        *word = f.u64("WORD")?;
        *count = f.u64("ONES")?;
    }
    Ok(words)
}

/// The word `status` and the ten numbers.
pub(crate) fn print_status(f: &mut Formatter, words: &StatusWords) -> fmt::Result {
    write!(f, "status")?;
    words
        .iter()
        .try_for_each(|(word, ones)| write!(f, " {word} {ones}"))
}

impl Display for State {
    fn fmt(&self, f: &mut Formatter) -> fmt::Result {
        let letters: String = self.slots.iter().map(|phase| phase.letter()).collect();
        write!(f, "state slots {letters} queue {} holds", self.queue)?;
        self.holds.iter().try_for_each(|n| write!(f, " {n}"))?;
        write!(f, " outside")?;
        self.outside.iter().try_for_each(|n| write!(f, " {n}"))?;
        write!(f, " handles")?;
        for handle in &self.handles {
            match handle {
                Some(d) => write!(f, " {d}")?,
                None => write!(f, " -")?,
            }
        }
        write!(f, " ")?;
        print_status(f, &self.status)
    }
}

#[cfg(test)]
mod tests {
    use super::*;

    #[test]
    fn a_state_prints_as_it_reads() {
        let mut state = State::fresh();
        state.slots[0] = Phase::Responded;
        state.slots[1] = Phase::Waiting;
        state.slots[2] = Phase::Placeholder;
        state.slots[3] = Phase::Waiting;
        state.slots[63] = Phase::Fmap;
        state.queue = 128;
        state.holds[3] = 65535;
        state.outside[3] = 2;
        state.handles[63] = Some(3);
        state.status = State::status_of(&state.slots, 1 << 3);
        let text = state.to_string();
        assert!(text.starts_with("state slots rwpwv"));
        assert!(text.contains("vf queue 128 holds 0 0 0 65535 0"));
        assert!(text.ends_with(" - 3 status 4 1 2 1 1 1 9223372036854775808 1 8 1"));
        assert_eq!(State::parse(&text), Ok(state));
    }

    /// The Waiting slots are parted by `abandoned`; no other slot is.
    #[test]
    fn status_words_go_with_the_slots() {
        let mut state = State::fresh();
        for (tag, letter) in "pwwrfvww".chars().enumerate() {
            state.slots[tag] = Phase::from_letter(letter).unwrap();
        }
        let words = |abandoned| State::status_of(&state.slots, abandoned).map(|(word, _)| word);
        assert_eq!(words(0), [1, 0b1100_0110, 8, 16, 0]);
        assert_eq!(words(u64::MAX), [1, 0, 8, 16, 0b1100_0110]);
        assert_eq!(words(0b1011_1011), [1, 0b0100_0100, 8, 16, 0b1000_0010]);

        let mut state = state.clone();
        assert!(!state.has_its_status());
        for abandoned in [0, 0b1011_1011, u64::MAX] {
            state.status = State::status_of(&state.slots, abandoned);
            assert!(state.has_its_status());
        }
        let right = state.status;
        for (of, wrong) in [
            // a bit too many, one too few, an orphan that does not wait, a count of another word
            (1, (2, 1)),
            (4, (0b1000_0110, 3)),
            (4, (0b1100_0111, 5)),
            (4, (0b1100_0110, 1)),
        ] {
            state.status[of] = wrong;
            assert!(!state.has_its_status(), "{wrong:?}");
            state.status = right;
        }
    }

    #[test]
    fn short_states() {
        let wanted = {
            let mut state = State::fresh();
            state.slots[1] = Phase::Waiting;
            state.slots[2] = Phase::Waiting;
            state.status = State::status_of(&state.slots, 1 << 2);
            state.queue = 2;
            state.holds[3] = 4;
            state.outside[3] = 1;
            state.handles[63] = Some(3);
            state
        };
        let text = "slots vww orphans 2 queue 2 holds 3:4 outside 3:1 handles 63:3";
        assert_eq!(State::parse_short(text), Ok(wanted));
        assert_eq!(State::parse_short("queue 0"), Ok(State::fresh()));
        for wrong in [
            "",
            "slots x",
            "3:4",
            "holds 64:1",
            "holds 3",
            "holds 3:x",
            "handles x:3",
            "queue x",
            "slots vw orphans 0",
            "orphans 64",
        ] {
            assert!(State::parse_short(wrong).is_err(), "{wrong}");
        }
    }

    #[test]
    fn mistakes_in_a_state() {
        let text = State::fresh().to_string();
        let what = |text: &str| State::parse(text).unwrap_err();
        assert_eq!(what(&format!("{text} 1")), "spare field `1`");
        assert_eq!(
            what(&text.replace("vvv ", "vv ")),
            "field SLOTS: not 64 letters"
        );
        assert_eq!(
            what(&text.replace("vvv ", "vvx ")),
            "field SLOTS: unknown letter `x`"
        );
        assert_eq!(
            what(&text.replace("queue", "line")),
            "`line` stands where `queue` belongs"
        );
        assert_eq!(
            what(&text.replace("- status", "x status")),
            "field HANDLE63: `x` is no decimal number"
        );
    }
}
