//! The lines that a run prints, one for each event and one for the state it leaves.

use std::fmt::{self, Display, Formatter};

use crate::fields::{Fields, hex};
use crate::state::{State, StatusWords, print_status, status_words};

/// A reply handed over by a wake.
#[derive(Clone, Debug, PartialEq, Eq)]
pub enum Reply {
    /// A success word or an errno, extra0, and whether it was a kind 5 entry.
    Regular {
        result: Result<u64, u64>,
        extra0: u8,
        notice: bool,
    },
    Fd(u64),
    Many(Vec<u64>),
}

#[derive(Clone, Debug, PartialEq, Eq)]
pub enum Answer {
    Ok(u64),
    No(u64),
    Wait,
    Blocked,
    Reply(Reply),
    /// To the line `status`.
    Status(StatusWords),
    Skip,
}

#[derive(Clone, Copy, Debug, PartialEq, Eq)]
pub struct Effect {
    pub kind: u64,
    pub a: u64,
    pub b: u64,
}

/// What one event answered, caused and stored.
#[derive(Clone, Debug, PartialEq, Eq)]
pub struct Line {
    pub answer: Answer,
    pub effects: Vec<Effect>,
    pub bytes: Vec<u8>,
}

#[derive(Clone, Debug, PartialEq, Eq)]
pub enum OutputLine {
    Event(Line),
    State(Box<State>),
}

impl Display for Reply {
    fn fmt(&self, f: &mut Formatter) -> fmt::Result {
        match self {
            Reply::Regular {
                result,
                extra0,
                notice,
            } => {
                let (word, value) = match result {
                    Ok(value) => ("ok", value),
                    Err(errno) => ("err", errno),
                };
                write!(f, "regular {word} {value} {extra0} {}", u8::from(*notice))
            }
            Reply::Fd(d) => write!(f, "fd {d}"),
            Reply::Many(list) => {
                write!(f, "many {}", list.len())?;
                list.iter().try_for_each(|d| write!(f, " {d}"))
            }
        }
    }
}

impl Display for Answer {
    fn fmt(&self, f: &mut Formatter) -> fmt::Result {
        match self {
            Answer::Ok(n) => write!(f, "ok {n}"),
            Answer::No(n) => write!(f, "no {n}"),
            Answer::Wait => write!(f, "wait"),
            Answer::Blocked => write!(f, "blocked"),
            Answer::Reply(reply) => write!(f, "reply {reply}"),
            Answer::Status(words) => print_status(f, words),
            Answer::Skip => write!(f, "skip"),
        }
    }
}

impl Display for Line {
    fn fmt(&self, f: &mut Formatter) -> fmt::Result {
        write!(f, "{}", self.answer)?;
        for e in &self.effects {
            write!(f, " ; E {} {} {}", e.kind, e.a, e.b)?;
        }
        if !self.bytes.is_empty() {
            write!(f, " ; B {}", hex(&self.bytes))?;
        }
        Ok(())
    }
}

impl Display for OutputLine {
    fn fmt(&self, f: &mut Formatter) -> fmt::Result {
        match self {
            OutputLine::Event(line) => write!(f, "{line}"),
            OutputLine::State(state) => write!(f, "{state}"),
        }
    }
}

impl Reply {
    /// How many descriptions a wake hands over at most.
    pub(crate) const MOST: usize = 16;

    /// A reply from the fields that it prints.
    pub(crate) fn parse(f: &mut Fields) -> Result<Reply, String> {
        Ok(match f.word("REPLY")? {
            "regular" => Reply::Regular {
                result: match f.word("RESULT")? {
                    "ok" => Ok(f.u64("V")?),
                    "err" => Err(f.u64("E")?),
                    other => return Err(format!("unknown result `{other}`")),
                },
                extra0: f.u8("X")?,
                notice: match f.u64("N")? {
                    0 => false,
                    1 => true,
                    other => return Err(format!("field N: {other} is not 0 or 1")),
                },
            },
            "fd" => Reply::Fd(f.u64("D")?),
            "many" => Reply::Many(f.list("K", "D")?),
            other => return Err(format!("unknown reply `{other}`")),
        })
    }
}

impl Answer {
    fn parse(text: &str) -> Result<Answer, String> {
        let f = &mut Fields::new(text);
        let answer = match f.word("ANSWER")? {
            "ok" => Answer::Ok(f.u64("N")?),
            "no" => Answer::No(f.u64("N")?),
            "wait" => Answer::Wait,
            "blocked" => Answer::Blocked,
            "skip" => Answer::Skip,
            "reply" => Answer::Reply(Reply::parse(f)?),
            "status" => Answer::Status(status_words(f)?),
            other => return Err(format!("unknown answer `{other}`")),
        };
        f.end()?;
        Ok(answer)
    }
}

impl Line {
    pub fn answer(answer: Answer) -> Line {
        Line {
            answer,
            effects: Vec::new(),
            bytes: Vec::new(),
        }
    }

    pub fn parse(text: &str) -> Result<Line, String> {
        let mut parts = text.split(" ; ");
        let mut line = Line::answer(Answer::parse(parts.next().unwrap_or(""))?);
        let mut stored = false;
        for part in parts {
            let f = &mut Fields::new(part);
            match f.word("PART")? {
                "E" if !stored => line.effects.push(Effect {
                    kind: f.u64("K")?,
                    a: f.u64("A")?,
                    b: f.u64("B")?,
                }),
                "B" if !stored => {
                    stored = true;
                    line.bytes = f.hex("HEX")?;
                    if line.bytes.is_empty() {
                        return Err("a part B with no bytes".to_owned());
                    }
                }
                other => return Err(format!("part `{other}` doesn't belong there")),
            }
            f.end()?;
        }
        Ok(line)
    }
}

impl OutputLine {
    pub fn parse(text: &str) -> Result<OutputLine, String> {
        if text.starts_with("state ") {
            Ok(OutputLine::State(Box::new(State::parse(text)?)))
        } else {
            Ok(OutputLine::Event(Line::parse(text)?))
        }
    }
}

#[cfg(test)]
mod tests {
    use super::*;

    #[test]
    fn lines_print_as_they_read() {
        for text in [
            "ok 18446744073709551615",
            "no 205",
            "wait",
            "blocked ; E 5 7 1",
            "skip",
            "reply regular ok 7 255 0",
            "reply regular err 4 0 1",
            "reply fd 63",
            "reply many 0",
            "reply many 3 1 2 1",
            "status 4 1 2 1 1 1 9223372036854775808 1 24 2",
            "ok 16 ; E 1 100 0 ; E 2 5 1 ; E 3 7 0",
            "ok 3 ; B 00ff10",
            "ok 3 ; E 1 2 3 ; B 00ff10",
        ] {
            assert_eq!(OutputLine::parse(text).unwrap().to_string(), text);
        }
    }

    #[test]
    fn mistakes_in_lines() {
        for (text, what) in [
            (
                "",
                "field ANSWER is empty: one space parts the fields, and none stands around them",
            ),
            ("ok", "field N is missing"),
            ("ok 1 2", "spare field `2`"),
            ("ok 1 ;", "spare field `;`"),
            ("ok 1 ; E 1 2", "field B is missing"),
            ("ok 1 ; B -", "a part B with no bytes"),
            ("ok 1 ; B 00 ; E 1 2 3", "part `E` doesn't belong there"),
            ("reply fd", "field D is missing"),
            ("reply none", "unknown reply `none`"),
            (
                "reply regular ok 1 256 0",
                "field X: 256 is over 255, the most that 8 bits hold",
            ),
            ("reply regular ok 1 2 2", "field N: 2 is not 0 or 1"),
            ("reply regular may 1 2 2", "unknown result `may`"),
            ("status 1 1 2 1 4 1 8 1", "field WORD is missing"),
            ("status 1 1 2 1 4 1 8 1 16", "field ONES is missing"),
            ("status 1 1 2 1 4 1 8 1 16 1 0", "spare field `0`"),
        ] {
            assert_eq!(Line::parse(text).unwrap_err(), what);
        }
    }
}
