//! A whole script: the scheme number, then one event to a line.

use std::fmt::{self, Display, Formatter};

use crate::event::Event;
use crate::fields::Fields;
use crate::lines::source_lines;

#[derive(Clone, Debug, PartialEq, Eq)]
pub struct Script {
    pub scheme: u64,
    pub events: Vec<Event>,
}

/// What is wrong with a script, and in which line, counted from 1.
#[derive(Clone, Debug, PartialEq, Eq)]
pub struct Mistake {
    pub line: usize,
    pub what: String,
}

impl Display for Mistake {
    fn fmt(&self, f: &mut Formatter) -> fmt::Result {
        write!(f, "line {}: {}", self.line, self.what)
    }
}

impl std::error::Error for Mistake {}

fn scheme(line: &str) -> Result<u64, String> {
    let f = &mut Fields::new(line);
    if f.word("EVENT")? != "scheme" {
        return Err("the script has to begin with `scheme N`".to_owned());
    }
    let number = f.u64("N")?;
    f.end()?;
    Ok(number)
}

impl Script {
    pub fn parse(text: &str) -> Result<Script, Mistake> {
        let mut number = None;
        let mut events = Vec::new();
        let mut last = 1;
        if text.starts_with('\u{feff}') {
            return Err(Mistake {
                line: 1,
                what: "the script begins with a byte order mark: store it without".to_owned(),
            });
        }
        for line in source_lines(text) {
            last = line.number;
            if line.said.is_empty() {
                continue;
            }
            let mistake = |what| Mistake {
                line: line.number,
                what,
            };
            match number {
                None => number = Some(scheme(line.said).map_err(mistake)?),
                Some(_) => events.push(Event::parse(line.said).map_err(mistake)?),
            }
        }
        match number {
            Some(scheme) => Ok(Script { scheme, events }),
            None => Err(Mistake {
                line: last,
                what: "`scheme N` is missing".to_owned(),
            }),
        }
    }

    /// As `parse`, of bytes that may not be text.
    pub fn parse_bytes(bytes: &[u8]) -> Result<Script, Mistake> {
        match std::str::from_utf8(bytes) {
            Ok(text) => Script::parse(text),
            Err(error) => {
                let good = &bytes[..error.valid_up_to()];
                Err(Mistake {
                    line: 1 + good.iter().filter(|b| **b == b'\n').count(),
                    what: "a byte that is no text".to_owned(),
                })
            }
        }
    }
}

impl Display for Script {
    fn fmt(&self, f: &mut Formatter) -> fmt::Result {
        writeln!(f, "scheme {}", self.scheme)?;
        self.events
            .iter()
            .try_for_each(|event| writeln!(f, "{event}"))
    }
}

#[cfg(test)]
mod tests {
    use super::*;

    const EACH: &str = "scheme 18446744073709551615
open 0
copy 63
drop 64
put 1 2
ended 4294967295
reserve 0
submit 0 1 3 255 1 2 3 4 5 6 7 2 0 1
submit 0 1 34 0 1 2 3 4 5 6 7 0
call 1 6 1 2 3 4 5 6 7 8 9 0
call 1 6 1 2 3 4 5 6 7 8 9 3 1 1 2
generic 1 2 2 3 4 4096 5 3 6 7 8
stdfs 1 2 0 4096 5 0
fmap 1 2 3 4 5 6 7
close 18446744073709551615
detach 1 2
wake 0 1 1 2 3
read 64 262144
write 54 00ff10
write 0 -
move 2 1 0 2 5 6
move 0 0
obtain 2 0 0
supply 0 0 4096 1
fdwrite 1 2 18446744073709551615 2 3 4 5 6 7 2 0 1
fdwrite 1 2 0 0 5 6 7 0
fdread 1 2 16 16384 2 3 4 5 6 7
fdread 1 2 0 0 0 5 6 7
front fdwrite regular ok 9 0 0
front fdread regular err 5 255 1
front fdread fd 3
front fdwrite many 0
front fdread many 16 0 1 2 3 4 5 6 7 8 9 10 11 12 13 14 15
status
";

    fn mistake(text: &str) -> String {
        Script::parse(text).unwrap_err().to_string()
    }

    #[test]
    fn each_event_prints_as_it_reads() {
        let script = Script::parse(EACH).unwrap();
        assert_eq!(script.to_string(), EACH);
        assert_eq!(script.events.len(), 33);
    }

    #[test]
    fn comments_blank_lines_carriage_returns_and_a_missing_last_newline() {
        for text in [
            "# first\nscheme 7\n# more\nopen 1\n#",
            "\n\nscheme 7\n\n  \t\nopen 1\n\n",
            "# first\r\nscheme 7\r\n\r\nopen 1\r\n",
            "scheme 7 # the dosing line's\nopen 1   # its valve # once\n  # indented\n",
            "scheme 7 # one\r\nopen 1 #\r",
        ] {
            let script = Script::parse(text).unwrap();
            assert_eq!(script.to_string(), "scheme 7\nopen 1\n", "{text:?}");
        }
    }

    #[test]
    fn mistakes_name_their_line() {
        assert_eq!(mistake(""), "line 1: `scheme N` is missing");
        assert_eq!(mistake("# a\n# b"), "line 2: `scheme N` is missing");
        assert_eq!(
            mistake("open 1\n"),
            "line 1: the script has to begin with `scheme N`"
        );
        assert_eq!(mistake("scheme"), "line 1: field N is missing");
        assert_eq!(mistake("scheme 1 2"), "line 1: spare field `2`");
        assert_eq!(
            mistake("scheme 1\nscheme 2"),
            "line 2: unknown event `scheme`"
        );
        assert_eq!(
            mistake("scheme 1\nopen 1\nshut 1"),
            "line 3: unknown event `shut`"
        );
        assert_eq!(
            mistake("scheme 1\n\n# x\r\n open 1"),
            "line 4: field EVENT is empty: one space parts the fields, and none stands around them"
        );
        assert_eq!(mistake("scheme 1\nopen # 1"), "line 2: field D is missing");
        assert_eq!(
            mistake("scheme 1\nopen 1#"),
            "line 2: field D: `1#` is no decimal number"
        );
        assert_eq!(mistake("scheme 1\nput 1"), "line 2: field H is missing");
        assert_eq!(mistake("scheme 1\nopen 1 2"), "line 2: spare field `2`");
        assert_eq!(
            mistake("scheme 1\nopen 1 "),
            "line 2: a space at the end: one space parts the fields, and none stands around them"
        );
        assert_eq!(
            mistake("\u{feff}scheme 1\n"),
            "line 1: the script begins with a byte order mark: store it without"
        );
        assert_eq!(
            mistake("scheme 1\nopen  1"),
            "line 2: field D is empty: one space parts the fields, and none stands around them"
        );
        assert_eq!(
            mistake("scheme 1\nopen -1"),
            "line 2: field D: `-1` is no decimal number"
        );
        assert_eq!(
            mistake("scheme 1\nopen 0x1"),
            "line 2: field D: `0x1` is no decimal number"
        );
        assert_eq!(
            mistake("scheme 1\nopen 1\r\r\n"),
            "line 2: field D: `1\r` is no decimal number"
        );
        assert_eq!(
            mistake("scheme 1\n# x\nobtain 2 0"),
            "line 3: field M2 is missing"
        );
        assert_eq!(
            mistake("scheme 1\nobtain 18446744073709551615 0"),
            "line 2: field M2 is missing"
        );
    }

    #[test]
    fn mistakes_in_descriptors_fronts_and_status() {
        for (line, what) in [
            ("fdwrite 1 2 3", "field NM is missing"),
            ("fdwrite 1 2 3 2 4", "field M2 is missing"),
            ("fdwrite 1 2 3 0 5 6 7", "field L is missing"),
            ("fdwrite 1 2 3 0 5 6 7 2 0", "field D2 is missing"),
            ("fdwrite 1 2 3 0 5 6 7 1 0 1", "spare field `1`"),
            ("fdread 1 2", "field LENGTH is missing"),
            ("fdread 1 2 8 0 0 5 6", "field PID is missing"),
            ("fdread 1 2 8 0 0 5 6 7 0", "spare field `0`"),
            ("front", "field FORM is missing"),
            (
                "front read fd 1",
                "field FORM: `read` is not `fdwrite` or `fdread`",
            ),
            ("front fdread", "field REPLY is missing"),
            ("front fdread reply fd 1", "unknown reply `reply`"),
            ("front fdread fd", "field D is missing"),
            ("front fdread fd 1 2", "spare field `2`"),
            ("front fdread many 2 3", "field D2 is missing"),
            ("front fdread many 1 2 3", "spare field `3`"),
            (
                "front fdread many 17 0 1 2 3 4 5 6 7 8 9 10 11 12 13 14 15 16",
                "field K: 17 is over 16, the most that a reply hands over",
            ),
            ("front fdwrite regular", "field RESULT is missing"),
            ("front fdwrite regular no 1 0 0", "unknown result `no`"),
            ("front fdwrite regular ok 1 0", "field N is missing"),
            ("front fdwrite regular ok 1 0 2", "field N: 2 is not 0 or 1"),
            ("status 1", "spare field `1`"),
        ] {
            assert_eq!(
                mistake(&format!("scheme 1\n{line}")),
                format!("line 2: {what}")
            );
        }
    }

    #[test]
    fn numbers_too_wide() {
        assert_eq!(
            mistake("scheme 18446744073709551616"),
            "line 1: field N: 18446744073709551616 is over 18446744073709551615, the most that 64 bits hold"
        );
        assert_eq!(
            mistake("scheme 1\nended 4294967296"),
            "line 2: field C: 4294967296 is over 4294967295, the most that 32 bits hold"
        );
        assert_eq!(
            mistake("scheme 1\nread 1 4294967296"),
            "line 2: field FLAGS: 4294967296 is over 4294967295, the most that 32 bits hold"
        );
        assert_eq!(
            mistake("scheme 1\nsubmit 0 1 3 256 1 2 3 4 5 6 7 0"),
            "line 2: field FL: 256 is over 255, the most that 8 bits hold"
        );
        assert_eq!(
            mistake("scheme 1\ncall 1 6 1 2 3 4 5 6 4294967296 8 9 0"),
            "line 2: field UID: 4294967296 is over 4294967295, the most that 32 bits hold"
        );
        for line in [
            "fdwrite 4294967296 2 3 0 5 6 7 0",
            "fdread 4294967296 2 8 0 0 5 6 7",
        ] {
            assert_eq!(
                mistake(&format!("scheme 1\n{line}")),
                "line 2: field C: 4294967296 is over 4294967295, the most that 32 bits hold"
            );
        }
        for line in [
            "fdwrite 1 2 3 0 5 4294967296 7 0",
            "fdread 1 2 8 0 0 5 4294967296 7",
        ] {
            assert_eq!(
                mistake(&format!("scheme 1\n{line}")),
                "line 2: field GID: 4294967296 is over 4294967295, the most that 32 bits hold"
            );
        }
        assert_eq!(
            mistake("scheme 1\nfdread 1 2 8 18446744073709551616 0 5 6 7"),
            "line 2: field FLAGS: 18446744073709551616 is over 18446744073709551615, the most that 64 bits hold"
        );
        assert_eq!(
            mistake("scheme 1\nfront fdwrite regular ok 1 256 0"),
            "line 2: field X: 256 is over 255, the most that 8 bits hold"
        );
    }

    #[test]
    fn bad_hex() {
        assert_eq!(
            mistake("scheme 1\nwrite 0 0"),
            "line 2: field HEX: an odd number of hex digits"
        );
        assert_eq!(
            mistake("scheme 1\nwrite 0 0A"),
            "line 2: field HEX: `A` is no lowercase hex digit"
        );
        assert_eq!(
            mistake("scheme 1\nwrite 0 é0"),
            "line 2: field HEX: `é` is no lowercase hex digit"
        );
        assert_eq!(
            mistake("scheme 1\nwrite 0 "),
            "line 2: field HEX: no hex digits; `-` stands for no bytes"
        );
        assert_eq!(
            Script::parse_bytes(b"scheme 1\nopen 1\nopen \xff\n")
                .unwrap_err()
                .to_string(),
            "line 3: a byte that is no text"
        );
    }
}
