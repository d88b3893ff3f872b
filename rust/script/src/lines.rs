//! A script's text, line by line: what each line says, and the comment on it.

/// One line of a script's text.
#[derive(Clone, Copy, Debug, PartialEq, Eq)]
pub struct SourceLine<'a> {
    /// Counted from 1.
    pub number: usize,
    /// What the line says, without its comment; empty where it says nothing.
    pub said: &'a str,
    /// The comment, from its `#` on.
    pub comment: Option<&'a str>,
}

const BLANKS: [char; 2] = [' ', '\t'];

/// Where a line's comment begins: at a `#` that begins the line or has a blank before it.
fn comment_at(line: &str) -> Option<usize> {
    let mut signs = line.match_indices('#').map(|(at, _)| at);
    signs.find(|at| *at == 0 || line[..*at].ends_with(BLANKS))
}

impl<'a> SourceLine<'a> {
    fn new(number: usize, line: &'a str) -> SourceLine<'a> {
        let line = line.strip_suffix('\r').unwrap_or(line);
        let (said, comment) = match comment_at(line) {
            Some(at) => (line[..at].trim_end_matches(BLANKS), Some(&line[at..])),
            None if line.trim_matches(BLANKS).is_empty() => ("", None),
            // blanks at its end are a mistake
            None => (line, None),
        };
        SourceLine {
            number,
            said,
            comment,
        }
    }
}

/// The lines of a script's text.
pub fn source_lines(text: &str) -> impl Iterator<Item = SourceLine<'_>> {
    let lines = text.split_terminator('\n').enumerate();
    lines.map(|(before, line)| SourceLine::new(before + 1, line))
}

#[cfg(test)]
mod tests {
    use super::*;

    #[test]
    fn what_a_line_says_and_its_comment() {
        for (line, said, comment) in [
            ("open 1", "open 1", None),
            ("open 1\r", "open 1", None),
            ("open 1\r\r", "open 1\r", None),
            ("open 1 ", "open 1 ", None),
            ("open 1 # why", "open 1", Some("# why")),
            ("open 1 # why\r", "open 1", Some("# why")),
            ("open 1   \t#why # not", "open 1", Some("#why # not")),
            ("open 1#2", "open 1#2", None),
            ("open 1#2 # why", "open 1#2", Some("# why")),
            ("# all", "", Some("# all")),
            ("  # all", "", Some("# all")),
            ("#", "", Some("#")),
            ("", "", None),
            (" \t ", "", None),
            ("\r", "", None),
        ] {
            let found = SourceLine::new(3, line);
            assert_eq!((found.said, found.comment), (said, comment), "{line:?}");
            assert_eq!(found.number, 3);
        }
    }
}
