//! What the Rust is expected to say of an event, from what the layer did with it and the reasons
//! that show in it.

use std::fmt::{self, Display, Formatter};

use script::{Answer, Event, Line, State};

use crate::list::{Reason, differs, left_out};
use crate::step::{Step, cut, joined};
use crate::table::Table;

/// A side's line, and the state that it leaves.
#[derive(Clone, Debug, PartialEq, Eq)]
pub struct Said {
    pub line: Line,
    pub state: State,
}

pub struct Expected<'r> {
    /// What the Rust is given: nothing, the event, or a write's first entries.
    pub given: Option<Event>,
    /// What the layer says of the event; of what the Rust is given, where the difference lasts.
    pub layer: Said,
    pub rust: Said,
    pub shown: Vec<&'r Reason>,
}

/// The reasons' names, for a message.
struct Names<'a>(&'a [&'a Reason]);

impl Display for Names<'_> {
    fn fmt(&self, f: &mut Formatter) -> fmt::Result {
        let names: Vec<&str> = self.0.iter().map(|reason| reason.name).collect();
        write!(f, "{}", names.join(", "))
    }
}

impl<'r> Expected<'r> {
    /// From the layer's steps of an event. The message says where the layer is not as 01's table,
    /// or where a reason is missing.
    pub fn new(
        list: &'r [Reason],
        table: &Table,
        event: &Event,
        steps: &[Step],
    ) -> Result<Expected<'r>, String> {
        let mut shown = Vec::new();
        let (mut layer, mut rust) = (Vec::new(), Vec::new());
        let mut given = Some(event.clone());
        let mut states = (steps[0].before.clone(), steps[0].before.clone());
        for (place, step) in steps.iter().enumerate() {
            layer.push(step.line.clone());
            if let Some((number, reason)) = left_out(list, table, step)? {
                unchanged(step, number)?;
                shown.push(reason);
                given = match place {
                    0 => reason.rust_skips().then(|| event.clone()),
                    _ => Some(cut(event, place)),
                };
                break;
            }
            let difference = differs(list, step);
            let (line, state) = match difference {
                Some(reason) => reason.rust(step),
                None => (step.line.clone(), step.after.clone()),
            };
            if line != step.line || state != step.after {
                shown.extend(difference);
            }
            rust.push(line);
            let lasts = state != step.after;
            states = (step.after.clone(), state);
            if lasts {
                given = Some(cut(event, place + 1));
                break;
            }
        }
        if rust.is_empty() {
            rust.push(Line::answer(Answer::Skip));
        }
        let said = |lines: &[Line], state| Said {
            line: joined(event, lines),
            state,
        };
        Ok(Expected {
            given,
            layer: said(&layer, states.0),
            rust: said(&rust, states.1),
            shown,
        })
    }

    /// Do the states stay apart? Then the run cannot go on with this event.
    pub fn lasts(&self) -> bool {
        self.layer.state != self.rust.state
    }

    /// Is the event the layer's alone?
    pub fn is_left_out(&self) -> bool {
        self.rust.line.answer == Answer::Skip
    }

    /// Is what both sides did what was expected of them? The message says what is not.
    pub fn confirm(&self, layer: &Said, rust: &Said) -> Result<(), String> {
        if *layer == self.layer && *rust == self.rust {
            return Ok(());
        }
        let mut what = String::new();
        if layer.line != self.layer.line || rust.line != self.rust.line {
            what += &format!("  rust: {}\n  port: {}", rust.line, layer.line);
        } else {
            what += &format!("  rust: {}\n  port: {}", rust.state, layer.state);
        }
        if layer.line != self.layer.line {
            what += &format!("\n  port, entry by entry: {}", self.layer.line);
        }
        if !self.shown.is_empty() {
            let shown = Names(&self.shown);
            what += &format!(
                "\n  not what the reason predicts ({shown}) of the rust: {}\n  {}",
                self.rust.line, self.rust.state
            );
        }
        Err(what)
    }
}

/// What only the layer refuses has 01's number, makes no effect and changes nothing.
fn unchanged(step: &Step, number: u64) -> Result<(), String> {
    let refused = Line::answer(Answer::No(number));
    if step.line != refused {
        return Err(format!("  port: {}\n  01: no {number}", step.line));
    }
    if step.after != step.before {
        return Err(format!("  port: {refused}, and its state is another"));
    }
    Ok(())
}
