//! The event script: the events of a run, the lines that a run prints, and the text of both.
//! Nothing in a text is guessed: what does not parse is a mistake that names its line.
//! Beside it the way in which the tools that run scripts print.

mod event;
mod fields;
mod format;
mod lines;
mod output;
mod printed;
mod script;
mod state;

pub use event::{Event, FdCall, Form, Payload, Value};
pub use fields::hex;
pub use format::NoPlace;
pub use lines::{SourceLine, source_lines};
pub use output::{Answer, Effect, Line, OutputLine, Reply};
pub use printed::{print_all, print_error, print_or_end};
pub use script::{Mistake, Script};
pub use state::{Phase, State, StatusWords};
