//! Why the layer and the Rust do not say the same of an event: one list, for the comparison, which
//! asks both, and for the recorder, which asks the Rust alone.
//!
//! A new reason is an entry of [`ALL`], a row of docs/DIFFERENCES.md and a script in
//! tests/differences. Where the layer alone refuses something, [`Table`] has its number, too.

mod expected;
mod list;
mod step;
mod table;
mod tally;

pub use expected::{Expected, Said};
pub use list::{ALL, Kind, Reason, differs, ends, left_out};
pub use step::{EFFECT_WORDS, ENTRY, Step, cut, joined, steps};
pub use table::Table;
pub use tally::Tally;
