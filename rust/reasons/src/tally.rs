//! How often each reason showed.

use std::collections::BTreeMap;
use std::fmt::{self, Display, Formatter};

use crate::list::Reason;

#[derive(Clone, Debug, Default)]
pub struct Tally(BTreeMap<&'static str, u64>);

impl Tally {
    pub fn add(&mut self, reason: &Reason) {
        *self.0.entry(reason.name).or_default() += 1;
    }

    pub fn add_all(&mut self, other: &Tally) {
        for (name, count) in &other.0 {
            *self.0.entry(name).or_default() += count;
        }
    }

    pub fn of(&self, name: &str) -> u64 {
        self.0.get(name).copied().unwrap_or(0)
    }

    /// A line for each reason of a list, those that never showed among them.
    pub fn lines<'a>(&'a self, list: &'a [Reason]) -> impl Display + 'a {
        Lines { tally: self, list }
    }
}

struct Lines<'a> {
    tally: &'a Tally,
    list: &'a [Reason],
}

impl Display for Lines<'_> {
    fn fmt(&self, f: &mut Formatter) -> fmt::Result {
        for reason in self.list {
            let count = self.tally.of(reason.name);
            writeln!(f, "  {:16} {count:>8}  {}", reason.name, reason.sentence)?;
        }
        Ok(())
    }
}
