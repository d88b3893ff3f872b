//! Both sides, event by event. The reasons say where the Rust is not asked and where it says
//! something else than the layer.

use oracle::Oracle;
use reasons::{Expected, Reason, Said, Table, Tally};
use script::{Answer, Event, Line, Script, State};

use crate::bytes::Told;
use crate::port::Port;

/// An event as both sides took it.
pub enum Taken {
    /// Both took it: the port's line.
    Same(Line),
    /// The Rust was given the write's entries before one that only the port refuses: these, and the
    /// port's line.
    Cut(Event, Line),
    /// Only the port refuses it: its line.
    Skipped(Line),
    /// A known difference that would last: the event was put to copies alone.
    Known,
}

pub struct Beside<'r, P> {
    reasons: &'r [Reason],
    scheme: u64,
    kernel: Oracle,
    port: P,
    table: Table,
    /// What the kernel was given and took.
    given: Vec<Event>,
    /// The reasons that showed and were confirmed.
    shown: Tally,
    over: bool,
}

impl<'r, P: Port> Beside<'r, P> {
    pub fn new(scheme: u64, port: P, reasons: &'r [Reason]) -> Self {
        Beside {
            reasons,
            scheme,
            kernel: Oracle::new(scheme),
            port,
            table: Table::new(),
            given: Vec::new(),
            shown: Tally::default(),
            over: false,
        }
    }

    pub fn port(&self) -> &P {
        &self.port
    }

    /// The state, which both have.
    pub fn state(&self) -> State {
        self.port.state()
    }

    /// Can the kernel's side not follow any longer?
    pub fn is_over(&self) -> bool {
        self.over
    }

    pub fn shown(&self) -> &Tally {
        &self.shown
    }

    /// Puts an event to both; the message says how they differ.
    pub fn step(&mut self, event: &Event) -> Result<Taken, String> {
        let mut ahead = self.port.clone();
        let steps = reasons::steps(event, self.port.state(), |event| {
            Ok::<_, String>((ahead.step(event)?, ahead.state()))
        })?;
        let expected = Expected::new(self.reasons, &self.table, event, &steps)?;
        let taken = if expected.lasts() {
            self.confirm_on_copies(&expected, event)?;
            Taken::Known
        } else {
            self.take(&expected, event)?
        };
        if let Some(reason) = reasons::ends(self.reasons, &self.state()) {
            self.over = true;
            self.shown.add(reason);
        }
        let shown = expected.shown.iter();
        shown.for_each(|reason| self.shown.add(reason));
        Ok(taken)
    }

    fn take(&mut self, expected: &Expected, event: &Event) -> Result<Taken, String> {
        let before = self.port.layer().clone();
        let rust = match &expected.given {
            Some(given) => self.kernel.step(given),
            None => Line::answer(Answer::Skip),
        };
        let port = self.port.step(event)?;
        expected.confirm(
            &said(port.clone(), self.port.state()),
            &said(rust, self.kernel.state()),
        )?;
        if expected.is_left_out() {
            // what the state does not show has to stay as well
            if *self.port.layer() != before {
                return Err(format!("  port: {port}, and its state is another"));
            }
            return Ok(Taken::Skipped(port));
        }
        self.table.learn(event, &port);
        let given = expected.given.as_ref().unwrap_or(event);
        self.given.push(given.clone());
        Ok(match given == event {
            true => Taken::Same(port),
            false => Taken::Cut(given.clone(), port),
        })
    }

    /// On sides of their own, since the difference would stay.
    fn confirm_on_copies(&self, expected: &Expected, event: &Event) -> Result<(), String> {
        let (mut kernel, mut port) = (Oracle::new(self.scheme), self.port.clone());
        for event in &self.given {
            kernel.step(event);
        }
        let given = expected.given.as_ref().unwrap_or(event);
        let port_line = port.step(given)?;
        let rust = kernel.step(given);
        expected.confirm(&said(port_line, port.state()), &said(rust, kernel.state()))
    }
}

fn said(line: Line, state: State) -> Said {
    Said { line, state }
}

/// The first difference in a script that no reason explains: the place of its event, and how they
/// differ there.
pub fn difference<P: Port>(
    script: &Script,
    fresh: &dyn Fn(u64) -> P,
    reasons: &[Reason],
) -> Option<(usize, String)> {
    let mut beside = Beside::new(script.scheme, fresh(script.scheme), reasons);
    let mut told = Told::default();
    for (place, event) in script.events.iter().enumerate() {
        match beside.step(event) {
            Ok(taken) => told.add(event, &taken),
            Err(what) => return Some((place, what)),
        }
        if beside.is_over() {
            break;
        }
    }
    let last = script.events.len().saturating_sub(1);
    told.check(script.scheme, &beside.state())
        .err()
        .map(|what| (last, what))
}
