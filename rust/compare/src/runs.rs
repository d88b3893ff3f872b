//! Runs from seeds, put to both sides.

use std::panic::{AssertUnwindSafe, catch_unwind};

use generate::Generator;
use reasons::Reason;
use script::{Event, Script};

use crate::beside::{Beside, Taken, difference};
use crate::bytes::Told;
use crate::counts::Counts;
use crate::port::Port;
use crate::shrink::shrink;

/// A script at whose last event the sides differ, made short, and how.
pub struct Difference {
    pub seed: u64,
    pub place: usize,
    pub script: Script,
    pub what: String,
}

/// The run of a seed as far as it went, and how the sides differ there.
struct Stopped {
    events: Vec<Event>,
    what: String,
}

fn one_run<P: Port>(
    seed: u64,
    count: usize,
    fresh: &dyn Fn(u64) -> P,
    reasons: &[Reason],
    counts: &mut Counts,
) -> Result<(), (u64, Stopped)> {
    let mut generator = Generator::new(seed, true);
    let scheme = generator.scheme();
    let mut beside = Beside::new(scheme, fresh(scheme), reasons);
    let (mut events, mut told) = (Vec::new(), Told::default());
    while let Some(event) = generator.event(count) {
        let before = beside.port().layer().clone();
        events.push(event);
        let event = &events[events.len() - 1];
        // the kernel's code, or the shim around it, may panic: a difference like any other
        let taken = catch_unwind(AssertUnwindSafe(|| beside.step(event)))
            .unwrap_or_else(|_| Err("  rust: it panics".to_owned()));
        let taken = match taken {
            Ok(taken) => taken,
            Err(what) => return Err((scheme, Stopped { events, what })),
        };
        counts.add(&before, event, &taken);
        told.add(event, &taken);
        if let Taken::Same(line) | Taken::Cut(_, line) | Taken::Skipped(line) = &taken {
            generator.learn(event, line, beside.state());
        }
        if beside.is_over() {
            break;
        }
    }
    counts.shown.add_all(beside.shown());
    told.check(scheme, &beside.state())
        .map_err(|what| (scheme, Stopped { events, what }))
}

/// Runs a seed's events on both sides, and the same events through `tilgurap_run`. `reasons` says
/// what may differ.
pub fn compare<P: Port>(
    seed: u64,
    count: usize,
    fresh: &dyn Fn(u64) -> P,
    reasons: &[Reason],
    counts: &mut Counts,
) -> Result<(), Box<Difference>> {
    let Err((scheme, stopped)) = one_run(seed, count, fresh, reasons, counts) else {
        return Ok(());
    };
    let place = stopped.events.len();
    eprintln!("seed {seed}, event {place}: they differ; making the script short");
    let whole = Script {
        scheme,
        events: stopped.events,
    };
    let found = |script: &Script| {
        let last = script.events.len().saturating_sub(1);
        catch_unwind(AssertUnwindSafe(|| difference(script, fresh, reasons)))
            .unwrap_or_else(|_| Some((last, "  rust: it panics".to_owned())))
    };
    let script = shrink(whole, &|script| found(script).is_some());
    let what = found(&script).map_or(stopped.what, |(_, what)| what);
    Err(Box::new(Difference {
        seed,
        place,
        script,
        what,
    }))
}
