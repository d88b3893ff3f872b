//! The machine that the sources run on: which context runs, what was caused, and what happens
//! when whoever runs gives way.

use std::cell::{Cell, RefCell};
use std::mem;
use std::panic::resume_unwind;
use std::sync::Arc;
use std::time::{Duration, Instant};

use script::Effect;

use crate::context::ContextLock;
use crate::count::{self, Side};
use crate::threads;

/// What the host's thread does when it gives way. A caller's thread hands over to the host's.
#[derive(Default)]
pub enum OnSwitch {
    #[default]
    Nobody,
    /// It would wait: that is noted, and it goes on at once, as though a signal had come.
    Wait,
    /// This comes between.
    Then(Box<dyn FnOnce()>),
    /// It is not to go on.
    Leave,
}

/// The payload of a panic that takes a thread out of a call for good.
pub struct Left;

pub struct Machine {
    current: RefCell<Arc<ContextLock>>,
    effects: RefCell<Vec<Effect>>,
    on_switch: RefCell<OnSwitch>,
    waited: Cell<bool>,
    /// The spans that killed callers left behind: call, base page, count.
    left: RefCell<Vec<(u64, u64, u64)>>,
    /// The call whose span is made next.
    next_span: Cell<u64>,
    /// The time spent in the kernel's code, if it is taken, and since when it runs.
    spent: Cell<Option<Duration>>,
    since: Cell<Option<Instant>>,
}

// SAFETY: one thread runs at a time, and handing over orders what they do.
unsafe impl Send for Machine {}
unsafe impl Sync for Machine {}

thread_local! {
    /// The machine that this thread is part of.
    static HERE: RefCell<Option<Arc<Machine>>> = const { RefCell::new(None) };
}

/// This thread is part of the machine until this goes.
pub struct Inside(Option<Arc<Machine>>);

impl Drop for Inside {
    fn drop(&mut self) {
        HERE.set(self.0.take());
    }
}

fn here<T>(look: impl FnOnce(&Machine) -> T) -> T {
    HERE.with_borrow(|here| look(here.as_ref().expect("this thread is part of a machine")))
}

impl Machine {
    pub fn new(first: Arc<ContextLock>) -> Machine {
        Machine {
            current: RefCell::new(first),
            effects: RefCell::new(Vec::with_capacity(64)),
            on_switch: RefCell::default(),
            waited: Cell::new(false),
            left: RefCell::default(),
            next_span: Cell::new(0),
            spent: Cell::new(None),
            since: Cell::new(None),
        }
    }

    pub fn enter(self: &Arc<Machine>) -> Inside {
        Inside(HERE.replace(Some(self.clone())))
    }

    /// Runs something as that context.
    pub fn run_as<T>(&self, context: &Arc<ContextLock>, what: impl FnOnce() -> T) -> T {
        let before = self.current.replace(context.clone());
        let done = what();
        self.current.replace(before);
        done
    }

    /// Runs something on the host's thread that may give way once.
    pub fn run_until<T>(&self, switch: OnSwitch, what: impl FnOnce() -> T) -> T {
        self.on_switch.replace(switch);
        let done = what();
        self.on_switch.replace(OnSwitch::Nobody);
        done
    }

    /// What the host's thread does when it gives way once more.
    pub fn next_switch(&self, switch: OnSwitch) {
        self.on_switch.replace(switch);
    }

    /// Runs the kernel's code, by the clock.
    pub fn kernel<T>(&self, what: impl FnOnce() -> T) -> T {
        self.start();
        let done = what();
        self.stop();
        done
    }

    fn start(&self) {
        self.since.set(self.spent.get().map(|_| Instant::now()));
        if self.since.get().is_some() {
            count::on(Side::Rust);
        }
    }

    fn stop(&self) {
        if let Some(since) = self.since.take() {
            count::off(Side::Rust);
            let spent = self.spent.get().unwrap_or_default();
            self.spent.set(Some(spent + since.elapsed()));
        }
    }

    /// Takes the time from now on, or no longer; the time taken until now.
    pub fn clock(&self, on: bool) -> Duration {
        let spent = self.spent.replace(on.then_some(Duration::ZERO));
        count::next_part();
        spent.unwrap_or_default()
    }

    /// Did it wait since this was asked last?
    pub fn waited(&self) -> bool {
        self.waited.take()
    }

    /// The effects since this was asked last. Their room stays, so that the kernel's code is not charged for memory.
    pub fn effects(&self) -> Vec<Effect> {
        self.effects.borrow_mut().drain(..).collect()
    }

    /// The next span that is made empty is that call's; 0 is none's.
    pub fn next_span(&self, call: u64) {
        self.next_span.set(call);
    }

    /// A killed caller leaves its call's span to whoever replies.
    pub fn leave(&self, call: u64, base: u64, count: u64) {
        if count != 0 {
            self.left.borrow_mut().push((call, base, count));
        }
    }
}

pub fn current() -> Arc<ContextLock> {
    here(|machine| machine.current.borrow().clone())
}

pub fn cause(kind: u64, a: u64, b: u64) {
    here(|machine| machine.effects.borrow_mut().push(Effect { kind, a, b }));
}

/// The call whose span this is, which is made now.
pub fn made_span() -> u64 {
    here(|machine| machine.next_span.take())
}

/// The base page and count of the span that was left in that call.
pub fn left(call: u64) -> (u64, u64) {
    here(|machine| {
        let left = machine.left.borrow();
        let span = left.iter().find(|span| span.0 == call);
        span.map_or((0, 0), |(_, base, count)| (*base, *count))
    })
}

/// The span was unmapped and is nobody's.
pub fn forget(call: u64) {
    here(|machine| machine.left.borrow_mut().retain(|span| span.0 != call));
}

/// Whoever runs gives way to whoever runs next.
pub fn give_way() {
    here(Machine::stop);
    if !threads::hand_over() {
        go_on();
    }
    here(Machine::start);
}

/// What the host's thread does instead of handing over.
fn go_on() {
    match here(|machine| mem::take(&mut *machine.on_switch.borrow_mut())) {
        OnSwitch::Nobody => panic!("there is nobody to give way to"),
        OnSwitch::Wait => here(|machine| machine.waited.set(true)),
        OnSwitch::Then(what) => what(),
        OnSwitch::Leave => resume_unwind(Box::new(Left)),
    }
}
