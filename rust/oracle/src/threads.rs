//! Callers' threads. A thread is handed over to and hands back; one of all runs at a time. One
//! that is done is kept for the next caller.

use std::cell::RefCell;
use std::panic::{AssertUnwindSafe, catch_unwind, resume_unwind};
use std::sync::atomic::{AtomicBool, Ordering};
use std::sync::{Arc, Mutex, MutexGuard, PoisonError};
use std::thread::{self, Thread};
use std::time::{Duration, Instant};

use crate::machine::Left;

type Job = Box<dyn FnOnce() + Send>;

const STACK: usize = 256 * 1024;

/// As many idle threads as are kept.
const KEPT: usize = 256;

static IDLE: Mutex<Vec<Worker>> = Mutex::new(Vec::new());

thread_local! {
    /// This thread's place, if it is a caller's.
    static PLACE: RefCell<Option<Arc<Place>>> = const { RefCell::new(None) };
}

/// What the host and a caller's thread hand over.
#[derive(Default)]
struct Desk {
    host: Option<Thread>,
    job: Option<Job>,
    leave: bool,
    done: Option<thread::Result<()>>,
}

#[derive(Default)]
struct Place {
    /// Is it the caller's thread that runs, and not the host's?
    turn: AtomicBool,
    desk: Mutex<Desk>,
}

impl Place {
    fn desk(&self) -> MutexGuard<'_, Desk> {
        self.desk.lock().unwrap_or_else(PoisonError::into_inner)
    }

    fn give(&self, turn: bool, to: &Thread) {
        self.turn.store(turn, Ordering::Release);
        to.unpark();
        while self.turn.load(Ordering::Acquire) == turn {
            thread::park();
        }
    }

    fn hand_back(&self) {
        let host = self.desk().host.take().expect("the host waits");
        self.give(false, &host);
    }

    /// A caller's thread: one job after another.
    fn work(self: Arc<Place>) {
        PLACE.set(Some(self.clone()));
        while !self.turn.load(Ordering::Acquire) {
            thread::park();
        }
        loop {
            let Some(job) = self.desk().job.take() else {
                return;
            };
            let done = catch_unwind(AssertUnwindSafe(job));
            self.desk().done = Some(done);
            self.hand_back();
        }
    }
}

/// A caller's thread with nothing to do.
struct Worker {
    place: Arc<Place>,
    thread: Thread,
}

impl Worker {
    fn new() -> Worker {
        let place = Arc::new(Place::default());
        let work = place.clone();
        let thread = thread::Builder::new()
            .stack_size(STACK)
            .spawn(move || work.work())
            .expect("a thread can be made");
        Worker {
            place,
            thread: thread.thread().clone(),
        }
    }

    /// Runs the thread until it hands back: what became of its job, if that is done.
    fn resume(&self) -> Option<thread::Result<()>> {
        self.place.desk().host = Some(thread::current());
        self.place.give(true, &self.thread);
        self.place.desk().done.take()
    }

    fn keep(self) {
        let mut idle = IDLE.lock().unwrap_or_else(PoisonError::into_inner);
        if idle.len() < KEPT {
            idle.push(self);
        } else {
            // a turn without a job ends the thread
            self.place.turn.store(true, Ordering::Release);
            self.thread.unpark();
        }
    }
}

/// A caller's thread that is inside a call. Dropping it takes it out of the call.
pub struct Running(Option<Worker>);

impl Running {
    /// A thread that is to do this. It does nothing yet.
    pub fn new(job: Job) -> Running {
        let idle = IDLE.lock().unwrap_or_else(PoisonError::into_inner).pop();
        let worker = idle.unwrap_or_else(Worker::new);
        worker.place.desk().job = Some(job);
        Running(Some(worker))
    }

    /// Hands over to it until it hands back: is it done?
    pub fn resume(&mut self) -> bool {
        let worker = self
            .0
            .as_ref()
            .expect("a thread that is done is not resumed");
        let Some(done) = worker.resume() else {
            return false;
        };
        self.0.take().expect("it was there").keep();
        if let Err(panic) = done {
            resume_unwind(panic);
        }
        true
    }
}

impl Drop for Running {
    fn drop(&mut self) {
        let Some(worker) = self.0.take() else { return };
        let begun = {
            let mut desk = worker.place.desk();
            desk.leave = true;
            desk.job.take().is_none()
        };
        if begun {
            let left = worker.resume();
            assert!(left.is_some(), "the thread has left its call");
        }
        worker.place.desk().leave = false;
        worker.keep();
    }
}

/// Hands over to the host, if this is a caller's thread: is it?
pub fn hand_over() -> bool {
    let Some(place) = PLACE.with_borrow(Clone::clone) else {
        return false;
    };
    place.hand_back();
    if place.desk().leave {
        resume_unwind(Box::new(Left));
    }
    true
}

/// The time that so many hand-overs, there and back, take by themselves.
pub fn hand_overs(count: u32) -> Duration {
    let mut running = Running::new(Box::new(|| {
        loop {
            hand_over();
        }
    }));
    running.resume();
    let start = Instant::now();
    for _ in 0..count {
        running.resume();
    }
    start.elapsed()
}
