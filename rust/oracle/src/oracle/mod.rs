//! The events of a script, each put to the kernel's own code, and the state that they leave.

use std::array;
use std::sync::{Arc, Weak};
use std::time::Duration;

use script::{Answer, Event, Line, OutputLine, Phase, Script, State, StatusWords};
use syscall::GlobalSchemes;

use crate::context::file::{
    FileDescription, InternalFlags, KernelSchemeRef, LockedFileDescription,
};
use crate::context::memory::AddrSpaceWrapper;
use crate::context::{Context, ContextLock};
use crate::machine::Machine;
use crate::reading;
use crate::scheme::user::UserInner;
use crate::scheme::{CallerCtx, SchemeId};
use crate::sync::{CleanLockToken, RwLock};
use crate::syscall::error::{Error, Result};

mod alone;
mod driver;
mod host;
mod submit;
mod wake;

pub use alone::Alone;
use submit::Given;

/// The limits that the kernel does not have.
const SLOTS: usize = 64;
const QUEUE: usize = 128;
pub(crate) const LISTED: usize = 16;
const DESCRIPTIONS: u64 = 64;
const HANDLES: u64 = 64;
const HOLDS: usize = 65_535;
const EFFECT_WORDS: u64 = 54;

pub(crate) type Description = Arc<LockedFileDescription>;

/// One run: the kernel's state, and what only the host knows.
pub struct Oracle {
    machine: Arc<Machine>,
    space: Arc<AddrSpaceWrapper>,
    driver: Arc<ContextLock>,
    /// Takes the files of an obtain call.
    receiver: Arc<ContextLock>,
    inner: Arc<UserInner>,
    /// Runs what has no call of its own, or no room.
    stand_in: Arc<UserInner>,
    given: [Option<Given>; SLOTS],
    spans: u64,
    descriptions: [Weak<LockedFileDescription>; 64],
    outside: [Vec<Description>; 64],
}

pub(crate) fn clean() -> CleanLockToken {
    // SAFETY: the oracle's own code holds no lock when it asks.
    unsafe { CleanLockToken::new() }
}

fn no(error: Error) -> Answer {
    Answer::No(error.errno as u64)
}

pub(crate) fn number(description: &Description) -> u64 {
    description.read(clean().token()).number as u64
}

pub(crate) fn description(number: u64) -> Description {
    Arc::new(RwLock::new(FileDescription {
        offset: 0,
        scheme_ref: KernelSchemeRef::Global(GlobalSchemes::Host),
        number: number as usize,
        flags: 0,
        internal_flags: InternalFlags::empty(),
    }))
}

/// The context with that many places in its file table.
pub(crate) fn with_files(context: Context, places: usize) -> Context {
    let files = context.files.clone();
    let resized = files.write(clean().token()).resize(0, places);
    resized.expect("the file table takes its size");
    context
}

impl Oracle {
    /// A fresh state, given the scheme's number.
    pub fn new(scheme: u64) -> Oracle {
        let space = AddrSpaceWrapper::new();
        let context = |places: usize| {
            let context = Context::new(space.clone(), 0, 0, 0);
            Arc::new(RwLock::new(with_files(context, places)))
        };
        let driver = context(HANDLES as usize);
        let receiver = context(LISTED);
        let scheme = SchemeId::User(scheme as usize);
        let inner = || UserInner::new(SchemeId::Root, scheme, Arc::downgrade(&driver));
        let (inner, stand_in) = (inner(), inner());
        Oracle {
            machine: Arc::new(Machine::new(driver.clone())),
            space,
            driver,
            receiver,
            inner: Arc::new(inner),
            stand_in: Arc::new(stand_in),
            given: [const { None }; SLOTS],
            spans: 0,
            descriptions: [const { Weak::new() }; 64],
            outside: [const { Vec::new() }; 64],
        }
    }

    /// Puts one event to the kernel's code.
    pub fn step(&mut self, event: &Event) -> Line {
        let _inside = self.machine.enter();
        let mut bytes = Vec::new();
        let answer = match event {
            Event::Open { d } => self.open(*d),
            Event::Copy { d } => self.copy(*d),
            Event::Drop { d } => self.drop_one(*d),
            Event::Put { d, h } => self.put(*d, *h),
            Event::Ended { c } => self.ended(*c),
            Event::Reserve { c } => self.reserve(*c),
            Event::Submit {
                tag,
                c,
                op,
                fl,
                args,
                pid,
                list,
            } => self.submit(*tag, *c, (*op, *fl, *args, *pid), list),
            Event::Call {
                c,
                op,
                args,
                uid,
                gid,
                pid,
                list,
            } => {
                let ctx = CallerCtx {
                    pid: *pid as usize,
                    uid: *uid,
                    gid: *gid,
                };
                self.call(*c, *op, *args, ctx, list)
            }
            Event::Generic(payload) => self.front(payload, false),
            Event::Stdfs(payload) => self.front(payload, true),
            Event::Fmap {
                c,
                id,
                pages,
                flags,
                uid,
                gid,
                pid,
            } => {
                let context = Context::new(self.space.clone(), *pid as usize, *uid, *gid);
                self.fmap(*c, context, *id, *pages, *flags)
            }
            Event::Close { id } => self.close(*id),
            Event::Detach { id, pid } => self.detach(*id, *pid),
            Event::Wake {
                tag,
                c,
                killed,
                base,
                count,
            } => self.wake(*tag, *c, *killed, (*base, *count)),
            Event::Read { len, flags } => self.read(*len, *flags, &mut bytes),
            Event::Write { words, bytes } => self.write(*words, bytes),
            Event::Move { meta, list } => self.move_list(meta, list),
            Event::Obtain { meta } => self.obtain(meta),
            Event::Supply {
                tag,
                offset,
                base,
                count,
            } => self.supply(*tag, *offset, *base, *count),
            Event::Fdwrite { call, list } => self.fdwrite(call, list),
            Event::Fdread { call, len } => self.fdread(call, *len),
            Event::Front { form, reply } => reading::front(*form, reply),
            Event::Status => Answer::Status(self.status(&self.slots())),
        };
        Line {
            answer,
            effects: self.machine.effects(),
            bytes,
        }
    }

    /// As `step`, with the time that the kernel's code itself took, hand-overs left out.
    pub fn timed(&mut self, event: &Event) -> (Line, Duration) {
        self.machine.clock(true);
        let line = self.step(event);
        (line, self.machine.clock(false))
    }

    /// The state as the kernel's structures hold it.
    pub fn state(&self) -> State {
        let slots = self.slots();
        let files = self.driver.read(clean().token()).files.clone();
        let mut state = State::fresh();
        state.slots = slots;
        state.queue = self.inner.probe_queued() as u64;
        state.holds = array::from_fn(|d| self.descriptions[d].strong_count() as u64);
        state.outside = array::from_fn(|d| self.outside[d].len() as u64);
        state.handles = array::from_fn(|h| {
            let file = files.read(clean().token()).get_file(h.into()).cloned();
            file.map(|file| number(&file.description))
        });
        state.status = self.status(&slots);
        state
    }

    fn slots(&self) -> [Phase; 64] {
        array::from_fn(|tag| self.inner.probe_phase(tag))
    }

    /// The status words. The kernel has no mark of a call that has returned, and of its caller a weak reference: both are
    /// known here, where each slot was given out.
    fn status(&self, slots: &[Phase; 64]) -> StatusWords {
        let is_abandoned = |tag: &usize| {
            let Some(given) = &self.given[*tag] else {
                return false;
            };
            if let Some(gone) = self.inner.probe_caller_gone(*tag) {
                assert_eq!(given.ended, gone, "tag {tag}: the kernel's own caller");
            }
            given.ended || given.returned
        };
        let abandoned = (0..slots.len()).filter(is_abandoned);
        State::status_of(slots, abandoned.fold(0, |word, tag| word | 1 << tag))
    }

    fn phase(&self, tag: u64) -> Phase {
        usize::try_from(tag).map_or(Phase::Vacant, |tag| self.inner.probe_phase(tag))
    }
}

fn done(result: Result<usize>) -> Answer {
    result.map_or_else(no, |count| Answer::Ok(count as u64))
}

/// Runs a whole script: a line for each event, then the state.
pub fn run(script: &Script) -> Vec<OutputLine> {
    let mut oracle = Oracle::new(script.scheme);
    let mut lines: Vec<OutputLine> = script
        .events
        .iter()
        .map(|event| OutputLine::Event(oracle.step(event)))
        .collect();
    lines.push(OutputLine::State(Box::new(oracle.state())));
    lines
}
