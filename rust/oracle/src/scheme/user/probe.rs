//! The user scheme's private parts from outside: its calls, and a look at its slots and queue.
#![warn(unused, clippy::all)]

use std::mem;
use std::sync::Arc;

use script::Phase;
use slab::Slab;
use syscall::schemev2::{Cqe, Opcode, Sqe, SqeFlags};

use super::{ParsedCqe, Response, State, UserInner};
use crate::context::file::LockedFileDescription;
use crate::context::memory::PageSpan;
use crate::memory::VirtualAddress;
use crate::scheme::CallerCtx;
use crate::sync::CleanLockToken;
use crate::syscall::error::Result;

type Description = Arc<LockedFileDescription>;

/// A reply as a call hands it over.
#[derive(Clone, Debug)]
pub enum Handed {
    Regular(Result<usize>, u8, bool),
    Fd(Description),
    Many(Vec<Description>),
}

impl From<Response> for Handed {
    fn from(response: Response) -> Handed {
        match response {
            Response::Regular(result, extra0, notice) => Handed::Regular(result, extra0, notice),
            Response::Fd(description) => Handed::Fd(description),
            Response::MultipleFds(list) => Handed::Many(list.unwrap_or_default()),
        }
    }
}

fn clean() -> CleanLockToken {
    // SAFETY: the oracle looks when nobody holds a lock.
    unsafe { CleanLockToken::new() }
}

/// Is that entry taken apart, or refused before its tag is looked at?
pub fn parse(entry: &Cqe) -> Result<()> {
    ParsedCqe::parse_cqe(entry).map(|_| ())
}

/// What runs the scheme's private functions.
impl UserInner {
    pub fn probe_reserve(&self) -> Result<u32> {
        self.next_id(&mut clean())
    }

    pub fn probe_call(
        &self,
        ctx: CallerCtx,
        list: Vec<Description>,
        opcode: Opcode,
        args: [u64; 6],
        mut span: PageSpan,
    ) -> Result<Handed> {
        let token = &mut clean();
        self.call(ctx, list, opcode, args, &mut span, token, true)
            .map(Handed::from)
    }

    pub fn probe_submit(
        &self,
        list: Vec<Description>,
        entry: Sqe,
        mut span: PageSpan,
    ) -> Result<Handed> {
        self.call_inner(list, entry, &mut span, &mut clean(), true)
            .map(Handed::from)
    }

    pub fn probe_supply(
        &self,
        tag: u32,
        offset: u64,
        base_addr: VirtualAddress,
        page_count: usize,
    ) -> Result<()> {
        let supply = ParsedCqe::ProvideMmap {
            tag,
            offset,
            base_addr,
            page_count,
        };
        self.handle_parsed(&supply, &mut clean())
    }
}

/// What looks.
impl UserInner {
    fn look<T>(&self, at: impl FnOnce(&mut Slab<State>) -> T) -> T {
        at(&mut self.states.lock(clean().token()))
    }

    pub fn probe_phase(&self, tag: usize) -> Phase {
        self.look(|states| match states.get(tag) {
            None => Phase::Vacant,
            Some(State::Placeholder) => Phase::Placeholder,
            Some(State::Waiting { .. }) => Phase::Waiting,
            Some(State::Responded(_)) => Phase::Responded,
            Some(State::Fmap(_)) => Phase::Fmap,
        })
    }

    /// How many slots are not vacant.
    pub fn probe_occupied(&self) -> usize {
        self.look(|states| states.len())
    }

    pub fn probe_canceling(&self, tag: usize) -> bool {
        self.look(|states| match states.get(tag) {
            Some(State::Waiting { canceling, .. }) => *canceling,
            _ => false,
        })
    }

    /// Is the caller of a waiting call gone?
    pub fn probe_caller_gone(&self, tag: usize) -> Option<bool> {
        self.look(|states| match states.get(tag) {
            Some(State::Waiting { context, .. }) => Some(context.strong_count() == 0),
            _ => None,
        })
    }

    /// How many descriptions a waiting call's list has.
    pub fn probe_listed(&self, tag: usize) -> usize {
        self.look(|states| match states.get(tag) {
            Some(State::Waiting { fds, .. }) => fds.len(),
            _ => 0,
        })
    }

    /// A copy of the reply that a slot holds.
    pub fn probe_reply(&self, tag: usize) -> Option<Handed> {
        self.look(|states| match states.get(tag) {
            Some(State::Responded(response)) => Some(match response {
                Response::Regular(result, extra0, notice) => {
                    Handed::Regular(*result, *extra0, *notice)
                }
                Response::Fd(description) => Handed::Fd(description.clone()),
                Response::MultipleFds(list) => Handed::Many(list.clone().unwrap_or_default()),
            }),
            _ => None,
        })
    }

    pub fn probe_queued(&self) -> usize {
        self.todo.queued(&mut clean())
    }

    pub fn probe_newest(&self) -> Option<Sqe> {
        self.todo.newest(&mut clean())
    }
}

/// What puts a reply into a slot, as no event does.
impl UserInner {
    pub fn probe_respond(&self, tag: usize, reply: Handed) {
        let response = match reply {
            Handed::Regular(result, extra0, notice) => Response::Regular(result, extra0, notice),
            Handed::Fd(description) => Response::Fd(description),
            Handed::Many(list) => Response::MultipleFds(Some(list)),
        };
        self.look(|states| states[tag] = State::Responded(response));
    }
}

/// A stand-in: a second scheme, with no part in the run, whose slots are all Placeholders.
impl UserInner {
    /// Makes it a stand-in with so many slots.
    pub fn probe_stand_in(&self, slots: usize) {
        self.look(|states| {
            states.clear();
            for _ in 0..slots {
                states.insert(State::Placeholder);
            }
        });
        self.todo.clear(&mut clean());
    }

    /// Each gets the other's slots.
    pub fn probe_swap(&self, other: &UserInner) {
        self.look(|states| other.look(|others| mem::swap(states, others)));
    }

    /// A caller's way into `call_inner`'s loop for that tag, with an entry that nobody reads.
    pub fn probe_turn(&self, tag: u32) -> Result<Handed> {
        let entry = Sqe {
            tag,
            sqe_flags: SqeFlags::empty(),
            ..Sqe::default()
        };
        self.probe_submit(Vec::new(), entry, PageSpan::of_call(0))
    }
}
