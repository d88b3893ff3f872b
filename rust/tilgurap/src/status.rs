//! What a layer holds.

use alloc::vec::Vec;

use crate::ffi;
use crate::ids::{Caller, Description, Span, Tag};
use crate::reply::{Reply, descriptions};

/// What a slot is used for.
#[derive(Clone, Copy, Debug, PartialEq, Eq, Hash)]
pub enum SlotState {
    /// Nothing.
    Vacant,
    /// Given out to a call that is not submitted yet.
    Placeholder,
    /// A call that waits for its driver's reply.
    Waiting,
    /// A call whose reply waits to be fetched.
    Responded,
    /// A map request.
    Fmap,
}

/// One slot.
#[derive(Clone, Debug, PartialEq, Eq)]
#[non_exhaustive]
pub struct Slot {
    /// What it is used for.
    pub state: SlotState,
    /// By whom.
    pub caller: Caller,
    /// The driver was asked to give the call up, or its caller was killed.
    pub cancelling: bool,
    /// The caller has ended.
    pub ended: bool,
    /// The call returned before its driver replied.
    pub returned: bool,
    /// The pages to unmap when the driver replies.
    pub span: Span,
    /// The descriptions that were sent along, while it waits.
    pub descriptions: Vec<Description>,
    /// The reply to be fetched.
    pub reply: Option<Reply>,
}

impl Slot {
    pub(crate) fn of(slot: &ffi::Slot) -> Slot {
        let state = match slot.state {
            1 => SlotState::Placeholder,
            2 => SlotState::Waiting,
            3 => SlotState::Responded,
            4 => SlotState::Fmap,
            _ => return Slot::VACANT,
        };
        Slot {
            state,
            caller: Caller(slot.caller),
            cancelling: slot.canceling,
            ended: slot.ended,
            returned: slot.returned,
            span: Span {
                base: slot.span.base,
                count: slot.span.count,
            },
            descriptions: match state {
                SlotState::Waiting => descriptions(&slot.fds),
                _ => Vec::new(),
            },
            reply: (state == SlotState::Responded)
                .then(|| Reply::from_stored(slot.reply, &slot.fds)),
        }
    }

    pub(crate) const VACANT: Slot = Slot {
        state: SlotState::Vacant,
        caller: Caller(0),
        cancelling: false,
        ended: false,
        returned: false,
        span: Span::NONE,
        descriptions: Vec::new(),
        reply: None,
    };
}

/// The slots that count in one status word: bit N of the word stands for the slot with tag N.
#[derive(Clone, Copy, Debug, PartialEq, Eq)]
pub struct StatusWord {
    /// One bit a slot.
    pub bits: u64,
    /// How many ones.
    pub count: u64,
}

impl StatusWord {
    /// The tags of its slots, rising.
    pub fn tags(self) -> impl Iterator<Item = Tag> {
        let is_set = move |tag: &u64| self.bits >> tag & 1 == 1;
        (0..64).filter(is_set).map(Tag)
    }
}

/// The five status words. No slot is in two of them, and one in none of them is vacant.
#[derive(Clone, Copy, Debug, PartialEq, Eq)]
#[non_exhaustive]
pub struct Status {
    /// Given out, not submitted.
    pub placeholder: StatusWord,
    /// Waiting for a reply that somebody will fetch: the caller has not ended and the call has not returned.
    pub outstanding: StatusWord,
    /// With a reply to be fetched.
    pub responded: StatusWord,
    /// Map requests.
    pub fmap: StatusWord,
    /// Waiting for a reply that nobody will fetch any more: the caller has ended, or was killed and its call has
    /// returned. The slot stays taken until the driver has replied.
    pub orphans: StatusWord,
}

impl Status {
    /// The tags of the calls that wait for their driver's reply ([`SlotState::Waiting`]), outstanding ones and orphans, rising: a
    /// driver has to reply to both.
    pub fn waiting(&self) -> impl Iterator<Item = Tag> {
        let both = StatusWord {
            bits: self.outstanding.bits | self.orphans.bits,
            count: self.outstanding.count + self.orphans.count,
        };
        both.tags()
    }
}

/// The holds of one description.
#[derive(Clone, Copy, Debug, PartialEq, Eq)]
pub struct Holds {
    /// All of them: the host's, the driver's handles' and the calls'.
    pub all: u64,
    /// The host's own.
    pub outside: u64,
}
