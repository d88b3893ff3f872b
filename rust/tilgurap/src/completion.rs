//! What a driver gives its layer: a reply to a call, which it uses up, or an entry that serves none.

use crate::effect::EventFlags;
use crate::entry::Cqe;
use crate::ids::Tag;
use crate::taken::{Call, Serial};

/// A completion entry to be put to the layer by [`Layer::answer`](crate::Layer::answer), once. A reply is made from the
/// [`Call`] that it is for, and uses it up; [`event`](Completion::event) serves no call.
#[derive(Debug, PartialEq, Eq)]
#[must_use = "it is to be put to the layer"]
pub struct Completion {
    pub(crate) entry: Cqe,
    /// Which call it goes with.
    pub(crate) serial: Serial,
    /// Whose reply it is.
    pub(crate) call: Option<Call>,
}

impl Completion {
    /// An entry that goes with a call, and is no reply.
    pub(crate) fn beside(kind: u8, call: &Call, result: u64) -> Completion {
        Completion {
            entry: Cqe::new(kind, call.tag(), result),
            serial: call.serial,
            call: None,
        }
    }

    /// A reply of this kind.
    pub(crate) fn reply(kind: u8, call: Call, result: u64) -> Completion {
        let mut reply = Completion::beside(kind, &call, result);
        reply.call = Some(call);
        reply
    }

    /// An event of a file of the driver's. It serves no call.
    pub fn event(number: u64, flags: EventFlags) -> Completion {
        // where a call's tag stands; more than 32 bits of it are refused like any unknown ones
        let entry = Cqe::new(2, Tag(flags.bits()), number);
        Completion {
            entry,
            serial: Serial::ELSEWHERE,
            call: None,
        }
    }

    /// With three bytes more: the first goes along with a regular reply, and all three are the
    /// flags of an obtain.
    pub fn with_extra(mut self, extra: [u8; 3]) -> Completion {
        self.entry = self.entry.with_extra(extra);
        self
    }

    /// The entry, to be looked at.
    pub fn cqe(&self) -> Cqe {
        self.entry
    }

    /// The entry's bytes, for a driver that writes them to its host, as [`Layer::write`](crate::Layer::write) takes
    /// them. They use the reply up as well: bytes that are written twice are two replies.
    pub fn into_bytes(self) -> [u8; Cqe::BYTES] {
        self.entry.to_bytes()
    }
}
