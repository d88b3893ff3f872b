//! What a driver takes from its queue, by what it wants: a call wants one reply, a map request a supply, all else nothing.

use core::sync::atomic::{AtomicU64, Ordering};

use crate::completion::Completion;
use crate::entry::{ObtainFlags, Sqe};
use crate::errno::{Errno, demux, mux};
use crate::ids::{FileNumber, Handle, Pid, Tag};
use crate::limits::SLOTS;
use crate::opcode::Opcode;

/// Which call or map request it is, of all that were taken in this process: a tag is another call's in another layer, and
/// later in the same one.
#[derive(Clone, Copy, Debug, PartialEq, Eq)]
pub(crate) struct Serial(u64);

impl Serial {
    /// Of an entry from bytes, of which no layer keeps anything.
    pub const ELSEWHERE: Serial = Serial(0);
    /// Of none.
    pub const NONE: Serial = Serial(u64::MAX);

    /// One that was never given before.
    pub fn fresh() -> Serial {
        static LAST: AtomicU64 = AtomicU64::new(0);
        Serial(LAST.fetch_add(1, Ordering::Relaxed) + 1)
    }
}

/// The call or map request that a driver has taken at each slot, until the slot is another's.
pub(crate) struct Serials([Serial; SLOTS]);

impl Serials {
    pub fn none() -> Serials {
        Serials([Serial::NONE; SLOTS])
    }

    pub fn at(&self, tag: Tag) -> Serial {
        let place = usize::try_from(tag.0).ok();
        let found = place.and_then(|place| self.0.get(place));
        found.copied().unwrap_or(Serial::NONE)
    }

    pub fn set(&mut self, tag: Tag, serial: Serial) {
        let place = usize::try_from(tag.0).ok();
        if let Some(at) = place.and_then(|place| self.0.get_mut(place)) {
            *at = serial;
        }
    }
}

/// What an entry wants of its driver. It goes by the opcode alone: CloseMsg and Detach bear tag 0 and no
/// flag, so that neither tells them from a call.
#[derive(Clone, Copy, Debug, PartialEq, Eq, Hash)]
pub enum Wants {
    /// One reply, by its tag.
    Reply,
    /// One [supply](MapRequest::supply), by its tag. A reply is refused.
    Supply,
    /// Nothing: its tag is 0 or another call's.
    Nothing,
}

impl Wants {
    pub(crate) fn of(opcode: Option<Opcode>) -> Wants {
        match opcode {
            Some(Opcode::RequestMmap) => Wants::Supply,
            Some(Opcode::Cancel | Opcode::CloseMsg | Opcode::Detach) => Wants::Nothing,
            _ => Wants::Reply,
        }
    }
}

/// An entry that a driver has taken.
///
/// ```
/// use tilgurap::{Caller, FileNumber, Identity, Layer, Opcode, Pid, SchemeNumber, Taken};
///
/// let mut layer = Layer::new(SchemeNumber(7));
/// let who = Identity { uid: 0, gid: 0, pid: Pid(100) };
/// let tag = layer.call(Caller(100), Opcode::Write, [1, 2, 3, 4, 5], who, &[])?.tag;
/// assert!(layer.close(FileNumber(3)).is_ok());
///
/// let Some(Taken::Call(call)) = layer.next_entry() else { panic!("a call is queued") };
/// assert_eq!(call.tag(), tag);
/// // it has tag 0 as the call does, and cannot be replied to
/// assert_eq!(layer.next_entry(), Some(Taken::Close { file: FileNumber(3) }));
/// let served = layer.answer(call.ok(1));
/// assert!(served.refused.is_empty());
/// # Ok::<(), tilgurap::Refusal>(())
/// ```
///
/// A call is used up by its reply; a second one does not compile:
///
/// ```compile_fail,E0382
/// # use tilgurap::{Call, Completion};
/// fn reply(call: Call) -> [Completion; 2] {
///     [call.ok(1), call.ok(1)]
/// }
/// ```
///
/// and what wants no reply has no way to make one:
///
/// ```compile_fail,E0599
/// # use tilgurap::{Completion, MapRequest};
/// fn reply(request: MapRequest) -> Completion {
///     request.ok(1)
/// }
/// ```
#[derive(Debug, PartialEq, Eq)]
#[must_use = "a call waits for its reply, a map request for its page"]
pub enum Taken {
    /// A call, which wants one reply.
    Call(Call),
    /// A map request, which wants a page.
    MapRequest(MapRequest),
    /// A call is to be given up. It still wants its reply.
    Cancel(Cancel),
    /// A file's last descriptor was closed.
    Close {
        /// Which file.
        file: FileNumber,
    },
    /// A descriptor was detached from its file.
    Detach {
        /// Which file.
        file: FileNumber,
        /// Whose descriptor.
        pid: Pid,
    },
}

impl Taken {
    /// The entry in these bytes, for a driver that got them by [`Layer::read`](crate::Layer::read). One is to
    /// be made of each entry, once.
    pub fn from_bytes(bytes: &[u8; Sqe::BYTES]) -> Taken {
        Taken::new(Sqe::from_bytes(bytes), Serial::ELSEWHERE)
    }

    pub(crate) fn new(entry: Sqe, serial: Serial) -> Taken {
        let file = FileNumber(entry.args[0]);
        match entry.opcode() {
            Some(Opcode::RequestMmap) => Taken::MapRequest(MapRequest { entry, serial }),
            Some(Opcode::Cancel) => Taken::Cancel(Cancel {
                tag: entry.tag,
                serial,
            }),
            Some(Opcode::CloseMsg) => Taken::Close { file },
            Some(Opcode::Detach) => Taken::Detach {
                file,
                pid: entry.pid,
            },
            _ => Taken::Call(Call { entry, serial }),
        }
    }

    /// What it wants.
    pub fn wants(&self) -> Wants {
        match self {
            Taken::Call(_) => Wants::Reply,
            Taken::MapRequest(_) => Wants::Supply,
            Taken::Cancel(_) | Taken::Close { .. } | Taken::Detach { .. } => Wants::Nothing,
        }
    }

    /// Does it want a reply?
    pub fn wants_reply(&self) -> bool {
        self.wants() == Wants::Reply
    }
}

/// The wish that a call be given up. The call still wants its reply.
#[derive(Clone, Copy, Debug, PartialEq, Eq)]
pub struct Cancel {
    tag: Tag,
    serial: Serial,
}

impl Cancel {
    /// The call's tag. It may be another call's by now, if the call was replied to: [`is_for`](Cancel::is_for) tells.
    pub fn tag(self) -> Tag {
        self.tag
    }

    /// Is it this call that is to be given up? Of entries from bytes only the tags tell.
    pub fn is_for(self, call: &Call) -> bool {
        self.tag == call.tag() && self.serial == call.serial
    }
}

/// A call that its driver has taken. It is used up by its reply, which goes to the layer that the call was taken from and
/// to no other: a driver that is not done with it keeps it. One that is dropped leaves its caller waiting, and its slot
/// taken, for good.
#[derive(Debug, PartialEq, Eq)]
#[must_use = "its caller waits for a reply"]
pub struct Call {
    entry: Sqe,
    pub(crate) serial: Serial,
}

impl Call {
    /// The entry.
    pub fn entry(&self) -> &Sqe {
        &self.entry
    }

    /// What is asked for. The layer queues no call without one.
    pub fn opcode(&self) -> Option<Opcode> {
        self.entry.opcode()
    }

    /// What the call is known by, in a [`Cancel`] too.
    pub fn tag(&self) -> Tag {
        self.entry.tag
    }

    /// The first argument, which is a file of the driver's with every opcode that the Redox kernel sends.
    pub fn file(&self) -> FileNumber {
        FileNumber(self.entry.args[0])
    }

    /// The six arguments.
    pub fn args(&self) -> [u64; 6] {
        self.entry.args
    }

    /// The caller's process.
    pub fn pid(&self) -> Pid {
        self.entry.pid
    }

    /// It succeeded with this word. A word that reads as an error (see [`demux`](crate::demux)) is one.
    pub fn ok(self, word: u64) -> Completion {
        Completion::reply(0, self, word)
    }

    /// As [`ok`](Call::ok), where the word does not read as an error; else the call comes back.
    pub fn try_ok(self, word: u64) -> Result<Completion, Call> {
        match demux(word) {
            Ok(_) => Ok(self.ok(word)),
            Err(_) => Err(self),
        }
    }

    /// It failed. [`ECANCELED`](Errno::ECANCELED) reads as [`EINTR`](Errno::EINTR) where the call was cancelled,
    /// and `EINTR` as [`EIO`](Errno::EIO) where it was not.
    pub fn err(self, errno: Errno) -> Completion {
        Completion::reply(0, self, mux(Err(errno)))
    }

    /// The reply is the description in this handle of the driver's, which is empty then. An empty handle is
    /// refused, and the call comes back.
    pub fn descriptor(self, handle: Handle) -> Completion {
        Completion::reply(1, self, handle.0)
    }

    /// The reply is the call's list of descriptions.
    pub fn many(self) -> Completion {
        Completion::reply(4, self, 0)
    }

    /// As [`ok`](Call::ok), and the driver asks to be told when a descriptor of the file is detached.
    pub fn ok_with_notice(self, word: u64) -> Completion {
        Completion::reply(5, self, word)
    }

    /// As [`err`](Call::err), with the notice of [`ok_with_notice`](Call::ok_with_notice).
    pub fn err_with_notice(self, errno: Errno) -> Completion {
        Completion::reply(5, self, mux(Err(errno)))
    }

    /// The first description that came along with the call moves to this handle. It is no reply. Where the
    /// handle is in use, or over 63, the description's hold is dropped, with no close.
    pub fn obtain(&self, handle: Handle, flags: ObtainFlags) -> Completion {
        // three bytes have room; what does not fit is refused like any unknown flag
        let extra = match flags.bits().to_le_bytes() {
            [first, second, third, 0] => [first, second, third],
            _ => [u8::MAX; 3],
        };
        Completion::beside(3, self, handle.0).with_extra(extra)
    }
}

/// A map request that its driver has taken. It is used up by its supply.
#[derive(Debug, PartialEq, Eq)]
#[must_use = "its caller waits for a page"]
pub struct MapRequest {
    entry: Sqe,
    pub(crate) serial: Serial,
}

impl MapRequest {
    /// The bytes in a page: an offset and a base lie on one's beginning.
    pub const PAGE: u64 = 4096;

    /// What it is known by.
    pub fn tag(&self) -> Tag {
        self.entry.tag
    }

    /// The file to be mapped.
    pub fn file(&self) -> FileNumber {
        FileNumber(self.entry.args[0])
    }

    /// The map flags, as the caller gave them.
    pub fn flags(&self) -> u64 {
        self.entry.args[1]
    }

    /// How many pages are asked for. One is supplied.
    pub fn pages(&self) -> u64 {
        self.entry.args[2]
    }

    /// The caller's process.
    pub fn pid(&self) -> Pid {
        self.entry.pid
    }

    /// Its page: the offset in the file, and where it lies. It comes back where one of them is off a page's
    /// beginning.
    pub fn supply(self, offset: u64, base: u64) -> Result<Supply, MapRequest> {
        let on_page = |at: u64| at.is_multiple_of(MapRequest::PAGE);
        if !on_page(offset) || !on_page(base) {
            return Err(self);
        }
        Ok(Supply {
            request: self,
            offset,
            base,
        })
    }
}

/// A map request's page, to be put to the layer by [`Layer::answer`](crate::Layer::answer).
#[derive(Debug, PartialEq, Eq)]
#[must_use = "it is to be put to the layer"]
pub struct Supply {
    pub(crate) request: MapRequest,
    pub(crate) offset: u64,
    pub(crate) base: u64,
}
