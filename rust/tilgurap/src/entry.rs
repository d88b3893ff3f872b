//! Submission entries, which a driver reads, and completion entries, which it writes.

use crate::ffi;
use crate::flags::flags;
use crate::ids::{Pid, Tag};
use crate::opcode::Opcode;
use crate::refusal::{Refusal, refusal};
use crate::taken::Wants;

flags! {
    /// Flags of a submission entry.
    SqeFlags(u8) {
        /// No reply is waited for, the Rust says; the layer's own Cancel has it. It does not decide what an entry
        /// [wants](Sqe::wants).
        ONEWAY = 1;
        /// The call is about two files.
        MULTIPLE_IDS = 2;
    }
}

flags! {
    /// Flags of an obtain entry.
    ObtainFlags(u32) {
        /// The driver chose the handle.
        MANUAL_FD = 1;
        /// Only where nobody else holds the description.
        EXCLUSIVE = 2;
        /// Into the upper file table.
        UPPER_TBL = 4;
        /// Closed when another program is started.
        CLOEXEC = 8;
    }
}

flags! {
    /// What the entry of a [`kfdwrite`](crate::Layer::kfdwrite) has as its argument 1.
    SendFdFlags(u64) {
        /// The caller wants nobody else to hold the descriptions.
        EXCLUSIVE = 1;
    }
}

flags! {
    /// What the entry of a [`kfdread`](crate::Layer::kfdread) has as its argument 1.
    RecvFdFlags(u64) {
        /// The caller wants them in its upper file table.
        UPPER_TBL = 2;
    }
}

/// A submission entry, 64 bytes: what a driver is asked for, to be looked at. What a driver takes to serve is
/// [`Taken`](crate::Taken).
#[derive(Clone, Copy, Debug, PartialEq, Eq)]
pub struct Sqe {
    /// The number of an [`Opcode`].
    pub opcode: u8,
    /// Its flags.
    pub flags: SqeFlags,
    /// The call's tag, which its reply has to bear; 0 for CloseMsg and Detach, which [want](Sqe::wants) none.
    pub tag: Tag,
    /// Six arguments.
    pub args: [u64; 6],
    /// The caller's process.
    pub pid: Pid,
}

impl Sqe {
    /// The length of an entry in bytes.
    pub const BYTES: usize = 64;

    /// The entry in these bytes.
    pub fn from_bytes(bytes: &[u8; Sqe::BYTES]) -> Sqe {
        // SAFETY: the pointer goes with its length.
        let entry = unsafe { ffi::tilgurap_sqe(bytes.as_ptr(), bytes.len()) };
        Sqe {
            opcode: entry.opcode,
            flags: SqeFlags::from_bits(entry.sqe_flags),
            tag: Tag(u64::from(entry.tag)),
            args: entry.args,
            pid: Pid(entry.caller),
        }
    }

    /// The entry's bytes. Of the tag the low 32 bits have a place there.
    pub fn to_bytes(self) -> [u8; Sqe::BYTES] {
        let entry = ffi::Sqe {
            opcode: self.opcode,
            sqe_flags: self.flags.bits(),
            tag: self.tag.0 as u32,
            args: self.args,
            caller: self.pid.0,
        };
        let mut bytes = [0; Sqe::BYTES];
        // SAFETY: the bytes are there to be written.
        unsafe { ffi::tilgurap_sqe_bytes(entry, &raw mut bytes) };
        bytes
    }

    /// What is asked for. The layer queues no entry without one.
    pub fn opcode(&self) -> Option<Opcode> {
        Opcode::new(u64::from(self.opcode))
    }

    /// What the driver has to do about it.
    pub fn wants(&self) -> Wants {
        Wants::of(self.opcode())
    }

    /// Does it want a reply?
    pub fn wants_reply(&self) -> bool {
        self.wants() == Wants::Reply
    }
}

/// A completion entry, 16 bytes: what a driver tells, to be looked at. What a driver gives its layer is a
/// [`Completion`](crate::Completion).
#[derive(Clone, Copy, Debug, PartialEq, Eq)]
pub struct Cqe {
    entry: ffi::Cqe,
}

impl Cqe {
    /// The length of an entry in bytes.
    pub const BYTES: usize = 16;

    /// Only tags below 2^32 have a place in an entry; a greater one is put as a vacant one.
    pub(crate) fn new(kind: u8, tag: Tag, result: u64) -> Cqe {
        let entry = ffi::Cqe {
            flags: kind,
            extra_raw: [0; 3],
            tag: u32::try_from(tag.0).unwrap_or(u32::MAX),
            result,
        };
        Cqe { entry }
    }

    pub(crate) fn with_extra(mut self, extra: [u8; 3]) -> Cqe {
        self.entry.extra_raw = extra;
        self
    }

    /// The entry in these bytes.
    pub fn from_bytes(bytes: &[u8; Cqe::BYTES]) -> Cqe {
        // SAFETY: the pointer goes with its length.
        let entry = unsafe { ffi::tilgurap_cqe(bytes.as_ptr(), bytes.len()) };
        Cqe { entry }
    }

    /// The entry's bytes.
    pub fn to_bytes(self) -> [u8; Cqe::BYTES] {
        let mut bytes = [0; Cqe::BYTES];
        // SAFETY: the bytes are there to be written.
        unsafe { ffi::tilgurap_cqe_bytes(self.entry, &raw mut bytes) };
        bytes
    }

    /// 0 to 7; 6 and 7 are refused.
    pub fn kind(self) -> u8 {
        self.entry.flags & 7
    }

    /// The call's tag. An event has its flags there.
    pub fn tag(self) -> Tag {
        Tag(u64::from(self.entry.tag))
    }

    /// The result word: see [`demux`](crate::demux).
    pub fn result(self) -> u64 {
        self.entry.result
    }

    /// Why the layer refuses this entry whatever its tag, if it does: kind 6 or 7, or flags of an
    /// event or an obtain that do not exist.
    pub fn parse(self) -> Result<(), Refusal> {
        // SAFETY: numbers alone.
        match unsafe { ffi::tilgurap_parse_cqe(self.entry) } {
            0 => Ok(()),
            number => Err(refusal(number)),
        }
    }
}
