//! A reply handed over, and the ways to read it.

use alloc::vec::Vec;
use core::slice;

use crate::errno::{self, Errno};
use crate::ffi;
use crate::ids::Description;
use crate::limits::LIST;

/// A driver's reply, as a wake hands it over. The holds of its descriptions are the host's from
/// then on, whichever way it is read.
#[derive(Clone, Debug, PartialEq, Eq)]
pub enum Reply {
    /// A word, or an error.
    Regular {
        /// Which.
        result: Result<u64, Errno>,
        /// The first byte that the driver sent along.
        extra0: u8,
        /// The driver asks to be told when a descriptor of the file is detached.
        notice: bool,
    },
    /// One description.
    Descriptor(Description),
    /// Many, at most 16.
    Many(Vec<Description>),
}

/// What opening a file gave.
#[derive(Clone, Copy, Debug, PartialEq, Eq)]
pub enum Opened {
    /// A file of the driver's own: its number, and the new descriptor's flags.
    Local {
        /// Its number with the driver.
        number: u64,
        /// 1 for a file with a position, else 0.
        flags: u8,
    },
    /// A description of somebody else's.
    External(Description),
}

impl Reply {
    pub(crate) fn from_stored(reply: ffi::Reply, fds: &ffi::List) -> Reply {
        let regular = |result| Reply::Regular {
            result,
            extra0: reply.extra0,
            notice: reply.notice,
        };
        match reply.kind {
            0 => regular(Ok(reply.word)),
            1 => regular(Err(errno::errno(reply.word))),
            2 => Reply::Descriptor(Description(reply.word)),
            3 => Reply::Many(descriptions(fds)),
            kind => unreachable!("{kind} is no kind of reply"),
        }
    }

    /// The descriptions that it holds. Each hold is the host's to drop, also where the reply is read as an error.
    pub fn descriptions(&self) -> &[Description] {
        match self {
            Reply::Regular { .. } => &[],
            Reply::Descriptor(description) => slice::from_ref(description),
            Reply::Many(many) => many,
        }
    }

    /// As a slot stores it. No reading looks at which descriptions a list has.
    fn stored(&self) -> (ffi::Reply, ffi::List) {
        let (kind, word) = match self {
            Reply::Regular {
                result: Ok(word), ..
            } => (0, *word),
            Reply::Regular {
                result: Err(errno), ..
            } => (1, errno.number()),
            Reply::Descriptor(description) => (2, description.0),
            Reply::Many(_) => (3, 0),
        };
        let (extra0, notice) = match self {
            Reply::Regular { extra0, notice, .. } => (*extra0, *notice),
            Reply::Descriptor(_) | Reply::Many(_) => (0, false),
        };
        let reply = ffi::Reply {
            kind,
            extra0,
            notice,
            word,
        };
        let len = match self {
            Reply::Regular { .. } | Reply::Descriptor(_) => 0,
            // a wake hands over no longer list
            Reply::Many(many) => many.len().min(LIST) as u8,
        };
        (reply, ffi::List { at: [0; 16], len })
    }

    /// Reads a reply to most calls: the word or the error; descriptions read as
    /// [`EIO`](Errno::EIO).
    pub fn into_regular(self) -> Result<u64, Errno> {
        let (reply, list) = self.stored();
        // SAFETY: numbers alone.
        errno::result(unsafe { ffi::tilgurap_into_regular(reply, list) })
    }

    /// Reads a reply to [`call_generic`](crate::Layer::call_generic): as
    /// [`into_regular`](Reply::into_regular), and whether the driver asks for a notice on detach,
    /// even with an error.
    pub fn into_call_generic(self) -> (Result<u64, Errno>, bool) {
        let (reply, list) = self.stored();
        // SAFETY: numbers alone.
        let regular = unsafe { ffi::tilgurap_read_call_generic(reply, list) };
        (errno::result(regular.answer), regular.notice)
    }

    /// Reads a reply to [`kfdwrite`](crate::Layer::kfdwrite), as [`into_regular`](Reply::into_regular) does.
    pub fn into_kfdwrite(self) -> Result<u64, Errno> {
        let (reply, list) = self.stored();
        // SAFETY: numbers alone.
        errno::result(unsafe { ffi::tilgurap_read_kfdwrite(reply, list) })
    }

    /// Reads a reply to [`kfdread`](crate::Layer::kfdread): how many descriptions came, or the error. A word or one description alone
    /// reads as [`EIO`](Errno::EIO). Which they are, [`descriptions`](Reply::descriptions) tells before.
    pub fn into_kfdread(self) -> Result<usize, Errno> {
        let (reply, list) = self.stored();
        // SAFETY: numbers alone.
        let count = errno::result(unsafe { ffi::tilgurap_read_kfdread(reply, list) })?;
        Ok(count as usize)
    }

    /// Reads a reply to `OpenAt`: the error first, then unknown flags
    /// [`EINVAL`](Errno::EINVAL); many descriptions [`EIO`](Errno::EIO).
    pub fn into_kopenat(self) -> Result<Opened, Errno> {
        let (reply, list) = self.stored();
        // SAFETY: numbers alone.
        opened(unsafe { ffi::tilgurap_kopenat(reply, list) })
    }

    /// Reads a reply to `Dup`, as [`into_kopenat`](Reply::into_kopenat) does.
    pub fn into_kdup(self) -> Result<Opened, Errno> {
        let (reply, list) = self.stored();
        // SAFETY: numbers alone.
        opened(unsafe { ffi::tilgurap_kdup(reply, list) })
    }
}

fn opened(words: ffi::OpenedWords) -> Result<Opened, Errno> {
    match words.kind {
        0 => Ok(Opened::Local {
            number: words.value,
            flags: words.flags,
        }),
        1 => Ok(Opened::External(Description(words.value))),
        2 => Err(errno::errno(words.value)),
        kind => unreachable!("{kind} is no way to open"),
    }
}

/// The descriptions of a stored list.
pub(crate) fn descriptions(list: &ffi::List) -> Vec<Description> {
    let list = &list.at[..usize::from(list.len)];
    list.iter().map(|d| Description(u64::from(*d))).collect()
}
