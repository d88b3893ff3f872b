//! How a reply, an error word and an entry are read, in numbers.

use script::{Form, Reply};

use crate::ffi::{self, Cqe, Sqe};

/// What `kopenat` and `kdup` read.
#[derive(Clone, Copy, Debug, PartialEq, Eq)]
pub enum Opened {
    /// A file of the scheme's own: its number, and its flags.
    Local(u64, u8),
    /// A description.
    External(u64),
    /// Refused with this errno.
    Refused(u64),
}

/// A reply as a slot stores it. A list has at most 16 there, with eight bits each: no reading looks at which they are.
fn stored(reply: &Reply) -> (ffi::Reply, ffi::List) {
    let mut list = ffi::List {
        at: [0; 16],
        len: 0,
    };
    let (kind, word) = match reply {
        Reply::Regular { result: Ok(v), .. } => (0, *v),
        Reply::Regular { result: Err(e), .. } => (1, *e),
        Reply::Fd(d) => (2, *d),
        Reply::Many(many) => {
            assert!(many.len() <= list.at.len(), "a list has at most 16");
            for (place, d) in list.at.iter_mut().zip(many) {
                *place = u8::try_from(*d).unwrap_or(u8::MAX);
            }
            list.len = many.len() as u8;
            (3, 0)
        }
    };
    let (extra0, notice) = match reply {
        Reply::Regular { extra0, notice, .. } => (*extra0, *notice),
        Reply::Fd(_) | Reply::Many(_) => (0, false),
    };
    let reply = ffi::Reply {
        kind,
        extra0,
        notice,
        word,
    };
    (reply, list)
}

fn result(words: ffi::AnswerWords) -> Result<u64, u64> {
    match words.kind {
        0 => Ok(words.value),
        1 => Err(words.value),
        kind => unreachable!("{kind} is no word and no error"),
    }
}

fn opened(words: ffi::OpenedWords) -> Opened {
    match words.kind {
        0 => Opened::Local(words.value, words.flags),
        1 => Opened::External(words.value),
        2 => Opened::Refused(words.value),
        kind => unreachable!("{kind} is no way to open"),
    }
}

/// The word, or the error.
pub fn into_regular(reply: &Reply) -> Result<u64, u64> {
    let (reply, list) = stored(reply);
    // SAFETY: numbers alone.
    result(unsafe { ffi::tilgurap_into_regular(reply, list) })
}

/// The word or the error, and the notice of a kind 5 reply.
pub fn read_call_generic(reply: &Reply) -> (Result<u64, u64>, bool) {
    let (reply, list) = stored(reply);
    // SAFETY: numbers alone.
    let regular = unsafe { ffi::tilgurap_read_call_generic(reply, list) };
    (result(regular.answer), regular.notice)
}

/// How a call of this form reads it.
pub fn front(form: Form, reply: &Reply) -> Result<u64, u64> {
    let (reply, list) = stored(reply);
    let read = match form {
        Form::Fdwrite => ffi::tilgurap_read_kfdwrite,
        Form::Fdread => ffi::tilgurap_read_kfdread,
    };
    // SAFETY: numbers alone.
    result(unsafe { read(reply, list) })
}

/// How `kopenat` reads it.
pub fn kopenat(reply: &Reply) -> Opened {
    let (reply, list) = stored(reply);
    // SAFETY: numbers alone.
    opened(unsafe { ffi::tilgurap_kopenat(reply, list) })
}

/// How `kdup` reads it.
pub fn kdup(reply: &Reply) -> Opened {
    let (reply, list) = stored(reply);
    // SAFETY: numbers alone.
    opened(unsafe { ffi::tilgurap_kdup(reply, list) })
}

/// A result word's success, or its errno.
pub fn demux(word: u64) -> Result<u64, u64> {
    // SAFETY: numbers alone.
    result(unsafe { ffi::tilgurap_demux(word) })
}

/// An errno as a result word.
pub fn mux_error(errno: i32) -> u64 {
    // SAFETY: numbers alone.
    unsafe { ffi::tilgurap_mux_error(errno) }
}

/// The submission entry in these bytes.
pub fn sqe(bytes: &[u8]) -> Sqe {
    // SAFETY: the pointer goes with its length.
    unsafe { ffi::tilgurap_sqe(bytes.as_ptr(), bytes.len()) }
}

/// The completion entry in these bytes.
pub fn cqe(bytes: &[u8]) -> Cqe {
    // SAFETY: the pointer goes with its length.
    unsafe { ffi::tilgurap_cqe(bytes.as_ptr(), bytes.len()) }
}

/// A submission entry's bytes.
pub fn sqe_bytes(entry: Sqe) -> [u8; 64] {
    let mut bytes = [0; 64];
    // SAFETY: the bytes are there to be written.
    unsafe { ffi::tilgurap_sqe_bytes(entry, &raw mut bytes) };
    bytes
}

/// A completion entry's bytes.
pub fn cqe_bytes(entry: Cqe) -> [u8; 16] {
    let mut bytes = [0; 16];
    // SAFETY: the bytes are there to be written.
    unsafe { ffi::tilgurap_cqe_bytes(entry, &raw mut bytes) };
    bytes
}

/// What an entry is refused with before its tag is looked at.
pub fn parse_cqe(entry: Cqe) -> Result<(), u64> {
    // SAFETY: numbers alone.
    match unsafe { ffi::tilgurap_parse_cqe(entry) } {
        0 => Ok(()),
        number => Err(number),
    }
}
