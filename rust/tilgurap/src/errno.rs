//! Errors of replies: an errno, and result words that say one.

use core::fmt::{self, Display, Formatter};

use crate::ffi;

/// An error that a driver replies with: 1 to 132.
///
/// ```
/// use tilgurap::Errno;
///
/// assert_eq!(Errno::new(28).unwrap().to_string(), "ENOSPC (28)");
/// assert_eq!(Errno::new(133), None);
/// ```
#[derive(Clone, Copy, Debug, PartialEq, Eq, Hash)]
pub struct Errno(u8);

/// From 1 on.
const NAMES: [&str; 132] = [
    "EPERM",
    "ENOENT",
    "ESRCH",
    "EINTR",
    "EIO",
    "ENXIO",
    "E2BIG",
    "ENOEXEC",
    "EBADF",
    "ECHILD",
    "EAGAIN",
    "ENOMEM",
    "EACCES",
    "EFAULT",
    "ENOTBLK",
    "EBUSY",
    "EEXIST",
    "EXDEV",
    "ENODEV",
    "ENOTDIR",
    "EISDIR",
    "EINVAL",
    "ENFILE",
    "EMFILE",
    "ENOTTY",
    "ETXTBSY",
    "EFBIG",
    "ENOSPC",
    "ESPIPE",
    "EROFS",
    "EMLINK",
    "EPIPE",
    "EDOM",
    "ERANGE",
    "EDEADLK",
    "ENAMETOOLONG",
    "ENOLCK",
    "ENOSYS",
    "ENOTEMPTY",
    "ELOOP",
    "EWOULDBLOCK",
    "ENOMSG",
    "EIDRM",
    "ECHRNG",
    "EL2NSYNC",
    "EL3HLT",
    "EL3RST",
    "ELNRNG",
    "EUNATCH",
    "ENOCSI",
    "EL2HLT",
    "EBADE",
    "EBADR",
    "EXFULL",
    "ENOANO",
    "EBADRQC",
    "EBADSLT",
    "EDEADLOCK",
    "EBFONT",
    "ENOSTR",
    "ENODATA",
    "ETIME",
    "ENOSR",
    "ENONET",
    "ENOPKG",
    "EREMOTE",
    "ENOLINK",
    "EADV",
    "ESRMNT",
    "ECOMM",
    "EPROTO",
    "EMULTIHOP",
    "EDOTDOT",
    "EBADMSG",
    "EOVERFLOW",
    "ENOTUNIQ",
    "EBADFD",
    "EREMCHG",
    "ELIBACC",
    "ELIBBAD",
    "ELIBSCN",
    "ELIBMAX",
    "ELIBEXEC",
    "EILSEQ",
    "ERESTART",
    "ESTRPIPE",
    "EUSERS",
    "ENOTSOCK",
    "EDESTADDRREQ",
    "EMSGSIZE",
    "EPROTOTYPE",
    "ENOPROTOOPT",
    "EPROTONOSUPPORT",
    "ESOCKTNOSUPPORT",
    "EOPNOTSUPP",
    "EPFNOSUPPORT",
    "EAFNOSUPPORT",
    "EADDRINUSE",
    "EADDRNOTAVAIL",
    "ENETDOWN",
    "ENETUNREACH",
    "ENETRESET",
    "ECONNABORTED",
    "ECONNRESET",
    "ENOBUFS",
    "EISCONN",
    "ENOTCONN",
    "ESHUTDOWN",
    "ETOOMANYREFS",
    "ETIMEDOUT",
    "ECONNREFUSED",
    "EHOSTDOWN",
    "EHOSTUNREACH",
    "EALREADY",
    "EINPROGRESS",
    "ESTALE",
    "EUCLEAN",
    "ENOTNAM",
    "ENAVAIL",
    "EISNAM",
    "EREMOTEIO",
    "EDQUOT",
    "ENOMEDIUM",
    "EMEDIUMTYPE",
    "ECANCELED",
    "ENOKEY",
    "EKEYEXPIRED",
    "EKEYREVOKED",
    "EKEYREJECTED",
    "EOWNERDEAD",
    "ENOTRECOVERABLE",
    "ERSVD",
];

impl Errno {
    /// No such entry.
    pub const ENOENT: Errno = Errno(2);
    /// Interrupted: what a cancelled call reads.
    pub const EINTR: Errno = Errno(4);
    /// Input or output went wrong; also what a reply of the wrong shape reads.
    pub const EIO: Errno = Errno(5);
    /// Invalid argument.
    pub const EINVAL: Errno = Errno(22);
    /// Nothing left, such as an empty tank.
    pub const ENOSPC: Errno = Errno(28);
    /// Not supported.
    pub const EOPNOTSUPP: Errno = Errno(95);
    /// Given up, as a Cancel asked for.
    pub const ECANCELED: Errno = Errno(125);

    /// The error of this number, where it is one: 1 to 132.
    pub fn new(number: u64) -> Option<Errno> {
        let number = u8::try_from(number).ok()?;
        (1..=132).contains(&number).then_some(Errno(number))
    }

    /// 1 to 132.
    pub fn number(self) -> u64 {
        u64::from(self.0)
    }

    /// Its name in capitals.
    pub fn name(self) -> &'static str {
        NAMES[usize::from(self.0) - 1]
    }
}

impl Display for Errno {
    fn fmt(&self, f: &mut Formatter) -> fmt::Result {
        write!(f, "{} ({})", self.name(), self.0)
    }
}

impl core::error::Error for Errno {}

/// An error that the layer says: it names none outside 1 to 132.
pub(crate) fn errno(number: u64) -> Errno {
    Errno::new(number).unwrap_or_else(|| unreachable!("{number} is no errno"))
}

/// What a result word says: the low 32 bits, read as signed and negated, are an error where they
/// lie in 1 to 132, else the whole word is a success.
///
/// ```
/// use tilgurap::{Errno, demux, mux};
///
/// assert_eq!(demux(7), Ok(7));
/// assert_eq!(demux(0x1_ffff_ff83), Err(Errno::ECANCELED));
/// assert_eq!(demux(mux(Err(Errno::ENOSPC))), Err(Errno::ENOSPC));
/// ```
pub fn demux(word: u64) -> Result<u64, Errno> {
    // SAFETY: numbers alone.
    result(unsafe { ffi::tilgurap_demux(word) })
}

/// The result word of a success or an error. A success word whose low half is an error's is read
/// as that error: see [`demux`].
pub fn mux(result: Result<u64, Errno>) -> u64 {
    match result {
        Ok(word) => word,
        // SAFETY: numbers alone.
        Err(errno) => unsafe { ffi::tilgurap_mux_error(i32::from(errno.0)) },
    }
}

pub(crate) fn result(words: ffi::AnswerWords) -> Result<u64, Errno> {
    match words.kind {
        0 => Ok(words.value),
        1 => Err(errno(words.value)),
        kind => unreachable!("{kind} is no word and no error"),
    }
}
