//! What the layer asks its host to do.

use core::fmt::{self, Display, Formatter};

use crate::flags::flags;
use crate::ids::{Caller, Description, SchemeNumber, Span, Tag};

flags! {
    /// Event bits, as in `syscall/src/flag.rs`.
    EventFlags(u64) {
        /// There is something to read.
        READ = 1;
        /// There is room to write.
        WRITE = 2;
        /// The other end went away.
        HUP = 4;
        /// An error.
        ERR = 8;
        /// Not open.
        NVAL = 16;
    }
}

/// What the host has to do after an event. The layer does none of it. One that is dropped where it comes back is warned of:
///
/// ```compile_fail
/// #![deny(unused_must_use)]
/// use tilgurap::{FileNumber, Layer, SchemeNumber};
///
/// # fn main() -> Result<(), tilgurap::Refusal> {
/// let mut layer = Layer::new(SchemeNumber(7));
/// layer.close(FileNumber(3))?;
/// # Ok(())
/// # }
/// ```
#[derive(Clone, Copy, Debug, PartialEq, Eq)]
#[must_use = "the layer leaves it to its host"]
pub enum Effect {
    /// Wake this caller: the call with this tag has a reply. To be carried out before the caller calls again, or not at all
    /// if it has fetched the reply meanwhile.
    Wake {
        /// Whom.
        caller: Caller,
        /// Whose call.
        tag: Tag,
    },
    /// Unmap these pages, which were lent to a call that was killed.
    Unmap {
        /// Which.
        span: Span,
    },
    /// Close this description: its last hold is gone. A hold that is dropped with a replaced list, with a refused move or
    /// entry, with an obtain into a handle that is in use or over 63, or with the descriptor of a reply to an ended caller makes
    /// none, as in the Rust.
    Close {
        /// Which.
        description: Description,
    },
    /// Pass a file's event on, which the driver sent.
    Event {
        /// The file's number with the driver.
        number: u64,
        /// What happened.
        flags: EventFlags,
    },
    /// Tell the driver about its queue: there is something to read.
    Readable {
        /// Whose queue.
        scheme: SchemeNumber,
        /// What happened.
        flags: EventFlags,
    },
}

impl Effect {
    /// The effect that these three words say: kind 1 to 5, a, b.
    pub fn from_words([kind, a, b]: [u64; 3]) -> Option<Effect> {
        Some(match kind {
            1 => Effect::Wake {
                caller: Caller(u32::try_from(a).ok()?),
                tag: Tag(b),
            },
            2 => Effect::Unmap {
                span: Span { base: a, count: b },
            },
            3 => Effect::Close {
                description: Description(a),
            },
            4 => Effect::Event {
                number: a,
                flags: EventFlags::from_bits(b),
            },
            5 => Effect::Readable {
                scheme: SchemeNumber(a),
                flags: EventFlags::from_bits(b),
            },
            _ => return None,
        })
    }
}

impl Display for Effect {
    fn fmt(&self, f: &mut Formatter) -> fmt::Result {
        match self {
            Effect::Wake { caller, tag } => {
                write!(
                    f,
                    "wake caller {caller}, the call with tag {tag} has its reply"
                )
            }
            Effect::Unmap { span } => write!(
                f,
                "unmap pages from {} on, {} of them",
                span.base, span.count
            ),
            Effect::Close { description } => {
                write!(f, "close description {description}, nobody holds it")
            }
            Effect::Event { number, flags } => {
                write!(
                    f,
                    "pass on event {} of the driver's file {number}",
                    flags.bits()
                )
            }
            Effect::Readable { scheme, flags } => {
                let hup = if flags.contains(EventFlags::HUP) {
                    ", with HUP"
                } else {
                    ""
                };
                write!(f, "the queue of scheme {scheme} has something to read{hup}")
            }
        }
    }
}
