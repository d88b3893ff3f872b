//! The numbers that cross between scheduler, layer and driver, one type each, so that none is
//! taken for another.

use core::fmt::{self, Display, Formatter};

macro_rules! number {
    ($(#[$doc:meta])* $name:ident($of:ty)) => {
        $(#[$doc])*
        #[derive(Clone, Copy, Debug, PartialEq, Eq, PartialOrd, Ord, Hash)]
        #[repr(transparent)]
        pub struct $name(pub $of);

        impl Display for $name {
            fn fmt(&self, f: &mut Formatter) -> fmt::Result {
                self.0.fmt(f)
            }
        }
    };
}

number! {
    /// What a call or a map request is known by until its slot is given out again: the slot's
    /// number, 0 to 63. A greater one counts as vacant.
    Tag(u64)
}
number! {
    /// A file description, 0 to 63. It is open while anybody holds it.
    Description(u64)
}
number! {
    /// A handle of the driver's, 0 to 63: a place for one description.
    Handle(u64)
}
number! {
    /// Who calls: the scheduler's number for it.
    Caller(u32)
}
number! {
    /// A caller's process number, which the driver is told. The layer never looks at it.
    Pid(u64)
}
number! {
    /// The number that the driver's scheme has in the host.
    SchemeNumber(u64)
}
number! {
    /// A file in the driver's own numbering. The layer passes it on.
    FileNumber(u64)
}

/// As whom a call is made.
#[derive(Clone, Copy, Debug, PartialEq, Eq)]
pub struct Identity {
    /// User number.
    pub uid: u32,
    /// Group number.
    pub gid: u32,
    /// Process number.
    pub pid: Pid,
}

/// Pages lent to a call: whoever ends a killed call unmaps them.
#[derive(Clone, Copy, Debug, PartialEq, Eq)]
pub struct Span {
    /// The first page.
    pub base: u64,
    /// How many pages. With 0 nothing is unmapped.
    pub count: u64,
}

impl Span {
    /// No pages.
    pub const NONE: Span = Span { base: 0, count: 0 };
}

/// A captured buffer: its address and its length.
#[derive(Clone, Copy, Debug, PartialEq, Eq)]
pub struct Payload {
    /// Address.
    pub base: u64,
    /// Length in bytes.
    pub len: u64,
}
