//! Sets of bits with names.

/// A set of bits: `|` joins two, `contains` asks for some.
macro_rules! flags {
    (
        $(#[$doc:meta])*
        $name:ident($of:ty) { $($(#[$bit_doc:meta])* $bit:ident = $bits:literal;)* }
    ) => {
        $(#[$doc])*
        #[derive(Clone, Copy, Debug, Default, PartialEq, Eq, Hash)]
        pub struct $name($of);

        impl $name {
            /// None.
            pub const NONE: $name = $name(0);
            $($(#[$bit_doc])* pub const $bit: $name = $name($bits);)*

            /// These bits, also those that have no name.
            pub const fn from_bits(bits: $of) -> $name {
                $name(bits)
            }

            /// As a number.
            pub const fn bits(self) -> $of {
                self.0
            }

            /// Are all of these among them?
            pub const fn contains(self, other: $name) -> bool {
                self.0 & other.0 == other.0
            }
        }

        impl core::ops::BitOr for $name {
            type Output = $name;

            fn bitor(self, other: $name) -> $name {
                $name(self.0 | other.0)
            }
        }

        impl core::ops::BitOrAssign for $name {
            fn bitor_assign(&mut self, other: $name) {
                self.0 |= other.0;
            }
        }
    };
}

pub(crate) use flags;

flags! {
    /// A call's flags, as in `syscall/src/flag.rs`: those that [`kfdwrite`](crate::Layer::kfdwrite) and
    /// [`kfdread`](crate::Layer::kfdread) pass on. Any other bit may be among them, and is not looked at.
    CallFlags(u64) {
        /// Of descriptions that are sent: nobody else is to hold them. The driver is told so
        /// ([`SendFdFlags::EXCLUSIVE`](crate::SendFdFlags::EXCLUSIVE)); whether it is so is the host's to see to.
        FD_EXCLUSIVE = 0x1000;
        /// Of descriptions that are asked for: into the upper file table. The driver is told so
        /// ([`RecvFdFlags::UPPER_TBL`](crate::RecvFdFlags::UPPER_TBL)); where they go is the host's to see to.
        FD_UPPER = 0x4000;
    }
}
