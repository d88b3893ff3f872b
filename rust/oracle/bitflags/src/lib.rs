//! What the kernel's sources use of bitflags: a number with named bits. Bits without a name are
//! turned down by `from_bits`, dropped by `from_bits_truncate` and kept by `from_bits_retain`.
#![no_std]

#[macro_export]
macro_rules! bitflags {
    ($(
        $(#[$outer:meta])*
        $vis:vis struct $Flags:ident: $T:ty {
            $(
                $(#[$inner:meta])*
                const $Flag:ident = $value:expr;
            )*
        }
    )*) => {$(
        $(#[$outer])*
        $vis struct $Flags($T);

        #[allow(dead_code)]
        impl $Flags {
            $(
                $(#[$inner])*
                pub const $Flag: Self = Self($value);
            )*

            pub const fn empty() -> Self {
                Self(0)
            }
            pub const fn all() -> Self {
                Self(0 $(| Self::$Flag.0)*)
            }
            pub const fn bits(&self) -> $T {
                self.0
            }
            pub const fn from_bits(bits: $T) -> Option<Self> {
                if bits & !Self::all().0 == 0 {
                    Some(Self(bits))
                } else {
                    None
                }
            }
            pub const fn from_bits_retain(bits: $T) -> Self {
                Self(bits)
            }
            pub const fn from_bits_truncate(bits: $T) -> Self {
                Self(bits & Self::all().0)
            }
            pub const fn is_empty(&self) -> bool {
                self.0 == 0
            }
            pub const fn contains(&self, other: Self) -> bool {
                self.0 & other.0 == other.0
            }
            pub const fn intersects(&self, other: Self) -> bool {
                self.0 & other.0 != 0
            }
            pub const fn union(self, other: Self) -> Self {
                Self(self.0 | other.0)
            }
            pub const fn intersection(self, other: Self) -> Self {
                Self(self.0 & other.0)
            }
            pub fn insert(&mut self, other: Self) {
                self.0 |= other.0;
            }
            pub fn remove(&mut self, other: Self) {
                self.0 &= !other.0;
            }
            pub fn set(&mut self, other: Self, value: bool) {
                if value {
                    self.insert(other);
                } else {
                    self.remove(other);
                }
            }
            /// Each named flag that is wholly set, then what is left over in one.
            pub fn iter(&self) -> impl Iterator<Item = Self> {
                let bits = self.0;
                let mut left = bits;
                let mut named = [$(Self::$Flag.0),*].into_iter();
                core::iter::from_fn(move || {
                    for flag in named.by_ref() {
                        if bits & flag == flag && left & flag != 0 {
                            left &= !flag;
                            return Some(Self(flag));
                        }
                    }
                    match core::mem::take(&mut left) {
                        0 => None,
                        rest => Some(Self(rest)),
                    }
                })
            }
        }

        impl core::ops::BitOr for $Flags {
            type Output = Self;
            fn bitor(self, other: Self) -> Self {
                self.union(other)
            }
        }
        impl core::ops::BitOrAssign for $Flags {
            fn bitor_assign(&mut self, other: Self) {
                self.insert(other);
            }
        }
        impl core::iter::FromIterator<Self> for $Flags {
            fn from_iter<I: IntoIterator<Item = Self>>(flags: I) -> Self {
                flags.into_iter().fold(Self::empty(), Self::union)
            }
        }
    )*};
}

#[cfg(test)]
mod tests {
    bitflags! {
        #[derive(Clone, Copy, Debug, PartialEq, Eq)]
        struct Three: u8 {
            const A = 1;
            /// A name for two bits, one of which has its own.
            const B = 6;
            const C = 4;
        }
    }

    #[test]
    fn unnamed_bits() {
        assert_eq!(Three::from_bits(7), Some(Three(7)));
        assert_eq!(Three::from_bits(8), None);
        assert_eq!(Three::from_bits_truncate(0xff).bits(), 7);
        assert_eq!(Three::from_bits_retain(0xff).bits(), 0xff);
    }

    #[test]
    fn sets() {
        assert!(!Three::from_bits_retain(2).contains(Three::B));
        assert!(Three::from_bits_retain(2).intersects(Three::B));
        assert!((Three::A | Three::B).contains(Three::C));
        let mut flags = Three::empty();
        flags.set(Three::B, true);
        flags.set(Three::C, false);
        assert_eq!(flags.bits(), 2);
        assert_eq!(Three::B.intersection(Three::C), Three::C);
    }

    #[test]
    fn one_by_one() {
        let parts = |bits| {
            let mut parts = [0; 4];
            for (part, flags) in parts.iter_mut().zip(Three::from_bits_retain(bits).iter()) {
                *part = flags.bits();
            }
            parts
        };
        assert_eq!(parts(0), [0, 0, 0, 0]);
        assert_eq!(parts(7), [1, 6, 0, 0]);
        assert_eq!(parts(0x85), [1, 4, 0x80, 0]);
        let all: Three = Three::all().iter().collect();
        assert_eq!(all, Three::all());
    }
}
