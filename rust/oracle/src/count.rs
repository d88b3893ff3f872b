//! Counting instructions with callgrind: what a side runs between [`on`] and [`off`] is counted by a program under `valgrind
//! --tool=callgrind --collect-atstart=no`. Elsewhere, and without the feature `count`, they do nothing.

/// Whose instructions are counted.
#[derive(Clone, Copy, Debug, PartialEq, Eq)]
pub enum Side {
    /// The kernel's code.
    Rust,
    /// The layer's exported steps.
    Steps,
    /// `tilgurap_run`.
    Run,
}

#[cfg(feature = "count")]
mod callgrind {
    use std::sync::atomic::{AtomicU8, Ordering};

    use super::Side;

    static COUNTED: AtomicU8 = AtomicU8::new(Side::Rust as u8);
    /// The parts of a call that count, a bit each, and the part that it is in.
    static PARTS: AtomicU8 = AtomicU8::new(u8::MAX);
    static PART: AtomicU8 = AtomicU8::new(0);

    /// A request to callgrind (valgrind's callgrind.h): a sequence that does nothing on a machine.
    #[inline(always)]
    fn request(code: u64) {
        let arguments = [0x4354_0000 + code, 0, 0, 0, 0, 0];
        // SAFETY: rotations by 128 bits in all, a register exchanged with itself, and under valgrind a result in rdx.
        unsafe {
            std::arch::asm!(
                "rol rdi, 3",
                "rol rdi, 13",
                "rol rdi, 61",
                "rol rdi, 51",
                "xchg rbx, rbx",
                inout("rdx") 0_u64 => _,
                in("rax") &raw const arguments,
            );
        }
    }

    /// Only this side counts from now on, from 0.
    pub fn start(side: Side) {
        COUNTED.store(side as u8, Ordering::Relaxed);
        request(1);
    }

    /// What was counted is written to a file of its own.
    pub fn dump() {
        request(0);
    }

    pub fn only(parts: u8) {
        PARTS.store(parts, Ordering::Relaxed);
    }

    pub fn part(part: u8) {
        PART.store(part, Ordering::Relaxed);
    }

    pub fn next_part() {
        PART.store((PART.load(Ordering::Relaxed) + 1) % 8, Ordering::Relaxed);
    }

    #[inline(always)]
    pub fn toggle(side: Side) {
        let part = 1 << PART.load(Ordering::Relaxed);
        if COUNTED.load(Ordering::Relaxed) == side as u8
            && PARTS.load(Ordering::Relaxed) & part != 0
        {
            request(2);
        }
    }
}

#[cfg(feature = "count")]
pub use callgrind::{dump, start};

/// Of a call only these parts count, a bit each: its entry, the entry read, the wake for nothing, the Cancel read, the reply
/// written, the wake for it.
pub fn only(_parts: u8) {
    #[cfg(feature = "count")]
    callgrind::only(_parts);
}

/// What comes next is that part of a call.
pub fn part(_part: u8) {
    #[cfg(feature = "count")]
    callgrind::part(_part);
}

/// And then the next.
pub fn next_part() {
    #[cfg(feature = "count")]
    callgrind::next_part();
}

/// Counts from now on, if this side counts.
#[inline(always)]
pub fn on(_side: Side) {
    #[cfg(feature = "count")]
    callgrind::toggle(_side);
}

/// Counts no longer.
#[inline(always)]
pub fn off(_side: Side) {
    #[cfg(feature = "count")]
    callgrind::toggle(_side);
}
