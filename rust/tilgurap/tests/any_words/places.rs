//! Where the words hold what (crates/layout/specs/Layout.antt), as far as this test looks.

/// A slot has so many words, the first slot from place 0 on.
pub const SLOT: usize = 12;
/// Of its first word the low byte is its state, and these bits are cancelling, ended, returned.
pub const MARKS: u64 = 0x700;
/// The place of its caller in it.
pub const CALLER: usize = 1;
/// The slot after each in the chain of vacated ones, and the first of them.
pub const CHAIN: usize = 768;
pub const HEAD: usize = 832;
/// All holds of each description, and those outside.
pub const ALL: usize = 840;
pub const OUTSIDE: usize = 904;
pub const HANDLES: usize = 972;
pub const QUEUE: usize = 1_036;
