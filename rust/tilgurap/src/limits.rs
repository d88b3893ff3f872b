//! The layer's limits, as the C header has them.

/// The number of the interface that this crate is written for. The library answers its own.
pub const ABI: u64 = 3;
/// Slots: calls and map requests under way at a time.
pub const SLOTS: usize = 64;
/// Entries that a driver's queue holds.
pub const QUEUE_ENTRIES: usize = 128;
/// Descriptions, numbered from 0.
pub const DESCRIPTIONS: usize = 64;
/// A driver's handles, numbered from 0.
pub const HANDLES: usize = 64;
/// Descriptions in one list.
pub const LIST: usize = 16;
/// Holds of one description.
pub const HOLDS: u64 = 65_535;
/// Effects that one completion entry makes at most.
pub const EFFECTS: usize = 18;
/// Words for these effects, three each.
pub const EFFECT_WORDS: usize = 54;
/// Words of the state.
pub const STATE_WORDS: usize = 2_060;
