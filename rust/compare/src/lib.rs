//! The layer beside the kernel's own code: the same events put to both, what each says compared,
//! and a difference made short.

pub mod beside;
pub mod bytes;
pub mod counts;
pub mod instructions;
pub mod interrupt;
pub mod limits;
pub mod port;
pub mod runs;
pub mod shrink;
pub mod words;
