//! The kernel's side of the syscall crate, with user memory.

pub use syscall::{data, error, flag};

pub mod usercopy;
