//! The Redox kernel's user scheme code, unchanged, inside a small shim of the kernel around it,
//! and the events of a script that run on it.

extern crate alloc;
#[macro_use]
extern crate bitflags;

#[macro_use]
mod log;

// the kernel: its own files and lines at their paths, and the shim around them
mod context;
mod event;
mod memory;
mod scheme;
mod sync;
mod syscall;
// what it runs on
pub mod count;
mod machine;
mod threads;
// what runs on it
mod oracle;
mod reading;

/// The syscall crate's own types and functions.
pub use ::syscall as abi;
pub use oracle::{Alone, Oracle, run};
pub use reading::{Front, Reading, parse_cqe, read_reply};
pub use threads::hand_overs;

// An entry is read and written as it lies in memory.
const _: () = assert!(usize::BITS == 64 && cfg!(target_endian = "little"));
