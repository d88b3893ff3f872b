//! The syscall crate: three original files as they are, and the data types that they and the
//! kernel's user scheme code need besides.

pub mod data;

include!(concat!(env!("OUT_DIR"), "/originals.rs"));

pub use data::*;
pub use error::*;
pub use flag::*;
