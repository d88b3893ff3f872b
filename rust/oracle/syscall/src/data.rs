//! Data types of the syscall crate, with the fields that the kernel's user scheme code names.

use std::ops::Deref;

use crate::flag::{MapFlags, StdFsCallKind};

/// The schemes inside the kernel. Here they are one, which the host's descriptions belong to.
#[derive(Clone, Copy, Debug, PartialEq, Eq)]
#[repr(u8)]
pub enum GlobalSchemes {
    Host = 1,
}

/// A request to map a file.
#[derive(Clone, Copy, Debug, Default)]
pub struct Map {
    pub offset: usize,
    pub size: usize,
    pub flags: MapFlags,
    pub address: usize,
}

/// A fault of the program.
#[derive(Clone, Copy, Debug, Default)]
pub struct Exception {
    pub kind: usize,
}

/// The signal words of a thread and of a process. Nothing is ever pending here: a script says
/// what wakes a caller.
#[derive(Debug, Default)]
pub struct Sigcontrol;
#[derive(Debug, Default)]
pub struct SigProcControl;

impl Sigcontrol {
    pub fn currently_pending_unblocked(&self, _proc: &SigProcControl) -> u64 {
        0
    }
}

/// A file system call's three words: kind, arg1, arg2.
#[derive(Clone, Copy, Debug)]
#[repr(C)]
pub struct StdFsCallMeta {
    kind: u64,
    pub arg1: u64,
    pub arg2: u64,
}

impl StdFsCallMeta {
    pub fn new(kind: StdFsCallKind, arg1: u64, arg2: u64) -> Self {
        let kind = kind as u64;
        StdFsCallMeta { kind, arg1, arg2 }
    }
}

impl Deref for StdFsCallMeta {
    type Target = [u64];

    fn deref(&self) -> &[u64] {
        // SAFETY: three words side by side, by `repr(C)`.
        unsafe { std::slice::from_raw_parts((&raw const *self).cast(), 3) }
    }
}
