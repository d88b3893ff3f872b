//! One context: its status and its file table, which are lines of the original, and the rest.

use std::sync::Arc;

use super::memory::AddrSpaceWrapper;
use crate::memory::{Frame, PAGE_SIZE, PhysicalAddress};
use crate::sync::{CleanLockToken, L3, LockToken, RwLock};
use crate::syscall::error::Result;
use syscall::{SigProcControl, Sigcontrol};

pub use original::{FdTbl, HardBlockedReason, LockedFdTbl, Status, bulk_insert_fds};

const CONTEXT_MAX_FILES: usize = super::CONTEXT_MAX_FILES;

#[allow(warnings, clippy::all)]
mod original {
    use alloc::{collections::BTreeSet, sync::Arc, vec::Vec};
    use syscall::UPPER_FDTBL_TAG;

    use super::Context;
    use crate::context::{
        self,
        file::{FileDescriptor, LockedFileDescription},
        memory::{AddrSpaceWrapper, GrantFileRef},
    };
    use crate::memory::FrameAllocated;
    use crate::scheme::{CallerCtx, FileHandle, SchemeId};
    use crate::sync::{CleanLockToken, L1, L4, L5, LockToken, RwLock};
    use crate::syscall::error::{EBADF, EEXIST, EINVAL, EMFILE, ENOMEM, ESRCH, Error, Result};
    use crate::syscall::usercopy::UserSliceRw;

    include!(concat!(env!("OUT_DIR"), "/context.rs"));
}

#[derive(Clone, Copy, Debug)]
pub struct LogicalCpuId;

/// A thread of a caller, which makes one call, or the driver's.
#[derive(Debug)]
pub struct Context {
    /// The caller and the tag of its call, once there is one.
    pub call: Option<(u32, u32)>,
    pub status: Status,
    pub status_reason: &'static str,
    pub cpu_id: Option<LogicalCpuId>,
    pub addr_space: Option<Arc<AddrSpaceWrapper>>,
    pub files: Arc<LockedFdTbl>,
    pub being_sigkilled: bool,
    pub fmap_ret: Option<Frame>,
    pub euid: u32,
    pub egid: u32,
    pub pid: usize,
}

impl Context {
    /// A context that runs, with no files. All share one address space, so that a payload is
    /// captured at the address it has.
    pub fn new(addr_space: Arc<AddrSpaceWrapper>, pid: usize, euid: u32, egid: u32) -> Context {
        Context {
            call: None,
            status: Status::Runnable,
            status_reason: "",
            cpu_id: None,
            addr_space: Some(addr_space),
            files: Arc::new(RwLock::new(FdTbl::new())),
            being_sigkilled: false,
            fmap_ret: None,
            euid,
            egid,
            pid,
        }
    }

    /// Signals come from a script's wakes alone.
    pub fn sigcontrol(&self) -> Option<(&Sigcontrol, &SigProcControl, &())> {
        None
    }
}

/// A page of the context's for a path, or for the ends of a payload that is not on page bounds.
pub struct BorrowedHtBuf(Box<[u8; PAGE_SIZE]>);

impl BorrowedHtBuf {
    pub fn head_locked(_token: LockToken<'_, L3>) -> Result<Self> {
        Ok(BorrowedHtBuf(Box::new([0; PAGE_SIZE])))
    }
    pub fn tail_locked(token: LockToken<'_, L3>) -> Result<Self> {
        BorrowedHtBuf::head_locked(token)
    }
    pub fn buf(&self) -> &[u8; PAGE_SIZE] {
        &self.0
    }
    pub fn buf_mut(&mut self) -> &mut [u8; PAGE_SIZE] {
        &mut self.0
    }
    pub fn frame(&self) -> Frame {
        Frame::containing(PhysicalAddress(self.0.as_ptr() as usize))
    }
    pub fn into_drop(self, _token: &mut CleanLockToken) {}
}
