//! Address spaces. In one a span is unmapped, which is an effect, a supplied page is found, and
//! a path's page is mapped at page 1. The rest is there for the compiler.

use std::num::NonZeroUsize;
use std::sync::Arc;

use crate::machine;
use crate::memory::{Frame, PAGE_SIZE, Page, PhysicalAddress, VirtualAddress};
use crate::sync::{CleanLockToken, L4, L5, LockToken, RwLock, RwLockReadGuard, RwLockWriteGuard};
use crate::syscall::error::{ENOSYS, Error, Result};
use crate::syscall::flag::MapFlags;

pub use original::{BorrowedFmapSource, DANGLING, GrantFileRef, MmapMode};

#[allow(warnings, clippy::all)]
mod original {
    use alloc::sync::Arc;

    use super::{AddrSpace, AddrSpaceWrapper};
    use crate::context::file::LockedFileDescription;
    use crate::memory::Page;
    use crate::sync::{L5, RwLockWriteGuard};

    include!(concat!(env!("OUT_DIR"), "/memory.rs"));
}

/// A run of pages: these, or those that a call's killed caller leaves behind, which its wake says
/// (`machine::leave`).
#[derive(Clone, Copy)]
pub struct PageSpan {
    pub base: Page,
    count: usize,
    call: u64,
}

impl PageSpan {
    pub fn new(base: Page, count: usize) -> Self {
        let call = 0;
        PageSpan { base, count, call }
    }
    /// No pages. The first one that a front or its capture makes is its call's.
    pub fn empty() -> Self {
        PageSpan::of_call(machine::made_span())
    }
    /// The span of that call; call 0 is none.
    pub fn of_call(call: u64) -> Self {
        PageSpan {
            base: Page::numbered(0),
            count: 0,
            call,
        }
    }
    pub fn is_empty(&self) -> bool {
        self.resolved().1 == 0
    }
    fn resolved(&self) -> (u64, u64) {
        match self.call {
            0 => (self.base.number() as u64, self.count as u64),
            call => machine::left(call),
        }
    }
}

/// The files to tell of an unmapped span. There are none.
pub struct UnmapVec(());

impl UnmapVec {
    pub fn new() -> Self {
        UnmapVec(())
    }
}

pub fn handle_notify_files(_files: UnmapVec, _token: &mut CleanLockToken) {}

#[derive(Debug)]
pub struct AddrSpaceWrapper(RwLock<L5, AddrSpace>);

#[derive(Debug)]
pub struct AddrSpace {
    pub grants: UserGrants,
    pub table: Table,
    pub mmap_min: usize,
}

#[derive(Debug)]
pub struct UserGrants;

#[derive(Debug)]
pub struct Table {
    pub utable: PageMapper,
}

#[derive(Debug)]
pub struct PageMapper;

#[derive(Clone, Copy)]
pub struct PageFlags;

pub struct Flusher;

pub struct Grant;

impl AddrSpaceWrapper {
    pub fn new() -> Arc<Self> {
        Arc::new(AddrSpaceWrapper(RwLock::new(AddrSpace {
            grants: UserGrants,
            table: Table { utable: PageMapper },
            mmap_min: PAGE_SIZE,
        })))
    }
    pub fn acquire_read<'a>(
        &'a self,
        token: LockToken<'a, L4>,
    ) -> RwLockReadGuard<'a, L5, AddrSpace> {
        self.0.read(token)
    }
    pub fn acquire_write<'a>(
        &'a self,
        token: LockToken<'a, L4>,
    ) -> RwLockWriteGuard<'a, L5, AddrSpace> {
        self.0.write(token)
    }
    /// # Safety
    /// The token's lock is that of another address space.
    pub unsafe fn acquire_rewrite<'a>(
        &'a self,
        token: LockToken<'a, L5>,
    ) -> RwLockWriteGuard<'a, L5, AddrSpace> {
        self.0.rewrite(token)
    }
    pub fn munmap(
        &self,
        span: PageSpan,
        _unpin: bool,
        _token: &mut CleanLockToken,
    ) -> Result<UnmapVec> {
        let (base, count) = span.resolved();
        machine::cause(2, base, count);
        machine::forget(span.call);
        Ok(UnmapVec::new())
    }
    pub fn into_drop(self, _token: &mut CleanLockToken) {}
}

type Mapped<'a> = &'a mut PageMapper;

impl AddrSpace {
    pub fn current() -> Result<Arc<AddrSpaceWrapper>> {
        // SAFETY: the context's lock is free: its users let go of it before they ask.
        let mut token = unsafe { CleanLockToken::new() };
        let current = super::current();
        current.read(token.token()).addr_space().cloned()
    }
    pub fn mmap(
        &mut self,
        _lock: &AddrSpaceWrapper,
        _base: Option<Page>,
        _count: NonZeroUsize,
        _flags: MapFlags,
        _notify: Option<&mut UnmapVec>,
        _map: impl FnOnce(Page, PageFlags, Mapped, &mut Flusher) -> Result<Grant>,
    ) -> Result<Page> {
        Err(Error::new(ENOSYS))
    }
    pub fn mmap_anywhere(
        &mut self,
        _lock: &AddrSpaceWrapper,
        _count: NonZeroUsize,
        _flags: MapFlags,
        _map: impl FnOnce(Page, PageFlags, Mapped, &mut Flusher) -> Result<Grant>,
    ) -> Result<Page> {
        Ok(Page::numbered(1))
    }
}

impl UserGrants {
    pub fn find_free(&self, _min: usize, _count: usize) -> Option<PageSpan> {
        None
    }
}

impl PageMapper {
    pub fn translate(&self, address: VirtualAddress) -> Option<(PhysicalAddress, PageFlags)> {
        Some((PhysicalAddress(address.data()), PageFlags))
    }
}

impl Grant {
    pub fn allocated_shared_one_page(
        _frame: Frame,
        _page: Page,
        _flags: PageFlags,
        _mapper: Mapped,
        _flusher: &mut Flusher,
        _pinned: bool,
    ) -> Result<Grant> {
        Err(Error::new(ENOSYS))
    }
    #[allow(clippy::too_many_arguments)]
    pub fn borrow(
        _src_lock: Arc<AddrSpaceWrapper>,
        _src: &mut AddrSpace,
        _src_base: Page,
        _dst_base: Page,
        _count: usize,
        _flags: MapFlags,
        _mapper: Mapped,
        _flusher: &mut Flusher,
        _eager: bool,
        _allow_phys: bool,
        _pinned: bool,
    ) -> Result<Grant> {
        Err(Error::new(ENOSYS))
    }
    pub fn borrow_fmap(
        _span: PageSpan,
        _flags: PageFlags,
        _file: GrantFileRef,
        _src: Option<BorrowedFmapSource<'_>>,
        _lock: &AddrSpaceWrapper,
        _mapper: Mapped,
        _flusher: &mut Flusher,
    ) -> Result<Grant> {
        Err(Error::new(ENOSYS))
    }
}
