//! Locks with levels and tokens, so that the compiler sees their order. One thread runs at a time
//! and hands over without a lock, so one that is taken would never come free: that panics.

use std::cell::UnsafeCell;
use std::fmt::{self, Debug, Formatter};
use std::marker::PhantomData;
use std::ops::{Deref, DerefMut};
use std::sync::atomic::{AtomicU32, Ordering};

pub trait Level {}

/// A level that comes before level `L`.
pub trait Lower<L: Level>: Level {}

macro_rules! levels {
    ($low:ident $($high:ident)*) => {
        pub enum $low {}
        impl Level for $low {}
        $(impl Lower<$high> for $low {})*
        levels!($($high)*);
    };
    () => {};
}

levels!(L0 L1 L2 L3 L4 L5 L6);

/// The right to take locks above level `L`.
pub struct LockToken<'a, L: Level>(PhantomData<(&'a mut (), L)>);

impl<L: Level> LockToken<'_, L> {
    pub fn token(&mut self) -> LockToken<'_, L> {
        LockToken(PhantomData)
    }
    pub fn downgrade<M: Level>(&mut self) -> LockToken<'_, M>
    where
        L: Lower<M>,
    {
        LockToken(PhantomData)
    }
}

/// The right to take any lock.
pub struct CleanLockToken(());

impl CleanLockToken {
    /// # Safety
    /// The thread holds no lock.
    pub unsafe fn new() -> Self {
        CleanLockToken(())
    }
    pub fn token(&mut self) -> LockToken<'_, L0> {
        LockToken(PhantomData)
    }
    pub fn downgrade<M: Level>(&mut self) -> LockToken<'_, M> {
        LockToken(PhantomData)
    }
}

const FREE: u32 = 0;
const WRITTEN: u32 = u32::MAX;

/// A value and who uses it: nobody, so many readers, or one writer.
struct Cell<T> {
    users: AtomicU32,
    value: UnsafeCell<T>,
}

// SAFETY: the value is reached through `Shared` and `Only`, which keep readers and writers apart.
unsafe impl<T: Send> Send for Cell<T> {}
unsafe impl<T: Send + Sync> Sync for Cell<T> {}

impl<T> Cell<T> {
    const fn new(value: T) -> Self {
        Cell {
            users: AtomicU32::new(FREE),
            value: UnsafeCell::new(value),
        }
    }

    fn share(&self) -> Shared<'_, T> {
        let one_more = |users| (users < WRITTEN - 1).then(|| users + 1);
        let shared = self
            .users
            .fetch_update(Ordering::Acquire, Ordering::Relaxed, one_more);
        assert!(shared.is_ok(), "a lock is read while it is written");
        Shared(self)
    }

    fn take(&self) -> Only<'_, T> {
        let taken =
            self.users
                .compare_exchange(FREE, WRITTEN, Ordering::Acquire, Ordering::Relaxed);
        assert!(taken.is_ok(), "a lock is taken while it is in use");
        Only(self)
    }
}

impl<T: Debug> Debug for Cell<T> {
    fn fmt(&self, f: &mut Formatter) -> fmt::Result {
        self.share().deref().fmt(f)
    }
}

/// One of the readers.
struct Shared<'a, T>(&'a Cell<T>);

impl<T> Deref for Shared<'_, T> {
    type Target = T;
    fn deref(&self) -> &T {
        // SAFETY: there is no writer while this is counted.
        unsafe { &*self.0.value.get() }
    }
}

impl<T> Drop for Shared<'_, T> {
    fn drop(&mut self) {
        self.0.users.fetch_sub(1, Ordering::Release);
    }
}

/// The one user.
pub struct Only<'a, T>(&'a Cell<T>);

impl<T> Deref for Only<'_, T> {
    type Target = T;
    fn deref(&self) -> &T {
        // SAFETY: there is no other user.
        unsafe { &*self.0.value.get() }
    }
}

impl<T> DerefMut for Only<'_, T> {
    fn deref_mut(&mut self) -> &mut T {
        // SAFETY: there is no other user.
        unsafe { &mut *self.0.value.get() }
    }
}

impl<T> Drop for Only<'_, T> {
    fn drop(&mut self) {
        self.0.users.store(FREE, Ordering::Release);
    }
}

pub struct Mutex<L: Level, T> {
    cell: Cell<T>,
    level: PhantomData<fn(L)>,
}

pub struct MutexGuard<'a, L: Level, T> {
    value: Only<'a, T>,
    token: LockToken<'a, L>,
}

impl<L: Level, T> Mutex<L, T> {
    pub const fn new(value: T) -> Self {
        Mutex {
            cell: Cell::new(value),
            level: PhantomData,
        }
    }
    pub fn lock<'a, M: Lower<L>>(&'a self, _token: LockToken<'a, M>) -> MutexGuard<'a, L, T> {
        MutexGuard {
            value: self.cell.take(),
            token: LockToken(PhantomData),
        }
    }
}

impl<'a, L: Level, T> MutexGuard<'a, L, T> {
    pub fn token_split(&mut self) -> (&mut T, LockToken<'_, L>) {
        (&mut *self.value, self.token.token())
    }
    pub fn into_split(self) -> (Only<'a, T>, LockToken<'a, L>) {
        (self.value, self.token)
    }
}

impl<L: Level, T> Deref for MutexGuard<'_, L, T> {
    type Target = T;
    fn deref(&self) -> &T {
        &self.value
    }
}

impl<L: Level, T> DerefMut for MutexGuard<'_, L, T> {
    fn deref_mut(&mut self) -> &mut T {
        &mut self.value
    }
}

impl<L: Level, T: Debug> Debug for Mutex<L, T> {
    fn fmt(&self, f: &mut Formatter) -> fmt::Result {
        self.cell.fmt(f)
    }
}

pub struct RwLock<L: Level, T> {
    cell: Cell<T>,
    level: PhantomData<fn(L)>,
}

pub struct RwLockReadGuard<'a, L: Level, T> {
    value: Shared<'a, T>,
    token: LockToken<'a, L>,
}

pub struct RwLockWriteGuard<'a, L: Level, T> {
    value: Only<'a, T>,
    token: LockToken<'a, L>,
}

/// Read now and perhaps written later: nobody else may use it meanwhile.
pub struct RwLockUpgradableGuard<'a, L: Level, T>(RwLockWriteGuard<'a, L, T>);

impl<L: Level, T> RwLock<L, T> {
    pub const fn new(value: T) -> Self {
        RwLock {
            cell: Cell::new(value),
            level: PhantomData,
        }
    }
    pub fn into_inner(self) -> T {
        self.cell.value.into_inner()
    }
    pub fn read<'a, M: Lower<L>>(&'a self, _token: LockToken<'a, M>) -> RwLockReadGuard<'a, L, T> {
        RwLockReadGuard {
            value: self.cell.share(),
            token: LockToken(PhantomData),
        }
    }
    pub fn write<'a, M: Lower<L>>(
        &'a self,
        _token: LockToken<'a, M>,
    ) -> RwLockWriteGuard<'a, L, T> {
        RwLockWriteGuard {
            value: self.cell.take(),
            token: LockToken(PhantomData),
        }
    }
    /// As `write`, beside another lock of the same level.
    pub fn rewrite<'a>(&'a self, token: LockToken<'a, L>) -> RwLockWriteGuard<'a, L, T> {
        RwLockWriteGuard {
            value: self.cell.take(),
            token,
        }
    }
    pub fn upgradeable_read<'a, M: Lower<L>>(
        &'a self,
        token: LockToken<'a, M>,
    ) -> RwLockUpgradableGuard<'a, L, T> {
        RwLockUpgradableGuard(self.write(token))
    }
}

impl<L: Level, T> RwLockReadGuard<'_, L, T> {
    pub fn token_split(&mut self) -> (&T, LockToken<'_, L>) {
        (&*self.value, self.token.token())
    }
}

impl<L: Level, T> RwLockWriteGuard<'_, L, T> {
    pub fn token_split(&mut self) -> (&mut T, LockToken<'_, L>) {
        (&mut *self.value, self.token.token())
    }
}

impl<'a, L: Level, T> RwLockUpgradableGuard<'a, L, T> {
    pub fn upgrade(self) -> RwLockWriteGuard<'a, L, T> {
        self.0
    }
}

impl<L: Level, T> Deref for RwLockReadGuard<'_, L, T> {
    type Target = T;
    fn deref(&self) -> &T {
        &self.value
    }
}

impl<L: Level, T> Deref for RwLockWriteGuard<'_, L, T> {
    type Target = T;
    fn deref(&self) -> &T {
        &self.value
    }
}

impl<L: Level, T> DerefMut for RwLockWriteGuard<'_, L, T> {
    fn deref_mut(&mut self) -> &mut T {
        &mut self.value
    }
}

impl<L: Level, T> Deref for RwLockUpgradableGuard<'_, L, T> {
    type Target = T;
    fn deref(&self) -> &T {
        &self.0
    }
}

impl<L: Level, T: Debug> Debug for RwLock<L, T> {
    fn fmt(&self, f: &mut Formatter) -> fmt::Result {
        self.cell.fmt(f)
    }
}
