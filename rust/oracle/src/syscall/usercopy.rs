//! Slices of user memory. Users share the oracle's own memory here, so an address is an address.

use crate::syscall::error::{EINVAL, Error, Result};

/// Memory of a user that may be read, written or both.
#[derive(Clone, Copy)]
pub struct UserSlice<const READ: bool, const WRITE: bool> {
    base: usize,
    len: usize,
    captured: bool,
}

pub type UserSliceRo = UserSlice<true, false>;
pub type UserSliceWo = UserSlice<false, true>;
pub type UserSliceRw = UserSlice<true, true>;

impl<const READ: bool, const WRITE: bool> UserSlice<READ, WRITE> {
    /// # Safety
    /// So many bytes at that address can be read or written, as the type says, as long as the
    /// slice is used; fewer, where the user of the slice takes fewer.
    pub unsafe fn new(base: usize, len: usize) -> Self {
        let captured = false;
        UserSlice {
            base,
            len,
            captured,
        }
    }

    /// A payload that a script says is captured at this address, with this length. It is there
    /// to be named in an entry, whatever its length, and never read or written.
    pub fn captured(base: usize, len: usize) -> Self {
        let captured = true;
        UserSlice {
            base,
            len,
            captured,
        }
    }

    pub fn addr(&self) -> usize {
        self.base
    }
    pub fn len(&self) -> usize {
        self.len
    }
    pub fn is_empty(&self) -> bool {
        self.len == 0 && !self.captured
    }

    fn at<const R: bool, const W: bool>(&self, offset: usize, len: usize) -> UserSlice<R, W> {
        UserSlice {
            base: self.base.wrapping_add(offset),
            len,
            captured: self.captured,
        }
    }
    pub fn reinterpret_unchecked<const R: bool, const W: bool>(self) -> UserSlice<R, W> {
        self.at(0, self.len)
    }
    pub fn into_wo(self) -> Result<UserSliceWo> {
        if WRITE {
            Ok(self.reinterpret_unchecked())
        } else {
            Err(Error::new(EINVAL))
        }
    }
    pub fn advance(self, by: usize) -> Option<Self> {
        Some(self.at(by, self.len.checked_sub(by)?))
    }
    pub fn split_at(self, at: usize) -> Option<(Self, Self)> {
        Some((self.at(0, at), self.advance(at)?))
    }

    /// Whole chunks of that length; what is left over is no chunk.
    pub fn in_exact_chunks(self, len: usize) -> impl Iterator<Item = Self> {
        (0..self.len / len).map(move |i| self.at(i * len, len))
    }
}

impl<const WRITE: bool> UserSlice<true, WRITE> {
    pub fn copy_to_slice(self, to: &mut [u8]) -> Result<()> {
        if self.captured || to.len() != self.len {
            return Err(Error::new(EINVAL));
        }
        // SAFETY: by `new`.
        unsafe { (self.base as *const u8).copy_to(to.as_mut_ptr(), to.len()) };
        Ok(())
    }

    /// # Safety
    /// Any bytes make a `T`.
    pub unsafe fn read_exact<T>(self) -> Result<T> {
        if self.captured || self.len != size_of::<T>() {
            return Err(Error::new(EINVAL));
        }
        // SAFETY: by `new` and by the caller.
        Ok(unsafe { (self.base as *const T).read_unaligned() })
    }

    pub fn usizes(self) -> impl Iterator<Item = Result<usize>> {
        self.in_exact_chunks(size_of::<usize>())
            // SAFETY: any bytes make a number.
            .map(|chunk| unsafe { chunk.read_exact::<usize>() })
    }
}

impl<const READ: bool> UserSlice<READ, true> {
    pub fn copy_from_slice(self, from: &[u8]) -> Result<()> {
        if from.len() != self.len {
            return Err(Error::new(EINVAL));
        }
        self.copy_common_bytes_from_slice(from).map(|_| ())
    }

    /// As many bytes as both have.
    pub fn copy_common_bytes_from_slice(self, from: &[u8]) -> Result<usize> {
        if self.captured {
            return Err(Error::new(EINVAL));
        }
        let len = from.len().min(self.len);
        // SAFETY: by `new`.
        unsafe { (self.base as *mut u8).copy_from(from.as_ptr(), len) };
        Ok(len)
    }
}
