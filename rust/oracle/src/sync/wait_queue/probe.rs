//! A look at the queue from outside.

use crate::sync::CleanLockToken;

impl<T: Copy> super::WaitQueue<T> {
    pub fn queued(&self, token: &mut CleanLockToken) -> usize {
        self.inner.lock(token.token()).len()
    }

    /// The entry that came last.
    pub fn newest(&self, token: &mut CleanLockToken) -> Option<T> {
        self.inner.lock(token.token()).back().copied()
    }

    pub fn clear(&self, token: &mut CleanLockToken) {
        self.inner.lock(token.token()).clear();
    }
}
