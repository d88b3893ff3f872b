//! Contexts: the threads that call, and the driver's.

use std::ops::Deref;
use std::sync::Arc;

use crate::machine;
use crate::sync::{L1, L3, L4, LockToken, RwLock};

#[allow(clippy::module_inception)]
pub mod context;
pub mod memory;
pub mod switch;

include!(concat!(env!("OUT_DIR"), "/file.rs"));

pub use context::{BorrowedHtBuf, Context, LogicalCpuId, Status};
pub use switch::switch;

/// As many files as one file table may hold.
pub const CONTEXT_MAX_FILES: usize = 65_536;

pub type ContextLock = RwLock<L4, Context>;

/// The context that runs now.
pub struct Current(Arc<ContextLock>);

impl Deref for Current {
    type Target = Arc<ContextLock>;
    fn deref(&self) -> &Arc<ContextLock> {
        &self.0
    }
}

pub fn current() -> Current {
    Current(machine::current())
}

pub fn is_current(context: &Arc<ContextLock>) -> bool {
    Arc::ptr_eq(context, &current())
}

/// Makes a blocked context runnable: the effect that wakes a caller.
pub fn unblock_context(context: &Arc<ContextLock>, token: &mut LockToken<'_, L3>) -> bool {
    let mut context = context.write(token.token());
    if let Some((caller, tag)) = context.call {
        machine::cause(1, u64::from(caller), u64::from(tag));
    }
    context.unblock_no_ipi()
}

/// Tells the processor of a context that became runnable. There is but one.
pub fn wakeup_context(
    _context: &Arc<ContextLock>,
    _cpu: Option<LogicalCpuId>,
    _token: &mut LockToken<'_, L3>,
) {
}

/// Keeps a context from being preempted, which never happens here.
pub struct PreemptGuardL1<'a, 'b> {
    token: &'a mut LockToken<'b, L1>,
}

impl<'a, 'b> PreemptGuardL1<'a, 'b> {
    pub fn new(_context: &Arc<ContextLock>, token: &'a mut LockToken<'b, L1>) -> Self {
        PreemptGuardL1 { token }
    }
    pub fn token(&mut self) -> &mut LockToken<'b, L1> {
        self.token
    }
}
