//! Locks, and the original wait queue and wait condition.

mod locks;

include!(concat!(env!("OUT_DIR"), "/wait_condition.rs"));

#[allow(warnings, clippy::all)]
mod wait_queue {
    include!(concat!(env!("OUT_DIR"), "/wait_queue.rs"));

    mod probe;
}

pub use locks::{
    CleanLockToken, L1, L2, L3, L4, L5, L6, LockToken, Mutex, RwLock, RwLockReadGuard,
    RwLockWriteGuard,
};
pub use wait_condition::WaitCondition;
pub use wait_queue::WaitQueue;
