//! The scheduler's switch: whoever runs gives way.

use std::sync::Arc;

use super::ContextLock;
use crate::machine;
use crate::sync::CleanLockToken;

pub fn switch(_token: &mut CleanLockToken) {
    machine::give_way();
}

/// A switch that would rather go to the driver. Here the script says who runs next.
pub fn direct_switch_to(_to: Arc<ContextLock>, token: &mut CleanLockToken) {
    switch(token);
}
