//! The kernel's events. A trigger is an effect: of the root scheme, for the queue, or of the
//! scheme itself, for a completion entry.

use crate::machine;
use crate::scheme::SchemeId;
use crate::sync::{CleanLockToken, L1, LockToken};
use crate::syscall::flag::EventFlags;

fn triggered(scheme: SchemeId, number: usize, flags: EventFlags) {
    let kind = if scheme == SchemeId::Root { 5 } else { 4 };
    machine::cause(kind, number as u64, flags.bits() as u64);
}

pub fn trigger(scheme: SchemeId, number: usize, flags: EventFlags, _token: &mut CleanLockToken) {
    triggered(scheme, number, flags);
}

pub fn trigger_locked(
    scheme: SchemeId,
    number: usize,
    flags: EventFlags,
    _token: LockToken<'_, L1>,
) {
    triggered(scheme, number, flags);
}

pub fn unregister_file(_scheme: SchemeId, _number: usize, _token: &mut CleanLockToken) {}
