//! Schemes: what one is to the kernel, which are lines of the original, and the user scheme.

use crate::machine;
use crate::sync::CleanLockToken;
use crate::syscall::error::Result;
use syscall::GlobalSchemes;

pub use original::{CallerCtx, KernelScheme, KernelSchemes, OpenResult, SchemeExt, StrOrBytes};

#[allow(warnings, clippy::all)]
mod original {
    use alloc::{sync::Arc, vec::Vec};
    use syscall::{CallFlags, EventFlags, MunmapFlags, StdFsCallKind, data::*, error::*};

    use super::{SchemeId, SchemeList, user::UserScheme};
    use crate::context::{
        file::{InternalFlags, KernelSchemeRef, LockedFileDescription},
        memory::AddrSpaceWrapper,
    };
    use crate::sync::CleanLockToken;
    use crate::syscall::usercopy::{UserSliceRo, UserSliceRw, UserSliceWo};

    include!(concat!(env!("OUT_DIR"), "/scheme.rs"));
}

#[allow(warnings, clippy::all)]
pub mod user {
    include!(concat!(env!("OUT_DIR"), "/user.rs"));

    pub mod probe;
}

/// The scheme of schemes, a scheme inside the kernel, or a user's.
#[derive(Clone, Copy, Debug, PartialEq, Eq)]
pub enum SchemeId {
    Root,
    Kernel(usize),
    User(usize),
}

impl SchemeId {
    pub fn get(self) -> usize {
        match self {
            SchemeId::Root => 0,
            SchemeId::Kernel(id) | SchemeId::User(id) => id,
        }
    }
}

#[derive(Clone, Copy, Debug, PartialEq, Eq)]
pub struct FileHandle(usize);

impl FileHandle {
    pub fn get(self) -> usize {
        self.0
    }
}

impl From<usize> for FileHandle {
    fn from(handle: usize) -> Self {
        FileHandle(handle)
    }
}

/// The scheme of schemes.
struct SchemeList;

impl SchemeList {
    fn id(&self) -> SchemeId {
        SchemeId::Root
    }
}

impl KernelScheme for SchemeList {}

impl SchemeExt for GlobalSchemes {
    fn as_scheme(&self) -> &dyn KernelScheme {
        &HostScheme
    }
    fn scheme_id(self) -> SchemeId {
        SchemeId::Kernel(self as usize)
    }
}

/// The scheme that the host's descriptions belong to. Closing one is an effect.
struct HostScheme;

impl KernelScheme for HostScheme {
    fn close(&self, id: usize, _token: &mut CleanLockToken) -> Result<()> {
        machine::cause(3, id as u64, 0);
        Ok(())
    }
}
