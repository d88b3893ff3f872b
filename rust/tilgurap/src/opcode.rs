//! What a submission entry asks a driver for.

use core::fmt::{self, Display, Formatter};

/// What a driver is asked for, by the names of `syscall/src/schemev2.rs`.
#[derive(Clone, Copy, Debug, PartialEq, Eq, Hash)]
#[repr(u8)]
pub enum Opcode {
    /// Close a file.
    Close = 3,
    /// Open a file again.
    Dup = 4,
    /// Read from a file.
    Read = 5,
    /// Write to a file.
    Write = 6,
    /// A file's size.
    Fsize = 7,
    /// Change a file's mode.
    Fchmod = 8,
    /// Change a file's owner.
    Fchown = 9,
    /// A file's flags.
    Fcntl = 10,
    /// Ask for events of a file.
    Fevent = 11,
    /// Send descriptors.
    Sendfd = 12,
    /// A file's path.
    Fpath = 13,
    /// Rename a file.
    Frename = 14,
    /// A file's data.
    Fstat = 15,
    /// A file system's data.
    Fstatvfs = 16,
    /// Write out what is buffered.
    Fsync = 17,
    /// Set a file's length.
    Ftruncate = 18,
    /// Set a file's times.
    Futimens = 19,
    /// Get ready to map a file.
    MmapPrep = 20,
    /// A map request.
    RequestMmap = 21,
    /// Map anew.
    Mremap = 22,
    /// Unmap.
    Munmap = 23,
    /// Write a mapping out.
    Msync = 24,
    /// Give the call with this tag up.
    Cancel = 25,
    /// List a folder.
    Getdents = 26,
    /// A file's last descriptor was closed.
    CloseMsg = 27,
    /// A call of the driver's own kind.
    Call = 28,
    /// Open a path.
    OpenAt = 29,
    /// Link a file.
    Flink = 30,
    /// Receive descriptors.
    Recvfd = 31,
    /// Remove a path.
    UnlinkAt = 32,
    /// A standard file system call.
    StdFsCall = 33,
    /// A descriptor was detached from its file.
    Detach = 34,
}

/// In order, from 3 on.
const OPCODES: [Opcode; 32] = [
    Opcode::Close,
    Opcode::Dup,
    Opcode::Read,
    Opcode::Write,
    Opcode::Fsize,
    Opcode::Fchmod,
    Opcode::Fchown,
    Opcode::Fcntl,
    Opcode::Fevent,
    Opcode::Sendfd,
    Opcode::Fpath,
    Opcode::Frename,
    Opcode::Fstat,
    Opcode::Fstatvfs,
    Opcode::Fsync,
    Opcode::Ftruncate,
    Opcode::Futimens,
    Opcode::MmapPrep,
    Opcode::RequestMmap,
    Opcode::Mremap,
    Opcode::Munmap,
    Opcode::Msync,
    Opcode::Cancel,
    Opcode::Getdents,
    Opcode::CloseMsg,
    Opcode::Call,
    Opcode::OpenAt,
    Opcode::Flink,
    Opcode::Recvfd,
    Opcode::UnlinkAt,
    Opcode::StdFsCall,
    Opcode::Detach,
];

impl Opcode {
    /// The opcode of this number, where it is one: 3 to 34.
    pub fn new(number: u64) -> Option<Opcode> {
        let place = usize::try_from(number.checked_sub(3)?).ok()?;
        OPCODES.get(place).copied()
    }

    /// 3 to 34.
    pub fn number(self) -> u8 {
        self as u8
    }
}

impl Display for Opcode {
    fn fmt(&self, f: &mut Formatter) -> fmt::Result {
        write!(f, "{self:?}")
    }
}

#[cfg(test)]
mod tests {
    use super::*;

    #[test]
    fn an_opcode_has_its_own_number() {
        for number in 0..=300 {
            let opcode = Opcode::new(number);
            assert_eq!(opcode.is_some(), (3..=34).contains(&number));
            assert!(opcode.is_none_or(|opcode| u64::from(opcode.number()) == number));
        }
    }
}
