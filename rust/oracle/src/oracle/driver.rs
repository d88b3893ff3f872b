//! The driver's events: it reads entries, writes completions, and moves descriptions.

use script::{Answer, Phase};
use syscall::CallFlags;
use syscall::schemev2::{Cqe, Sqe};

use super::{EFFECT_WORDS, LISTED, Oracle, QUEUE, clean, done};
use crate::machine::OnSwitch;
use crate::memory::VirtualAddress;
use crate::syscall::usercopy::UserSlice;

impl Oracle {
    pub(super) fn read(&mut self, len: u64, flags: u32, bytes: &mut Vec<u8>) -> Answer {
        // no more than the whole queue is stored
        let room = len.min((QUEUE * size_of::<Sqe>()) as u64);
        let mut buffer = vec![0u8; room as usize];
        // SAFETY: the buffer outlives the slice and has room for what the queue holds.
        let slice = unsafe { UserSlice::new(buffer.as_mut_ptr() as usize, len as usize) };
        let read = self.machine.run_until(OnSwitch::Wait, || {
            self.machine
                .kernel(|| self.inner.read(slice, flags, &mut clean()))
        });
        if self.machine.waited() {
            self.driver.write(clean().token()).unblock_no_ipi();
            return Answer::Wait;
        }
        if let Ok(stored) = read {
            buffer.truncate(stored);
            *bytes = buffer;
        }
        done(read)
    }

    pub(super) fn write(&mut self, words: u64, bytes: &[u8]) -> Answer {
        if words < EFFECT_WORDS * (bytes.len() / size_of::<Cqe>()) as u64 {
            return Answer::Skip;
        }
        // SAFETY: the bytes outlive the slice.
        let slice = unsafe { UserSlice::new(bytes.as_ptr() as usize, bytes.len()) };
        let written = || self.inner.write(slice, &mut clean());
        done(self.machine.kernel(written))
    }

    pub(super) fn move_list(&mut self, meta: &[u64], list: &[u64]) -> Answer {
        if !self.is_list(list) || list.len() > LISTED {
            return Answer::Skip;
        }
        let list = self.take(list);
        let moved = || {
            let (flags, token) = (CallFlags::empty(), &mut clean());
            self.inner.call_fdwrite(list, flags, meta, token)
        };
        done(self.machine.kernel(moved))
    }

    /// The files go to a context of their own, so that each finds a place, and from there to
    /// outside hands.
    pub(super) fn obtain(&mut self, meta: &[u64]) -> Answer {
        let listed = meta.get(1).map_or(0, |request| {
            usize::try_from(*request).map_or(0, |request| self.inner.probe_listed(request))
        });
        let mut handles: Vec<usize> = (0..listed).collect();
        let (base, len) = (handles.as_mut_ptr() as usize, size_of_val(&handles[..]));
        // SAFETY: the handles outlive the slice.
        let payload = unsafe { UserSlice::new(base, len) };
        let obtained = self.machine.run_as(&self.receiver, || {
            self.machine.kernel(|| {
                let (flags, token) = (CallFlags::empty(), &mut clean());
                self.inner.call_fdread(payload, flags, meta, token)
            })
        });
        if let Ok(count) = obtained {
            let files = self.receiver.read(clean().token()).files.clone();
            let list = (0..count).map(|h| {
                let file = files.write(clean().token()).remove_file(h.into());
                file.expect("a file that was obtained").description
            });
            let list = list.collect();
            self.give(list);
        }
        done(obtained)
    }

    pub(super) fn supply(&mut self, tag: u64, offset: u64, base: u64, count: u64) -> Answer {
        let Ok(slot) = u32::try_from(tag) else {
            return Answer::Skip;
        };
        let base = VirtualAddress::new(base as usize);
        let supplied = || (self.inner).probe_supply(slot, offset, base, count as usize);
        let supplied = self.machine.kernel(supplied);
        if self.phase(tag) == Phase::Vacant
            && let Some(given) = self.given.get_mut(slot as usize)
        {
            *given = None;
        }
        done(supplied.map(|()| 0))
    }
}
