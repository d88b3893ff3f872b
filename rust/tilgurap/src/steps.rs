//! The state's words, and each event put to them in numbers.

use alloc::boxed::Box;

use crate::ffi;
use crate::limits::{ABI, STATE_WORDS};

/// What `generic` and `stdfs` carry.
pub(crate) struct GenericCall<'a> {
    pub caller: u32,
    pub pid: u64,
    pub fds: &'a [u64],
    pub base: u64,
    pub len: u64,
    pub metadata: &'a [u64],
}

/// What `fdwrite` and `fdread` carry beside a list or a length.
pub(crate) struct FdCall<'a> {
    pub caller: u32,
    pub number: u64,
    pub flags: u64,
    pub metadata: &'a [u64],
    pub uid: u32,
    pub gid: u32,
    pub pid: u64,
}

/// The words that each event is lent and changes in place.
#[derive(Clone, PartialEq, Eq)]
pub(crate) struct Steps {
    words: Box<ffi::Words>,
}

/// `generic` and `stdfs` take the same.
type CallGeneric = unsafe extern "C" fn(
    *mut ffi::Words,
    *const u64,
    usize,
    *const u64,
    usize,
    u32,
    u64,
    u64,
    u64,
) -> ffi::StepWords;

impl Steps {
    /// A fresh state, given the scheme's number.
    pub fn new(scheme: u64) -> Steps {
        // SAFETY: it takes nothing.
        let abi = unsafe { ffi::tilgurap_abi() };
        // the build has looked already, where it could run the library
        assert_eq!(abi, ABI, "libtilgurap.a has another interface");
        let mut steps = Steps {
            words: Box::new([0; STATE_WORDS]),
        };
        // SAFETY: numbers alone.
        let fresh = unsafe { ffi::tilgurap_fresh(scheme) };
        steps.store(fresh, &[0; 1024]);
        steps
    }

    fn lent(&mut self) -> *mut ffi::Words {
        &raw mut *self.words
    }

    /// The words become those of this state.
    fn store(&mut self, state: ffi::State, queue: &ffi::QueueWords) {
        // SAFETY: the words are the layer's own, the queue's are there to be read.
        unsafe { ffi::tilgurap_packed(state, queue, self.lent()) }
    }

    fn plain(&self) -> (ffi::State, ffi::QueueWords) {
        let mut queue = [0; 1024];
        // SAFETY: the words are the layer's own, the queue's are there to be written.
        let state = unsafe { ffi::tilgurap_plain(&raw const *self.words, &raw mut queue) };
        (state, queue)
    }

    /// The state as a struct, to be looked at.
    pub fn state(&self) -> ffi::State {
        self.plain().0
    }

    /// Changes the state's fields.
    #[cfg(feature = "parts")]
    pub fn change(&mut self, change: impl FnOnce(&mut ffi::State)) {
        let (mut state, queue) = self.plain();
        change(&mut state);
        self.store(state, &queue);
    }

    pub fn open(&mut self, d: u64) -> ffi::StepWords {
        // SAFETY: the words are the layer's own.
        unsafe { ffi::tilgurap_open(self.lent(), d) }
    }

    pub fn copy(&mut self, d: u64) -> ffi::StepWords {
        // SAFETY: the words are the layer's own.
        unsafe { ffi::tilgurap_copy(self.lent(), d) }
    }

    pub fn drop_one(&mut self, d: u64) -> ffi::StepWords {
        // SAFETY: the words are the layer's own.
        unsafe { ffi::tilgurap_drop(self.lent(), d) }
    }

    pub fn put(&mut self, d: u64, h: u64) -> ffi::StepWords {
        // SAFETY: the words are the layer's own.
        unsafe { ffi::tilgurap_put(self.lent(), d, h) }
    }

    pub fn ended(&mut self, c: u32) -> ffi::StepWords {
        // SAFETY: the words are the layer's own.
        unsafe { ffi::tilgurap_ended(self.lent(), c) }
    }

    pub fn reserve(&mut self, c: u32) -> ffi::StepWords {
        // SAFETY: the words are the layer's own.
        unsafe { ffi::tilgurap_next_id(self.lent(), c) }
    }

    #[allow(clippy::too_many_arguments)]
    pub fn submit(
        &mut self,
        tag: u64,
        c: u32,
        op: u64,
        fl: u8,
        args: [u64; 6],
        pid: u64,
        list: &[u64],
    ) -> ffi::StepWords {
        let (words, tag, args) = (self.lent(), ffi::Tag(tag), ffi::Args(args));
        let (fds, len) = (list.as_ptr(), list.len());
        // SAFETY: the words are the layer's own; the list's pointer goes with its length.
        unsafe { ffi::tilgurap_submit(words, fds, len, tag, c, op, fl, args, pid) }
    }

    #[allow(clippy::too_many_arguments)]
    pub fn call(
        &mut self,
        c: u32,
        op: u64,
        args: [u64; 6],
        uid: u32,
        gid: u32,
        pid: u64,
        list: &[u64],
    ) -> ffi::StepWords {
        let (words, args) = (self.lent(), ffi::Args(args));
        let (fds, len) = (list.as_ptr(), list.len());
        // SAFETY: the words are the layer's own; the list's pointer goes with its length.
        unsafe { ffi::tilgurap_call(words, fds, len, c, op, args, uid, gid, pid) }
    }

    fn call_by(&mut self, function: CallGeneric, call: &GenericCall) -> ffi::StepWords {
        // SAFETY: the words are the layer's own; each list's pointer goes with its length.
        unsafe {
            function(
                self.lent(),
                call.fds.as_ptr(),
                call.fds.len(),
                call.metadata.as_ptr(),
                call.metadata.len(),
                call.caller,
                call.pid,
                call.base,
                call.len,
            )
        }
    }

    pub fn generic(&mut self, call: &GenericCall) -> ffi::StepWords {
        self.call_by(ffi::tilgurap_call_generic, call)
    }

    pub fn stdfs(&mut self, call: &GenericCall) -> ffi::StepWords {
        self.call_by(ffi::tilgurap_translate_std_fs_call, call)
    }

    #[allow(clippy::too_many_arguments)]
    pub fn fmap(
        &mut self,
        c: u32,
        id: u64,
        pages: u64,
        flags: u64,
        uid: u32,
        gid: u32,
        pid: u64,
    ) -> ffi::StepWords {
        let words = self.lent();
        // SAFETY: the words are the layer's own.
        unsafe { ffi::tilgurap_request_fmap(words, c, id, pages, flags, uid, gid, pid) }
    }

    pub fn fdwrite(&mut self, call: &FdCall, list: &[u64]) -> ffi::StepWords {
        // SAFETY: the words are the layer's own; each list's pointer goes with its length.
        unsafe {
            ffi::tilgurap_kfdwrite(
                self.lent(),
                list.as_ptr(),
                list.len(),
                call.metadata.as_ptr(),
                call.metadata.len(),
                call.caller,
                call.number,
                call.flags,
                call.uid,
                call.gid,
                call.pid,
            )
        }
    }

    pub fn fdread(&mut self, call: &FdCall, len: u64) -> ffi::StepWords {
        // SAFETY: the words are the layer's own; the metadata's pointer goes with their length.
        unsafe {
            ffi::tilgurap_kfdread(
                self.lent(),
                call.metadata.as_ptr(),
                call.metadata.len(),
                call.caller,
                call.number,
                len,
                call.flags,
                call.uid,
                call.gid,
                call.pid,
            )
        }
    }

    pub fn close(&mut self, id: u64) -> ffi::StepWords {
        // SAFETY: the words are the layer's own.
        unsafe { ffi::tilgurap_close(self.lent(), id) }
    }

    pub fn detach(&mut self, id: u64, pid: u64) -> ffi::StepWords {
        // SAFETY: the words are the layer's own.
        unsafe { ffi::tilgurap_detach(self.lent(), id, pid) }
    }

    pub fn wake(&mut self, tag: u64, c: u32, killed: u64, base: u64, count: u64) -> ffi::WakeWords {
        let (words, tag) = (self.lent(), ffi::Tag(tag));
        // SAFETY: the words are the layer's own.
        unsafe { ffi::tilgurap_wake(words, tag, c, killed, base, count) }
    }

    /// Bytes of `out` beyond those stored stay as they are.
    pub fn read(&mut self, out: &mut [u8], flags: u32) -> ffi::AnswerWords {
        let (words, at, len) = (self.lent(), out.as_mut_ptr(), out.len());
        // SAFETY: the words are the layer's own; the pointer goes with its length.
        unsafe { ffi::tilgurap_read(words, at, len, flags) }
    }

    /// The answer, and how many of the lent words hold effects, three to each.
    pub fn write(&mut self, fx: &mut [u64], bytes: &[u8]) -> (ffi::AnswerWords, usize) {
        let (words, at, lent) = (self.lent(), fx.as_mut_ptr(), fx.len());
        let (from, len) = (bytes.as_ptr(), bytes.len());
        // SAFETY: the words are the layer's own; each pointer goes with its length.
        let completed = unsafe { ffi::tilgurap_write(words, at, lent, from, len) };
        (completed.answer, completed.words)
    }

    pub fn move_list(&mut self, meta: &[u64], list: &[u64]) -> ffi::StepWords {
        let (words, metadata, fds) = (self.lent(), meta.as_ptr(), list.as_ptr());
        // SAFETY: the words are the layer's own; each pointer comes from the slice whose length goes with it.
        unsafe { ffi::tilgurap_call_fdwrite(words, metadata, meta.len(), fds, list.len()) }
    }

    pub fn obtain(&mut self, meta: &[u64]) -> ffi::StepWords {
        let (words, metadata, len) = (self.lent(), meta.as_ptr(), meta.len());
        // SAFETY: the words are the layer's own; the pointer goes with its length.
        unsafe { ffi::tilgurap_call_fdread(words, metadata, len) }
    }

    pub fn supply(&mut self, tag: u64, offset: u64, base: u64, count: u64) -> ffi::StepWords {
        let (words, tag) = (self.lent(), ffi::Tag(tag));
        // SAFETY: the words are the layer's own.
        unsafe { ffi::tilgurap_provide_mmap(words, tag, offset, base, count) }
    }

    /// Placeholder, outstanding, Responded, Fmap and orphans: one bit a slot, and the count of ones.
    pub fn status(&self) -> [(u64, u64); 5] {
        let mut out = [0; 10];
        // SAFETY: the words are the layer's own, the others are there to be written.
        unsafe { ffi::tilgurap_status(&raw const *self.words, &raw mut out) };
        core::array::from_fn(|of| (out[2 * of], out[2 * of + 1]))
    }
}
