//! The exported functions as they are declared in `crates/tilgurap`, and twins of the structs that
//! cross. A slice crosses as its pointer and its length, an array as its pointer.

// they are those of the crates
#![allow(missing_docs)]

use crate::limits::STATE_WORDS;

#[derive(Clone, Copy, Debug, PartialEq, Eq)]
#[repr(C)]
pub struct Tag(pub u64);

#[derive(Clone, Copy, Debug, PartialEq, Eq)]
#[repr(C)]
pub struct PageSpan {
    pub base: u64,
    pub count: u64,
}

/// `kind` 0 a success, 1 an error, 2 one descriptor, 3 many: they stand in the list beside it.
#[derive(Clone, Copy, Debug, PartialEq, Eq)]
#[repr(C)]
pub struct Reply {
    pub kind: u8,
    pub extra0: u8,
    pub notice: bool,
    pub word: u64,
}

/// A list of descriptions.
#[derive(Clone, Copy, Debug, PartialEq, Eq)]
#[repr(C)]
pub struct List {
    pub at: [u8; 16],
    pub len: u8,
}

/// `state` 0 vacant, 1 Placeholder, 2 Waiting, 3 Responded, 4 Fmap.
#[derive(Clone, Copy, Debug, PartialEq, Eq)]
#[repr(C)]
pub struct Slot {
    pub state: u8,
    pub caller: u32,
    pub canceling: bool,
    pub ended: bool,
    pub returned: bool,
    pub span: PageSpan,
    pub reply: Reply,
    pub fds: List,
}

#[derive(Clone, Copy, Debug, PartialEq, Eq)]
#[repr(C)]
pub struct Holds {
    pub holds: [u64; 64],
    pub outside: [u64; 64],
}

/// The slots, and the chain of vacated ones.
#[derive(Clone, Copy, Debug, PartialEq, Eq)]
#[repr(C)]
pub struct Table {
    pub slots: [Slot; 64],
    pub next: [u64; 64],
    pub head: u64,
    pub holds: Holds,
}

/// 0 for an empty handle, else the description and one.
#[derive(Clone, Copy, Debug, PartialEq, Eq)]
#[repr(C)]
pub struct Handles {
    pub at: [u64; 64],
}

#[derive(Clone, Copy, Debug, PartialEq, Eq)]
#[repr(C)]
pub struct WaitQueue {
    pub first: u64,
    pub len: u64,
}

#[derive(Clone, Copy, Debug, PartialEq, Eq)]
#[repr(C)]
pub struct Driver {
    pub scheme: u64,
    pub handles: Handles,
    pub queue: WaitQueue,
}

#[derive(Clone, Copy, Debug, PartialEq, Eq)]
#[repr(C)]
pub struct State {
    pub driver: Driver,
    pub table: Table,
}

/// `kind` 0 done, 1 refused, 2 would wait, 3 still blocked, 4 a reply.
#[derive(Clone, Copy, Debug, PartialEq, Eq)]
#[repr(C)]
pub struct AnswerWords {
    pub kind: u64,
    pub value: u64,
}

/// Kind 0 is no effect.
#[derive(Clone, Copy, Debug, PartialEq, Eq)]
#[repr(C)]
pub struct Effect {
    pub kind: u64,
    pub a: u64,
    pub b: u64,
}

/// What most events answer, and the effect that they made.
#[derive(Clone, Copy, Debug, PartialEq, Eq)]
#[repr(C)]
pub struct StepWords {
    pub answer: AnswerWords,
    pub effect: Effect,
}

/// What a wake answers: for kind 4 the reply, and the list beside it.
#[derive(Clone, Copy, Debug, PartialEq, Eq)]
#[repr(C)]
pub struct WakeWords {
    pub answer: AnswerWords,
    pub reply: Reply,
    pub fds: List,
    pub effect: Effect,
}

/// What a write answers, and how many of the lent words hold effects, three to each.
#[derive(Clone, Copy, Debug, PartialEq, Eq)]
#[repr(C)]
pub struct Completed {
    pub answer: AnswerWords,
    pub words: usize,
}

#[repr(C)]
pub struct Regular {
    pub answer: AnswerWords,
    pub notice: bool,
}

/// `kind` 0 a number of the scheme's own, 1 a description, 2 refused.
#[repr(C)]
pub struct OpenedWords {
    pub kind: u64,
    pub value: u64,
    pub flags: u8,
}

/// How a run ended: its number, the place in the input, the bytes written.
#[cfg(feature = "script")]
#[derive(Clone, Copy, Debug, PartialEq, Eq)]
#[repr(C)]
pub struct RunEnd {
    pub number: u64,
    pub place: u64,
    pub written: u64,
}

/// A submission entry.
#[derive(Clone, Copy, Debug, PartialEq, Eq)]
#[repr(C)]
pub struct Sqe {
    pub opcode: u8,
    pub sqe_flags: u8,
    pub tag: u32,
    pub args: [u64; 6],
    pub caller: u64,
}

/// A completion entry.
#[derive(Clone, Copy, Debug, PartialEq, Eq)]
#[repr(C)]
pub struct Cqe {
    pub flags: u8,
    pub extra_raw: [u8; 3],
    pub tag: u32,
    pub result: u64,
}

/// Six arguments.
#[derive(Clone, Copy)]
#[repr(C)]
pub struct Args(pub [u64; 6]);

const _: () = assert!(size_of::<Slot>() == 72 && size_of::<List>() == 17);
const _: () = assert!(size_of::<Table>() == 6_152 && size_of::<Driver>() == 536);
const _: () = assert!(size_of::<State>() == 6_688);
const _: () = assert!(size_of::<StepWords>() == 40 && size_of::<WakeWords>() == 80);
const _: () = assert!(size_of::<Completed>() == 24);
const _: () = assert!(size_of::<Regular>() == 24 && size_of::<OpenedWords>() == 24);
const _: () = assert!(size_of::<Args>() == 48);
#[cfg(feature = "script")]
const _: () = assert!(size_of::<RunEnd>() == 24);
const _: () = assert!(size_of::<Sqe>() == 64 && size_of::<Cqe>() == 16);

/// The state, which each step changes in place.
pub type Words = [u64; STATE_WORDS];
/// The queue's words, which stand beside a state that is a struct.
pub type QueueWords = [u64; 1024];

unsafe extern "C" {
    pub fn tilgurap_abi() -> u64;
    pub fn tilgurap_fresh(scheme: u64) -> State;
    pub fn tilgurap_plain(words: *const Words, queue: *mut QueueWords) -> State;
    pub fn tilgurap_packed(s: State, queue: *const QueueWords, words: *mut Words);
    pub fn tilgurap_status(words: *const Words, out: *mut [u64; 10]);
    pub fn tilgurap_open(words: *mut Words, description: u64) -> StepWords;
    pub fn tilgurap_copy(words: *mut Words, description: u64) -> StepWords;
    pub fn tilgurap_drop(words: *mut Words, description: u64) -> StepWords;
    pub fn tilgurap_put(words: *mut Words, description: u64, handle: u64) -> StepWords;
    pub fn tilgurap_ended(words: *mut Words, caller: u32) -> StepWords;
    pub fn tilgurap_next_id(words: *mut Words, caller: u32) -> StepWords;
    pub fn tilgurap_submit(
        words: *mut Words,
        fds: *const u64,
        fds_len: usize,
        tag: Tag,
        caller: u32,
        opcode: u64,
        flags: u8,
        args: Args,
        pid: u64,
    ) -> StepWords;
    pub fn tilgurap_call(
        words: *mut Words,
        fds: *const u64,
        fds_len: usize,
        caller: u32,
        opcode: u64,
        args: Args,
        uid: u32,
        gid: u32,
        pid: u64,
    ) -> StepWords;
    pub fn tilgurap_call_generic(
        words: *mut Words,
        fds: *const u64,
        fds_len: usize,
        metadata: *const u64,
        metadata_len: usize,
        caller: u32,
        pid: u64,
        base: u64,
        len: u64,
    ) -> StepWords;
    pub fn tilgurap_translate_std_fs_call(
        words: *mut Words,
        fds: *const u64,
        fds_len: usize,
        metadata: *const u64,
        metadata_len: usize,
        caller: u32,
        pid: u64,
        base: u64,
        len: u64,
    ) -> StepWords;
    pub fn tilgurap_request_fmap(
        words: *mut Words,
        caller: u32,
        id: u64,
        pages: u64,
        flags: u64,
        uid: u32,
        gid: u32,
        pid: u64,
    ) -> StepWords;
    pub fn tilgurap_kfdwrite(
        words: *mut Words,
        fds: *const u64,
        fds_len: usize,
        metadata: *const u64,
        metadata_len: usize,
        caller: u32,
        number: u64,
        flags: u64,
        uid: u32,
        gid: u32,
        pid: u64,
    ) -> StepWords;
    pub fn tilgurap_kfdread(
        words: *mut Words,
        metadata: *const u64,
        metadata_len: usize,
        caller: u32,
        number: u64,
        len: u64,
        flags: u64,
        uid: u32,
        gid: u32,
        pid: u64,
    ) -> StepWords;
    pub fn tilgurap_close(words: *mut Words, id: u64) -> StepWords;
    pub fn tilgurap_detach(words: *mut Words, id: u64, pid: u64) -> StepWords;
    pub fn tilgurap_wake(
        words: *mut Words,
        tag: Tag,
        caller: u32,
        killed: u64,
        base: u64,
        count: u64,
    ) -> WakeWords;
    pub fn tilgurap_read(
        words: *mut Words,
        out: *mut u8,
        out_len: usize,
        flags: u32,
    ) -> AnswerWords;
    pub fn tilgurap_write(
        words: *mut Words,
        fx: *mut u64,
        fx_len: usize,
        bytes: *const u8,
        bytes_len: usize,
    ) -> Completed;
    pub fn tilgurap_call_fdwrite(
        words: *mut Words,
        metadata: *const u64,
        metadata_len: usize,
        fds: *const u64,
        fds_len: usize,
    ) -> StepWords;
    pub fn tilgurap_call_fdread(
        words: *mut Words,
        metadata: *const u64,
        metadata_len: usize,
    ) -> StepWords;
    pub fn tilgurap_provide_mmap(
        words: *mut Words,
        tag: Tag,
        offset: u64,
        base: u64,
        count: u64,
    ) -> StepWords;
    pub fn tilgurap_into_regular(reply: Reply, fds: List) -> AnswerWords;
    pub fn tilgurap_read_call_generic(reply: Reply, fds: List) -> Regular;
    pub fn tilgurap_read_kfdwrite(reply: Reply, fds: List) -> AnswerWords;
    pub fn tilgurap_read_kfdread(reply: Reply, fds: List) -> AnswerWords;
    pub fn tilgurap_kopenat(reply: Reply, fds: List) -> OpenedWords;
    pub fn tilgurap_kdup(reply: Reply, fds: List) -> OpenedWords;
    pub fn tilgurap_demux(word: u64) -> AnswerWords;
    #[cfg(feature = "script")]
    pub fn tilgurap_run(
        scheme: u64,
        events: *const u8,
        events_len: usize,
        out: *mut u8,
        out_len: usize,
        fx: *mut u64,
        fx_len: usize,
    ) -> RunEnd;
    pub fn tilgurap_mux_error(errno: i32) -> u64;
    pub fn tilgurap_sqe(bytes: *const u8, bytes_len: usize) -> Sqe;
    pub fn tilgurap_cqe(bytes: *const u8, bytes_len: usize) -> Cqe;
    pub fn tilgurap_sqe_bytes(e: Sqe, out: *mut [u8; 64]);
    pub fn tilgurap_cqe_bytes(e: Cqe, out: *mut [u8; 16]);
    pub fn tilgurap_parse_cqe(e: Cqe) -> u64;
}
