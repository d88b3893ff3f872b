//! The layer between a plant's scheduler and one of its drivers, for a host in Rust.
//!
//! The host owns a [`Layer`] for each driver and puts every event to it: its callers' calls and
//! wakes, the driver's reads and writes, descriptions opened and callers ended. The layer keeps who
//! waits for what. Each answer is settled by a proof: the functions behind these methods are those of
//! `libtilgurap.a`, which is written only once they are proved (`./tilgurap build`).
//!
//! | to | method |
//! |---|---|
//! | call the driver | [`call`](Layer::call), or [`reserve`](Layer::reserve) and [`submit`](Layer::submit) |
//! | send descriptions with a call, or ask for some | [`kfdwrite`](Layer::kfdwrite), [`kfdread`](Layer::kfdread), and how their replies are read: [`Reply::into_kfdwrite`], [`Reply::into_kfdread`] |
//! | let a driver take its turn | [`serve`](Layer::serve) with a [`Driver`]; one by one [`next_entry`](Layer::next_entry) and [`answer`](Layer::answer) |
//! | hand descriptions over with a reply | [`give_list`](Layer::give_list), [`take_list`](Layer::take_list), [`Call::obtain`] |
//! | pass on the bytes of a driver elsewhere | [`read`](Layer::read), [`write`](Layer::write), [`provide_mmap`](Layer::provide_mmap), [`move_list`](Layer::move_list), [`obtain_list`](Layer::obtain_list) |
//! | fetch a reply | [`wake`](Layer::wake) |
//! | kill a caller | [`kill`](Layer::kill), which is [`wake_killed`](Layer::wake_killed) for each of its calls and [`ended`](Layer::ended) at once |
//! | look | [`status`](Layer::status), [`occupied`](Layer::occupied), [`unread`](Layer::unread) |
//!
//! An accepted event may come with an [`Effect`], which the host has to carry out; a refused one
//! says why by a [`Refusal`]. The limits are constants in [`limits`].
//!
//! A killed call keeps its slot until its driver has replied, so that the late reply never reaches
//! another call:
//!
//! ```
//! use tilgurap::{
//!     Caller, Identity, Killed, Layer, Opcode, Pid, Refusal, SchemeNumber, Span, Taken, Wake,
//! };
//!
//! let mut layer = Layer::new(SchemeNumber(7));
//! let who = |caller: Caller| Identity { uid: 0, gid: 0, pid: Pid(u64::from(caller.0)) };
//! let (dosing, valve) = (Caller(100), Caller(200));
//!
//! let dose = layer.call(dosing, Opcode::Write, [1, 2, 3, 4, 5], who(dosing), &[])?.tag;
//! let Some(Taken::Call(dosed)) = layer.next_entry() else { panic!("a call is queued") };
//! assert_eq!(layer.wake_killed(dose, dosing, Span::NONE), Ok(Killed::Returned));
//!
//! // the valve call gets another slot, and the late reply does not reach it
//! let open = layer.call(valve, Opcode::Write, [9, 0, 0, 0, 0], who(valve), &[])?.tag;
//! assert_ne!(open, dose);
//! assert!(layer.answer(dosed.ok(0)).refused.is_empty());
//! assert!(matches!(layer.wake(open, valve), Ok(Wake::Blocked(_))));
//! # Ok::<(), Refusal>(())
//! ```
//!
//! # What a driver must do
//!
//! - **Reply once to every call, by its tag**, also after a Cancel: the call's slot stays taken until then. The layer
//!   cannot tell a second reply to a tag from the first reply to the tag's next call.
//! - **Reply to nothing else.** CloseMsg and Detach come with tag 0 and no flag and want no reply: one by their tag would
//!   serve the call in slot 0. Cancel bears its call's tag and wants none of its own.
//! - **Supply a map request** ([`MapRequest::supply`]). A reply to it is refused.
//! - **Write on behind a refused entry.** A [`write`](Layer::write) ends at the first one, and those behind it were not
//!   looked at.
//!
//! A [`Driver`] can do no other: what it takes says what it [wants](Wants), a reply is made from a [`Call`], uses it up and
//! goes to the call's own layer, what goes with a call that was replied to is refused, and [`serve`](Layer::serve) passes a
//! refused entry and reports it. So it replies at most once; that it replies at all is its own: a call that it drops waits for good.
//! The host, for its part, calls with no opcode of the layer's own entries: [`call`](Layer::call) and
//! [`submit`](Layer::submit) refuse these. Of bytes and bare tags ([`write`](Layer::write) and the others of that row above)
//! nothing of this can be seen: they are for a driver elsewhere.
//!
//! # Threads
//!
//! A [`Layer`] is `Send` and `Sync`, and takes one event at a time: its methods want `&mut`, so that threads share it behind a
//! lock. Layers share nothing. Between [`next_entry`](Layer::next_entry) and [`answer_for`](Layer::answer_for) the lock need not be
//! held: [`dispatch`] hands an entry to its driver meanwhile, and a [`Call`] may be sent to another thread. Several threads may take
//! entries of one layer; a [`Cancel`] then may come to its driver before the call that it [is for](Cancel::is_for), or after its reply.
//! Effects are carried out in order, and a [wake](Effect::Wake) before its caller calls again: one that comes later would ask for the
//! caller's next call, and cancel it.
//!
//! # Restart
//!
//! A driver that begins anew, or has panicked, has lost its calls, whose slots wait for replies: [`driver_gone`](Layer::driver_gone)
//! fails them all and empties the queue. A host that begins anew makes a fresh layer, of which no tag from before is meant: its drivers begin
//! anew with it.
//!
//! # Stack
//!
//! What the library's functions take of the stack, in bytes, read from its code by `tests/shipped.py`; the gate holds each step to
//! 1 KiB, the functions on the whole state to 16 KiB and the run to 48 KiB:
//!
//! | function | bytes |
//! |---|---|
//! | kfdread | 464 |
//! | kfdwrite | 448 |
//! | submit | 416 |
//! | write | 392 |
//! | call | 384 |
//! | wake | 288 |
//! | move | 256 |
//! | read | 192 |
//! | every other step, the readings, the status words | at most 128 |
//! | a fresh state; its words; the state from its words | 80; 6,832; 13,488 |
//! | a run over bytes | 40,688 |
//!
//! Making a [`Layer`] and what looks into its state ([`slot`](Layer::slot), [`occupied`](Layer::occupied),
//! [`holds`](Layer::holds), [`handle`](Layer::handle), [`kill`](Layer::kill), [`driver_gone`](Layer::driver_gone)) hold copies of the
//! state beside that: a release build took less than 48 KiB in all.
//!
//! # Building
//!
//! The library is taken from the folder that `TILGURAP_LIB` names (an absolute path), or from where `./tilgurap build` puts it in
//! this checkout. One that is missing, foreign, or of another interface than [`limits::ABI`] stops the build with what to do.
//! The crate needs `alloc` and no `std`.
//!
//! With the feature `script` there is also the module `numbers`, on which the tools that run event
//! scripts stand.

#![no_std]
#![deny(missing_docs)]

extern crate alloc;

mod completion;
mod driver;
mod effect;
mod entry;
mod errno;
mod ffi;
mod flags;
mod ids;
mod layer;
pub mod limits;
#[cfg(feature = "script")]
pub mod numbers;
mod opcode;
mod refusal;
mod reply;
mod status;
mod steps;
mod taken;

pub use completion::Completion;
pub use driver::{Answer, Driver, Gone, Refused, Rejected, Served, Supplied, dispatch};
pub use effect::{Effect, EventFlags};
pub use entry::{Cqe, ObtainFlags, RecvFdFlags, SendFdFlags, Sqe, SqeFlags};
pub use errno::{Errno, demux, mux};
pub use flags::CallFlags;
pub use ids::{
    Caller, Description, FileNumber, Handle, Identity, Payload, Pid, SchemeNumber, Span, Tag,
};
pub use layer::{Killed, Layer, Read, Request, Submitted, Wake, WhenEmpty, Written};
pub use opcode::Opcode;
pub use refusal::Refusal;
pub use reply::{Opened, Reply};
pub use status::{Holds, Slot, SlotState, Status, StatusWord};
pub use taken::{Call, Cancel, MapRequest, Supply, Taken, Wants};
