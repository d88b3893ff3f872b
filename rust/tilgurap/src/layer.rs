//! One layer: its state, and a method for each event.

use alloc::vec;
use alloc::vec::Vec;
use core::fmt::{self, Debug, Formatter};
use core::iter;

use crate::effect::Effect;
use crate::entry::{Cqe, Sqe, SqeFlags};
use crate::ffi;
use crate::flags::CallFlags;
use crate::ids::{
    Caller, Description, FileNumber, Handle, Identity, Payload, Pid, SchemeNumber, Span, Tag,
};
use crate::limits::{EFFECT_WORDS, SLOTS};
use crate::opcode::Opcode;
use crate::refusal::{Refusal, refusal};
use crate::reply::Reply;
use crate::status::{Holds, Slot, SlotState, Status, StatusWord};
use crate::steps::{FdCall, GenericCall, Steps};
use crate::taken::{Serial, Serials, Taken, Wants};

const NONBLOCK: u32 = 0x0004_0000;

/// An entry was queued under this tag, and the effect has to be carried out.
#[derive(Clone, Copy, Debug, PartialEq, Eq)]
#[must_use = "its effect is the host's to carry out"]
pub struct Submitted {
    /// What the call is known by from now on.
    pub tag: Tag,
    /// The driver's queue has something to read.
    pub effect: Effect,
}

/// What a reserved slot is submitted with.
#[derive(Clone, Copy, Debug, PartialEq, Eq)]
pub struct Request {
    /// What is asked for.
    pub opcode: Opcode,
    /// The entry's flags.
    pub flags: SqeFlags,
    /// Six arguments, as they are.
    pub args: [u64; 6],
    /// The caller's process.
    pub pid: Pid,
}

/// What a woken caller finds.
#[derive(Clone, Debug, PartialEq, Eq)]
#[must_use]
pub enum Wake {
    /// No reply yet: the caller goes on waiting. The first such wake has queued a Cancel for the
    /// driver, and its effect has to be carried out.
    Blocked(Option<Effect>),
    /// The reply. The slot is vacant again.
    Replied(Reply),
}

/// What a killed caller leaves.
#[derive(Clone, Debug, PartialEq, Eq)]
#[must_use]
pub enum Killed {
    /// Its call has returned, with EINTR where somebody asks. Its slot stays taken until the driver has replied.
    Returned,
    /// The reply was there. The slot is vacant again.
    Replied(Reply),
}

/// What to do at an empty queue.
#[derive(Clone, Copy, Debug, PartialEq, Eq)]
pub enum WhenEmpty {
    /// The driver would wait: [`Read::WouldWait`].
    Wait,
    /// The driver goes on: [`Refusal::Eagain`]; [`Refusal::Einval`] for less than a whole entry.
    Refuse,
}

/// What a read gave.
#[derive(Clone, Copy, Debug, PartialEq, Eq)]
#[must_use]
pub enum Read {
    /// So many bytes were stored.
    Stored(usize),
    /// The queue is empty: the host lets the driver wait.
    WouldWait,
}

/// What a write did. The effects have to be carried out, in order, also those of a refused write.
#[derive(Clone, Debug, PartialEq, Eq)]
#[must_use]
pub struct Written {
    /// The bytes of the entries that were accepted, or why the first was not. Where it is less
    /// than was written, the next entry was refused and those behind it were not looked at.
    pub answer: Result<usize, Refusal>,
    /// What the host has to do.
    pub effects: Vec<Effect>,
}

/// The layer between one driver and its callers.
///
/// It holds 64 slots, one for each call under way, and a queue of 128 entries for the driver. It
/// does nothing by itself: each method is one event, and what the host has to do about it comes
/// back as an [`Effect`]. Two layers are equal where every word of their states is, also those of
/// entries that were read.
///
/// ```
/// use tilgurap::{
///     Caller, Effect, Identity, Layer, Opcode, Pid, SchemeNumber, Submitted, Taken, Wake,
/// };
///
/// let mut layer = Layer::new(SchemeNumber(7));
/// let dosing = Caller(100);
/// let who = Identity { uid: 0, gid: 0, pid: Pid(100) };
///
/// // the scheduler calls
/// let Submitted { tag, .. } = layer.call(dosing, Opcode::Write, [1, 2, 3, 4, 5], who, &[])?;
///
/// // the driver takes the call and replies
/// let Some(Taken::Call(call)) = layer.next_entry() else { panic!("a call is queued") };
/// assert_eq!((call.opcode(), call.tag()), (Some(Opcode::Write), tag));
/// let served = layer.answer(call.ok(3));
/// assert_eq!(served.effects, [Effect::Wake { caller: dosing, tag }]);
///
/// // the scheduler wakes the caller, which fetches its reply
/// let Wake::Replied(reply) = layer.wake(tag, dosing)? else { panic!("no reply") };
/// assert_eq!(reply.into_regular(), Ok(3));
/// # Ok::<(), tilgurap::Refusal>(())
/// ```
pub struct Layer {
    pub(crate) steps: Steps,
    pub(crate) taken: Serials,
}

/// A copy has the state, with the unread entries, and none of the calls that were taken: they are the first one's to answer. It is for
/// looking: a driver at both would take the unread calls twice.
impl Clone for Layer {
    fn clone(&self) -> Layer {
        Layer {
            steps: self.steps.clone(),
            taken: Serials::none(),
        }
    }
}

impl PartialEq for Layer {
    fn eq(&self, other: &Layer) -> bool {
        self.steps == other.steps
    }
}

impl Eq for Layer {}

impl Debug for Layer {
    fn fmt(&self, f: &mut Formatter) -> fmt::Result {
        f.debug_struct("Layer")
            .field("scheme", &self.scheme())
            .field("status", &self.status())
            .finish_non_exhaustive()
    }
}

fn done(step: &ffi::StepWords) -> Result<u64, Refusal> {
    match step.answer.kind {
        0 => Ok(step.answer.value),
        1 => Err(refusal(step.answer.value)),
        kind => unreachable!("{kind} is no such event's answer"),
    }
}

fn effect(effect: ffi::Effect) -> Option<Effect> {
    Effect::from_words([effect.kind, effect.a, effect.b])
}

/// An accepted event that queued an entry.
fn queued(step: ffi::StepWords) -> Result<(u64, Effect), Refusal> {
    let value = done(&step)?;
    let effect = effect(step.effect).expect("an entry that is queued makes an effect");
    Ok((value, effect))
}

/// An entry that wants no reply is the layer's own: the layer would queue a caller's too, and a driver take it for one.
fn callers_own(opcode: Opcode) -> Result<(), Refusal> {
    match Wants::of(Some(opcode)) {
        Wants::Reply => Ok(()),
        Wants::Supply | Wants::Nothing => Err(Refusal::Einval),
    }
}

fn numbers(list: &[Description]) -> Vec<u64> {
    list.iter().map(|description| description.0).collect()
}

fn file_numbers(files: &[FileNumber]) -> Vec<u64> {
    files.iter().map(|file| file.0).collect()
}

fn generic_call<'a>(
    caller: Caller,
    pid: Pid,
    fds: &'a [u64],
    payload: Payload,
    metadata: &'a [u64],
) -> GenericCall<'a> {
    GenericCall {
        caller: caller.0,
        pid: pid.0,
        fds,
        base: payload.base,
        len: payload.len,
        metadata,
    }
}

fn fd_call(
    caller: Caller,
    file: FileNumber,
    flags: CallFlags,
    metadata: &[u64],
    who: Identity,
) -> FdCall<'_> {
    FdCall {
        caller: caller.0,
        number: file.0,
        flags: flags.bits(),
        metadata,
        uid: who.uid,
        gid: who.gid,
        pid: who.pid.0,
    }
}

impl Layer {
    /// A fresh layer: every slot vacant, the queue and the handles empty, no description open.
    pub fn new(scheme: SchemeNumber) -> Layer {
        Layer {
            steps: Steps::new(scheme.0),
            taken: Serials::none(),
        }
    }

    /// An entry was queued under a tag, which is no earlier call's any more.
    fn submitted(&mut self, step: ffi::StepWords) -> Result<Submitted, Refusal> {
        let (tag, effect) = queued(step)?;
        let tag = Tag(tag);
        self.taken.set(tag, Serial::NONE);
        Ok(Submitted { tag, effect })
    }

    /// The host opens a description that is not open, with one outside hold.
    ///
    /// Refused: [`OutOfRules`](Refusal::OutOfRules).
    pub fn open(&mut self, description: Description) -> Result<(), Refusal> {
        done(&self.steps.open(description.0)).map(drop)
    }

    /// The host copies an outside hold of an open description.
    ///
    /// Refused: [`OutOfRules`](Refusal::OutOfRules), [`HoldsFull`](Refusal::HoldsFull).
    pub fn copy(&mut self, description: Description) -> Result<(), Refusal> {
        done(&self.steps.copy(description.0)).map(drop)
    }

    /// The host drops one of its outside holds. With the last hold the description is no longer
    /// open; the host, which dropped it, is not told to close it.
    ///
    /// Refused: [`OutOfRules`](Refusal::OutOfRules).
    pub fn drop_hold(&mut self, description: Description) -> Result<(), Refusal> {
        done(&self.steps.drop_one(description.0)).map(drop)
    }

    /// The host puts one of its outside holds into an empty handle of the driver's.
    ///
    /// Refused: [`OutOfRules`](Refusal::OutOfRules).
    pub fn put(&mut self, description: Description, handle: Handle) -> Result<(), Refusal> {
        done(&self.steps.put(description.0, handle.0)).map(drop)
    }

    /// The host reports that a caller has ended. Its slots are marked: nobody is woken for them, and
    /// the driver's reply vacates them. A reply that is there already stays, and its slot with it, since nobody can
    /// fetch it any more: [`kill`](Layer::kill) fetches it before. So does a slot that was reserved and not submitted.
    pub fn ended(&mut self, caller: Caller) {
        let answered = done(&self.steps.ended(caller.0));
        debug_assert_eq!(answered, Ok(0));
    }

    /// Gives a slot out to a caller, to be [submitted](Layer::submit) later.
    ///
    /// Refused: [`NoVacantSlot`](Refusal::NoVacantSlot).
    pub fn reserve(&mut self, caller: Caller) -> Result<Tag, Refusal> {
        done(&self.steps.reserve(caller.0)).map(Tag)
    }

    /// Submits a reserved slot's call: its entry is queued as it is, and the call waits. The
    /// descriptions are taken from the host's outside holds.
    ///
    /// Refused: [`Einval`](Refusal::Einval) for the opcodes of the entries that the layer itself queues (RequestMmap,
    /// Cancel, CloseMsg, Detach), which a driver could not tell from those; [`OutOfRules`](Refusal::OutOfRules), [`ManyDescriptions`](Refusal::ManyDescriptions),
    /// [`NotThisCallers`](Refusal::NotThisCallers), [`QueueFull`](Refusal::QueueFull).
    pub fn submit(
        &mut self,
        tag: Tag,
        caller: Caller,
        request: Request,
        list: &[Description],
    ) -> Result<Submitted, Refusal> {
        callers_own(request.opcode)?;
        let step = self.steps.submit(
            tag.0,
            caller.0,
            u64::from(request.opcode.number()),
            request.flags.bits(),
            request.args,
            request.pid.0,
            &numbers(list),
        );
        self.submitted(step)
    }

    /// Gives a slot out and submits it in one. The entry's sixth argument is the caller's uid and
    /// gid. The descriptions are taken from the host's outside holds.
    ///
    /// Refused: [`Einval`](Refusal::Einval) as in [`submit`](Layer::submit); [`OutOfRules`](Refusal::OutOfRules), [`ManyDescriptions`](Refusal::ManyDescriptions),
    /// [`NoVacantSlot`](Refusal::NoVacantSlot), [`QueueFull`](Refusal::QueueFull).
    pub fn call(
        &mut self,
        caller: Caller,
        opcode: Opcode,
        args: [u64; 5],
        who: Identity,
        list: &[Description],
    ) -> Result<Submitted, Refusal> {
        callers_own(opcode)?;
        let [a, b, c, d, e] = args;
        let step = self.steps.call(
            caller.0,
            u64::from(opcode.number()),
            [a, b, c, d, e, 0],
            who.uid,
            who.gid,
            who.pid.0,
            &numbers(list),
        );
        self.submitted(step)
    }

    /// A call of the driver's own kind (`Opcode::Call`) about one or two files. Of the metadata the
    /// first three words go along with one file, the first two with two.
    ///
    /// Refused: [`Einval`](Refusal::Einval) for no file or more than two,
    /// [`NoVacantSlot`](Refusal::NoVacantSlot), [`QueueFull`](Refusal::QueueFull).
    pub fn call_generic(
        &mut self,
        caller: Caller,
        pid: Pid,
        files: &[FileNumber],
        payload: Payload,
        metadata: &[u64],
    ) -> Result<Submitted, Refusal> {
        let fds = file_numbers(files);
        let call = generic_call(caller, pid, &fds, payload, metadata);
        let step = self.steps.generic(&call);
        self.submitted(step)
    }

    /// A standard file system call (`Opcode::StdFsCall`), as [`call_generic`](Layer::call_generic).
    /// The metadata are its kind, 1 to 8 or 10 to 16, and two arguments.
    ///
    /// Refused: [`Einval`](Refusal::Einval) for fewer than three words,
    /// [`Eopnotsupp`](Refusal::Eopnotsupp) for another kind, then as there.
    pub fn translate_std_fs_call(
        &mut self,
        caller: Caller,
        pid: Pid,
        files: &[FileNumber],
        payload: Payload,
        metadata: &[u64],
    ) -> Result<Submitted, Refusal> {
        let fds = file_numbers(files);
        let call = generic_call(caller, pid, &fds, payload, metadata);
        let step = self.steps.stdfs(&call);
        self.submitted(step)
    }

    /// Sends descriptions with a call about a file (`Opcode::Sendfd`), taken from the host's outside holds. The driver is told the file,
    /// the [flags](crate::SendFdFlags) that it is to know of, the first word of metadata (0 where there is none), and how many come along.
    /// [`Reply::into_kfdwrite`] reads the reply.
    ///
    /// Refused: [`OutOfRules`](Refusal::OutOfRules), [`ManyDescriptions`](Refusal::ManyDescriptions),
    /// [`NoVacantSlot`](Refusal::NoVacantSlot), [`QueueFull`](Refusal::QueueFull).
    ///
    /// ```
    /// use tilgurap::{
    ///     CallFlags, Caller, Description, FileNumber, Identity, Layer, Opcode, Pid, SchemeNumber,
    ///     SendFdFlags, Taken, Wake,
    /// };
    ///
    /// let mut layer = Layer::new(SchemeNumber(7));
    /// let (gauge, tank) = (Caller(100), Description(3));
    /// let who = Identity { uid: 0, gid: 0, pid: Pid(100) };
    /// layer.open(tank)?;
    /// let sent = layer.kfdwrite(gauge, FileNumber(9), CallFlags::FD_EXCLUSIVE, &[44], who, &[tank])?;
    ///
    /// let Some(Taken::Call(call)) = layer.next_entry() else { panic!("a call is queued") };
    /// assert_eq!(call.opcode(), Some(Opcode::Sendfd));
    /// assert_eq!(call.args()[..4], [9, SendFdFlags::EXCLUSIVE.bits(), 44, 1]);
    /// assert_eq!(layer.take_list(&call), Ok(1));
    /// assert!(layer.answer(call.ok(0)).refused.is_empty());
    ///
    /// let Wake::Replied(reply) = layer.wake(sent.tag, gauge)? else { panic!("no reply") };
    /// assert_eq!(reply.into_kfdwrite(), Ok(0));
    /// # Ok::<(), tilgurap::Refusal>(())
    /// ```
    pub fn kfdwrite(
        &mut self,
        caller: Caller,
        file: FileNumber,
        flags: CallFlags,
        metadata: &[u64],
        who: Identity,
        list: &[Description],
    ) -> Result<Submitted, Refusal> {
        let call = fd_call(caller, file, flags, metadata, who);
        let step = self.steps.fdwrite(&call, &numbers(list));
        self.submitted(step)
    }

    /// Asks for descriptions by a call about a file (`Opcode::Recvfd`), with room for as many as `len` bytes hold, eight for each. The
    /// driver is told the file, the [flags](crate::RecvFdFlags) that it is to know of, how many there is room for, and two words of
    /// metadata (0 where there are fewer). [`Reply::into_kfdread`] reads the reply.
    ///
    /// Refused: [`Einval`](Refusal::Einval) for a length that is no multiple of 8,
    /// [`NoVacantSlot`](Refusal::NoVacantSlot), [`QueueFull`](Refusal::QueueFull).
    ///
    /// ```
    /// use tilgurap::{
    ///     CallFlags, Caller, Description, FileNumber, Identity, Layer, Opcode, Pid, SchemeNumber,
    ///     Taken, Wake,
    /// };
    ///
    /// let mut layer = Layer::new(SchemeNumber(7));
    /// let (scheduler, tank) = (Caller(100), Description(3));
    /// let who = Identity { uid: 0, gid: 0, pid: Pid(100) };
    /// let asked = layer.kfdread(scheduler, FileNumber(9), 16, CallFlags::NONE, &[44], who)?;
    ///
    /// // there is room for two, and the driver gives one
    /// let Some(Taken::Call(call)) = layer.next_entry() else { panic!("a call is queued") };
    /// assert_eq!(call.opcode(), Some(Opcode::Recvfd));
    /// assert_eq!(call.args()[..5], [9, 0, 2, 44, 0]);
    /// layer.open(tank)?;
    /// layer.give_list(&call, &[tank])?;
    /// assert!(layer.answer(call.many()).refused.is_empty());
    ///
    /// let Wake::Replied(reply) = layer.wake(asked.tag, scheduler)? else { panic!("no reply") };
    /// assert_eq!(reply.descriptions(), [tank]);
    /// assert_eq!(reply.into_kfdread(), Ok(1));
    /// # Ok::<(), tilgurap::Refusal>(())
    /// ```
    pub fn kfdread(
        &mut self,
        caller: Caller,
        file: FileNumber,
        len: u64,
        flags: CallFlags,
        metadata: &[u64],
        who: Identity,
    ) -> Result<Submitted, Refusal> {
        let call = fd_call(caller, file, flags, metadata, who);
        let step = self.steps.fdread(&call, len);
        self.submitted(step)
    }

    /// Asks the driver for a mapping of a file. It is no call: no reply serves it, and
    /// [map supply](Layer::provide_mmap) alone vacates its slot.
    ///
    /// Refused: [`NoVacantSlot`](Refusal::NoVacantSlot), [`QueueFull`](Refusal::QueueFull).
    pub fn request_fmap(
        &mut self,
        caller: Caller,
        file: FileNumber,
        pages: u64,
        flags: u64,
        who: Identity,
    ) -> Result<Submitted, Refusal> {
        let step = (self.steps).fmap(caller.0, file.0, pages, flags, who.uid, who.gid, who.pid.0);
        self.submitted(step)
    }

    /// Tells the driver that a file of its was closed. Nobody waits for a reply. The effect has to
    /// be carried out.
    ///
    /// Refused: [`QueueFull`](Refusal::QueueFull).
    pub fn close(&mut self, file: FileNumber) -> Result<Effect, Refusal> {
        queued(self.steps.close(file.0)).map(|(_, effect)| effect)
    }

    /// Tells the driver that a descriptor of a file of its was detached. Nobody waits for a reply.
    /// The effect has to be carried out.
    ///
    /// Refused: [`QueueFull`](Refusal::QueueFull).
    pub fn detach(&mut self, file: FileNumber, pid: Pid) -> Result<Effect, Refusal> {
        queued(self.steps.detach(file.0, pid.0)).map(|(_, effect)| effect)
    }

    /// A caller was woken: it fetches its call's reply, or goes on waiting. Woken without a
    /// reply for the first time, it asks the driver to give the call up.
    ///
    /// Refused: [`Ebadfd`](Refusal::Ebadfd) where no call waits under this tag,
    /// [`NotThisCallers`](Refusal::NotThisCallers), [`QueueFull`](Refusal::QueueFull) where there
    /// is no room for the Cancel.
    pub fn wake(&mut self, tag: Tag, caller: Caller) -> Result<Wake, Refusal> {
        let woken = self.steps.wake(tag.0, caller.0, 0, 0, 0);
        match woken.answer.kind {
            3 => Ok(Wake::Blocked(effect(woken.effect))),
            4 => Ok(Wake::Replied(Reply::from_stored(woken.reply, &woken.fds))),
            _ => Err(refusal(woken.answer.value)),
        }
    }

    /// A caller was killed. It still fetches a reply that is there. Else its call returns: its slot is not given out
    /// again until the driver has replied, and the pages in the span are unmapped then.
    ///
    /// Report the caller as [`ended`](Layer::ended) before the driver writes again, or its reply is kept for nobody:
    /// [`kill`](Layer::kill) does both.
    ///
    /// Refused: as [`wake`](Layer::wake) but for a full queue.
    pub fn wake_killed(&mut self, tag: Tag, caller: Caller, span: Span) -> Result<Killed, Refusal> {
        let woken = (self.steps).wake(tag.0, caller.0, 1, span.base, span.count);
        match woken.answer.kind {
            4 => Ok(Killed::Replied(Reply::from_stored(woken.reply, &woken.fds))),
            _ => match refusal(woken.answer.value) {
                Refusal::Eintr => Ok(Killed::Returned),
                refused => Err(refused),
            },
        }
    }

    /// Kills a caller: of each of its calls the reply is fetched, or the call returns and its slot stays taken until the
    /// driver has replied; then it is reported as [`ended`](Layer::ended). No reply can come in between. `span` says which
    /// pages a call that returns had lent, and is asked before anything is done. What the replies hold is the host's to drop;
    /// a [wake](Effect::Wake) for this caller that was not carried out is to be forgotten.
    ///
    /// Calls that had returned before are left out; so are reserved slots, which stay taken, and map requests, whose supply is
    /// answered with [`Esrch`](Refusal::Esrch).
    ///
    /// ```
    /// use tilgurap::{Caller, Identity, Killed, Layer, Opcode, Pid, SchemeNumber, Span, Taken};
    ///
    /// let mut layer = Layer::new(SchemeNumber(7));
    /// let who = Identity { uid: 0, gid: 0, pid: Pid(100) };
    /// let dose = layer.call(Caller(100), Opcode::Write, [2, 20, 0, 0, 0], who, &[])?.tag;
    /// let Some(Taken::Call(call)) = layer.next_entry() else { panic!("a call is queued") };
    /// assert_eq!(layer.kill(Caller(100), |_| Span::NONE), [(dose, Killed::Returned)]);
    ///
    /// // the late reply wakes nobody and frees the slot
    /// assert!(layer.answer(call.ok(20)).effects.is_empty());
    /// assert!(layer.occupied().is_empty());
    /// # Ok::<(), tilgurap::Refusal>(())
    /// ```
    #[must_use = "a reply that was there is among it"]
    pub fn kill(
        &mut self,
        caller: Caller,
        mut span: impl FnMut(Tag) -> Span,
    ) -> Vec<(Tag, Killed)> {
        let own = |(_, slot): &(Tag, Slot)| {
            let is_call = matches!(slot.state, SlotState::Waiting | SlotState::Responded);
            is_call && slot.caller == caller && !slot.returned && !slot.ended
        };
        let with_span = |(tag, slot): (Tag, Slot)| match slot.state {
            SlotState::Waiting => (tag, span(tag)),
            _ => (tag, Span::NONE),
        };
        let own: Vec<(Tag, Span)> = (self.occupied().into_iter())
            .filter(own)
            .map(with_span)
            .collect();
        let mut calls = Vec::new();
        for (tag, span) in own {
            if let Ok(killed) = self.wake_killed(tag, caller, span) {
                calls.push((tag, killed));
            }
        }
        self.ended(caller);
        calls
    }

    /// The driver reads from its queue: min(length, unread bytes). Whole entries are removed; a
    /// part of one comes again. Bytes beyond those stored stay as they are.
    ///
    /// Refused: as [`WhenEmpty::Refuse`] says.
    ///
    /// ```
    /// use tilgurap::{FileNumber, Layer, Read, SchemeNumber, Taken, WhenEmpty};
    ///
    /// let mut layer = Layer::new(SchemeNumber(7));
    /// assert!(layer.close(FileNumber(1)).is_ok());
    /// assert!(layer.close(FileNumber(2)).is_ok());
    /// // one whole entry and a part of the next, which comes again
    /// let mut bytes = [0; 100];
    /// assert_eq!(layer.read(&mut bytes, WhenEmpty::Wait), Ok(Read::Stored(100)));
    /// let first = Taken::from_bytes(bytes.first_chunk().expect("64 bytes"));
    /// assert_eq!(first, Taken::Close { file: FileNumber(1) });
    /// assert_eq!(layer.next_entry(), Some(Taken::Close { file: FileNumber(2) }));
    /// # Ok::<(), tilgurap::Refusal>(())
    /// ```
    pub fn read(&mut self, out: &mut [u8], when_empty: WhenEmpty) -> Result<Read, Refusal> {
        let flags = match when_empty {
            WhenEmpty::Wait => 0,
            WhenEmpty::Refuse => NONBLOCK,
        };
        let answer = self.steps.read(out, flags);
        match answer.kind {
            0 => Ok(Read::Stored(answer.value as usize)),
            2 => Ok(Read::WouldWait),
            _ => Err(refusal(answer.value)),
        }
    }

    /// The driver takes the next entry, if there is one.
    pub fn next_entry(&mut self) -> Option<Taken> {
        let entry = self.next_sqe()?;
        let serial = match entry.wants() {
            Wants::Reply | Wants::Supply => {
                let serial = Serial::fresh();
                self.taken.set(entry.tag, serial);
                serial
            }
            // a Cancel is of the call that has its tag now
            Wants::Nothing => self.taken.at(entry.tag),
        };
        Some(Taken::new(entry, serial))
    }

    fn next_sqe(&mut self) -> Option<Sqe> {
        let mut bytes = [0; Sqe::BYTES];
        let read = self.read(&mut bytes, WhenEmpty::Refuse);
        (read == Ok(Read::Stored(Sqe::BYTES))).then(|| Sqe::from_bytes(&bytes))
    }

    /// The driver writes completion entries: whole ones of 16 bytes in order; fewer than 16 left
    /// over are not read. The first that is refused ends it.
    ///
    /// Refused for its first entry's sake: [`Einval`](Refusal::Einval), [`Ebadfd`](Refusal::Ebadfd),
    /// [`Enoent`](Refusal::Enoent).
    ///
    /// These are the bytes of a driver elsewhere; one at hand answers by [`answer`](Layer::answer) or
    /// [`serve`](Layer::serve), which pass a refused entry.
    ///
    /// ```
    /// use tilgurap::{Completion, Effect, EventFlags, Layer, SchemeNumber};
    ///
    /// let mut layer = Layer::new(SchemeNumber(7));
    /// let event = || Completion::event(3, EventFlags::READ).into_bytes();
    /// // a success for tag 9, where nobody waits: it is turned down, and the third is not looked at
    /// let stray = [0, 0, 0, 0, 9, 0, 0, 0, 0, 0, 0, 0, 0, 0, 0, 0];
    /// let written = layer.write(&[event(), stray, event()].concat());
    /// assert_eq!(written.answer, Ok(16));
    /// assert_eq!(written.effects, [Effect::Event { number: 3, flags: EventFlags::READ }]);
    /// ```
    pub fn write(&mut self, bytes: &[u8]) -> Written {
        let mut words = vec![0; EFFECT_WORDS * (bytes.len() / Cqe::BYTES)];
        let (answer, used) = self.steps.write(&mut words, bytes);
        let effects = words[..used].chunks_exact(3);
        Written {
            answer: match answer.kind {
                0 => Ok(answer.value as usize),
                _ => Err(refusal(answer.value)),
            },
            effects: effects
                .filter_map(|words| Effect::from_words([words[0], words[1], words[2]]))
                .collect(),
        }
    }

    /// The driver gives a waiting call these descriptions, out of outside holds, in the place of
    /// those that it has; one at hand does so by [`give_list`](Layer::give_list). A refused move has dropped them, but for
    /// [`OutOfRules`](Refusal::OutOfRules) and [`ManyDescriptions`](Refusal::ManyDescriptions).
    /// Returns how many.
    ///
    /// Refused: those, [`Einval`](Refusal::Einval) for a vacant tag, [`Enoent`](Refusal::Enoent)
    /// where the call does not wait.
    ///
    /// ```
    /// use tilgurap::{
    ///     Caller, Description, Identity, Layer, Opcode, Pid, Reply, SchemeNumber, Taken, Wake,
    /// };
    ///
    /// let mut layer = Layer::new(SchemeNumber(7));
    /// let (caller, logbook) = (Caller(100), Description(3));
    /// let who = Identity { uid: 0, gid: 0, pid: Pid(100) };
    /// let tag = layer.call(caller, Opcode::Recvfd, [0; 5], who, &[])?.tag;
    /// let Some(Taken::Call(call)) = layer.next_entry() else { panic!("a call is queued") };
    ///
    /// // the driver hands a description over as its reply
    /// layer.open(logbook)?;
    /// layer.give_list(&call, &[logbook])?;
    /// assert!(layer.answer(call.many()).refused.is_empty());
    /// assert_eq!(layer.wake(tag, caller), Ok(Wake::Replied(Reply::Many(vec![logbook]))));
    /// # Ok::<(), tilgurap::Refusal>(())
    /// ```
    pub fn move_list(&mut self, tag: Tag, list: &[Description]) -> Result<usize, Refusal> {
        let step = self.steps.move_list(&[1, tag.0], &numbers(list));
        done(&step).map(|count| count as usize)
    }

    /// The driver takes a waiting call's descriptions, which become outside holds; one at hand does so by
    /// [`take_list`](Layer::take_list). Returns how many.
    ///
    /// Refused: [`Einval`](Refusal::Einval) for a vacant tag, [`Enoent`](Refusal::Enoent) where the
    /// call does not wait.
    pub fn obtain_list(&mut self, tag: Tag) -> Result<usize, Refusal> {
        let step = self.steps.obtain(&[0, tag.0]);
        done(&step).map(|count| count as usize)
    }

    /// The driver supplies the page of a map request, which vacates its slot.
    ///
    /// Refused: [`Einval`](Refusal::Einval) for an offset or base off a page, a count that is not 1, or
    /// a slot that is no map request's; [`Ebadfd`](Refusal::Ebadfd) for a reserved one;
    /// [`Esrch`](Refusal::Esrch) where the caller has ended, and the slot is vacated all the same.
    pub fn provide_mmap(
        &mut self,
        tag: Tag,
        offset: u64,
        base: u64,
        count: u64,
    ) -> Result<(), Refusal> {
        done(&self.steps.supply(tag.0, offset, base, count)).map(drop)
    }

    /// The number that the layer was made with.
    pub fn scheme(&self) -> SchemeNumber {
        SchemeNumber(self.steps.state().driver.scheme)
    }

    /// The five status words.
    ///
    /// ```
    /// use tilgurap::{Caller, Layer, SchemeNumber, SlotState, Tag};
    ///
    /// let mut layer = Layer::new(SchemeNumber(7));
    /// let tag = layer.reserve(Caller(100))?;
    /// assert_eq!(layer.status().placeholder.count, 1);
    /// assert_eq!(layer.status().placeholder.tags().next(), Some(tag));
    /// assert_eq!(layer.slot(tag).state, SlotState::Placeholder);
    /// # Ok::<(), tilgurap::Refusal>(())
    /// ```
    pub fn status(&self) -> Status {
        let word = |(bits, count)| StatusWord { bits, count };
        let [placeholder, outstanding, responded, fmap, orphans] = self.steps.status().map(word);
        Status {
            placeholder,
            outstanding,
            responded,
            fmap,
            orphans,
        }
    }

    /// What the slot with this tag holds.
    pub fn slot(&self, tag: Tag) -> Slot {
        let slots = self.steps.state().table.slots;
        let slot = usize::try_from(tag.0).ok().and_then(|tag| slots.get(tag));
        slot.map_or(Slot::VACANT, Slot::of)
    }

    /// The slots that are not vacant, by their tags.
    pub fn occupied(&self) -> Vec<(Tag, Slot)> {
        let slots = self.steps.state().table.slots;
        (0..SLOTS as u64)
            .zip(&slots)
            .map(|(tag, slot)| (Tag(tag), Slot::of(slot)))
            .filter(|(_, slot)| slot.state != SlotState::Vacant)
            .collect()
    }

    /// The entries that the driver has not read, in order.
    pub fn unread(&self) -> Vec<Sqe> {
        let mut reader = self.clone();
        iter::from_fn(|| reader.next_sqe()).collect()
    }

    /// The description in a handle of the driver's.
    pub fn handle(&self, handle: Handle) -> Option<Description> {
        let handles = self.steps.state().driver.handles.at;
        let held = handles.get(usize::try_from(handle.0).ok()?)?;
        held.checked_sub(1).map(Description)
    }

    /// How many hold a description: 0 where it is not open.
    pub fn holds(&self, description: Description) -> Holds {
        let counts = self.steps.state().table.holds;
        let at = |of: &[u64; 64]| {
            let place = usize::try_from(description.0).ok();
            place.and_then(|d| of.get(d)).copied().unwrap_or(0)
        };
        Holds {
            all: at(&counts.holds),
            outside: at(&counts.outside),
        }
    }
}
