//! Each event through the crate's types: what it answers, what it asks the host to do, what it leaves.

use tilgurap::{
    Call, CallFlags, Caller, Completion, Description, Effect, Errno, EventFlags, FileNumber,
    Handle, Holds, Identity, Killed, Layer, ObtainFlags, Opcode, Opened, Payload, Pid, Read,
    RecvFdFlags, Refusal, Reply, Request, SchemeNumber, SendFdFlags, SlotState, Span, Sqe,
    SqeFlags, Submitted, Tag, Taken, Wake, WhenEmpty,
};

const CALLER: Caller = Caller(100);
const WHO: Identity = Identity {
    uid: 1,
    gid: 2,
    pid: Pid(9),
};
const READABLE: Effect = Effect::Readable {
    scheme: SchemeNumber(7),
    flags: EventFlags::READ,
};

/// Of a close, as in the Rust.
fn told() -> Effect {
    Effect::Readable {
        scheme: SchemeNumber(7),
        flags: EventFlags::READ | EventFlags::HUP,
    }
}

fn layer() -> Layer {
    Layer::new(SchemeNumber(7))
}

/// A call that its driver has taken, with this list.
fn waiting(list: &[u64]) -> (Layer, Tag, Call) {
    let mut layer = layer();
    let list: Vec<Description> = list.iter().map(|d| Description(*d)).collect();
    for description in &list {
        layer.open(*description).unwrap();
    }
    let called = layer.call(CALLER, Opcode::Read, [0; 5], WHO, &list);
    let tag = called.unwrap().tag;
    let Some(Taken::Call(call)) = layer.next_entry() else {
        panic!("a call is queued")
    };
    (layer, tag, call)
}

/// What an entry was refused with, which was the only one.
fn refused(layer: &mut Layer, entry: Completion) -> Refusal {
    let served = layer.answer(entry);
    assert_eq!((served.effects.len(), served.refused.len()), (0, 1));
    served.refused[0].why
}

/// The effects of an entry that is accepted.
fn accepted(layer: &mut Layer, entry: Completion) -> Vec<Effect> {
    let served = layer.answer(entry);
    assert!(served.refused.is_empty(), "{:?}", served.refused);
    served.effects
}

/// A success for any tag, as a driver elsewhere may write it.
fn ok_bytes(tag: u32) -> [u8; 16] {
    let mut bytes = [0; 16];
    bytes[4..8].copy_from_slice(&tag.to_le_bytes());
    bytes
}

fn reply(layer: &mut Layer, tag: Tag) -> Reply {
    match layer.wake(tag, CALLER) {
        Ok(Wake::Replied(reply)) => reply,
        other => panic!("{other:?}"),
    }
}

fn regular(result: Result<u64, Errno>) -> Reply {
    Reply::Regular {
        result,
        extra0: 0,
        notice: false,
    }
}

#[test]
fn holds_and_handles() {
    let mut layer = layer();
    let (d, h) = (Description(3), Handle(5));
    assert_eq!(layer.copy(d), Err(Refusal::OutOfRules));
    layer.open(d).unwrap();
    assert_eq!(layer.open(d), Err(Refusal::OutOfRules));
    layer.copy(d).unwrap();
    layer.put(d, h).unwrap();
    assert_eq!(layer.put(d, h), Err(Refusal::OutOfRules));
    assert_eq!(layer.handle(h), Some(d));
    assert_eq!((layer.holds(d).all, layer.holds(d).outside), (2, 1));
    layer.drop_hold(d).unwrap();
    assert_eq!(layer.drop_hold(d), Err(Refusal::OutOfRules));
    for _ in 0..65_534 {
        layer
            .open(Description(4))
            .or_else(|_| layer.copy(Description(4)))
            .unwrap();
    }
    layer.copy(Description(4)).unwrap();
    assert_eq!(layer.copy(Description(4)), Err(Refusal::HoldsFull));
    assert_eq!(layer.holds(Description(64)), Holds { all: 0, outside: 0 });
    assert_eq!(layer.handle(Handle(64)), None);
}

#[test]
fn reserve_then_submit() {
    let mut layer = layer();
    let request = Request {
        opcode: Opcode::Fsync,
        flags: SqeFlags::ONEWAY,
        args: [1, 2, 3, 4, 5, 6],
        pid: Pid(9),
    };
    let tag = layer.reserve(CALLER).unwrap();
    assert_eq!(layer.slot(tag).state, SlotState::Placeholder);
    let other = layer.submit(tag, Caller(101), request, &[]);
    assert_eq!(other, Err(Refusal::NotThisCallers));
    let many = layer.submit(tag, CALLER, request, &[Description(0); 17]);
    assert_eq!(many, Err(Refusal::OutOfRules));
    let submitted = layer.submit(tag, CALLER, request, &[]);
    assert_eq!(
        submitted,
        Ok(Submitted {
            tag,
            effect: READABLE
        })
    );
    let entry = Sqe {
        opcode: 17,
        flags: SqeFlags::ONEWAY,
        tag,
        args: [1, 2, 3, 4, 5, 6],
        pid: Pid(9),
    };
    assert_eq!(layer.unread(), [entry]);
    let Some(Taken::Call(call)) = layer.next_entry() else {
        panic!("a call is queued")
    };
    assert_eq!(*call.entry(), entry);
    assert_eq!(layer.next_entry(), None);
    assert_eq!(Sqe::from_bytes(&entry.to_bytes()), entry);
}

#[test]
fn calls_in_each_form() {
    let mut layer = layer();
    let called = layer.call(CALLER, Opcode::Write, [1, 2, 3, 4, 5], WHO, &[]);
    assert_eq!(called.unwrap().effect, READABLE);
    let payload = Payload { base: 4096, len: 8 };
    let files = [FileNumber(20), FileNumber(21), FileNumber(22)];
    let generic = |layer: &mut Layer, many: usize| {
        layer.call_generic(CALLER, Pid(9), &files[..many], payload, &[6, 7, 8])
    };
    assert_eq!(generic(&mut layer, 0), Err(Refusal::Einval));
    assert_eq!(generic(&mut layer, 3), Err(Refusal::Einval));
    assert!(generic(&mut layer, 1).is_ok() && generic(&mut layer, 2).is_ok());
    let std = |layer: &mut Layer, kind: u64| {
        layer.translate_std_fs_call(CALLER, Pid(9), &files[..1], payload, &[kind, 7, 8])
    };
    assert_eq!(std(&mut layer, 9), Err(Refusal::Eopnotsupp));
    assert!(std(&mut layer, 0x101).is_ok());
    let mapped = layer.request_fmap(CALLER, FileNumber(9), 2, 3, WHO);
    assert_eq!(mapped.unwrap().tag, Tag(4));
    assert_eq!(layer.slot(Tag(4)).state, SlotState::Fmap);
    assert_eq!(layer.close(FileNumber(30)), Ok(told()));
    assert_eq!(layer.detach(FileNumber(31), Pid(9)), Ok(READABLE));
    let read = layer.unread();
    let told: Vec<_> = (read.iter())
        .map(|entry| (entry.opcode().unwrap(), entry.tag.0, entry.args))
        .collect();
    assert!((read.iter()).all(|entry| entry.pid.0 == if entry.args[0] == 30 { 0 } else { 9 }));
    let owner = 1 + (2 << 32);
    assert_eq!(
        told,
        [
            (Opcode::Write, 0, [1, 2, 3, 4, 5, owner]),
            (Opcode::Call, 1, [20, 4096, 8, 6, 7, 8]),
            (Opcode::Call, 2, [20, 4096, 8, 6, 7, 21]),
            (Opcode::StdFsCall, 3, [20, 4096, 8, 1, 7, 8]),
            (Opcode::RequestMmap, 4, [9, 3, 2, 0, 0, owner]),
            (Opcode::CloseMsg, 0, [30, 0, 0, 0, 0, 0]),
            (Opcode::Detach, 0, [31, 0, 0, 0, 0, 0]),
        ]
    );
}

#[test]
fn no_slot_and_no_room() {
    let mut layer = layer();
    for tag in 0..64 {
        assert_eq!(layer.reserve(CALLER), Ok(Tag(tag)));
    }
    assert_eq!(layer.reserve(CALLER), Err(Refusal::NoVacantSlot));
    for _ in 0..128 {
        assert_eq!(layer.close(FileNumber(1)), Ok(told()));
    }
    assert_eq!(layer.close(FileNumber(1)), Err(Refusal::QueueFull));
    assert_eq!(layer.unread().len(), 128);
    assert_eq!(layer.status().placeholder.count, 64);
    assert_eq!(layer.occupied().len(), 64);
}

#[test]
fn reads() {
    let mut layer = layer();
    let mut bytes = [0xa5; 100];
    assert_eq!(layer.read(&mut bytes, WhenEmpty::Wait), Ok(Read::WouldWait));
    assert_eq!(
        layer.read(&mut bytes, WhenEmpty::Refuse),
        Err(Refusal::Eagain)
    );
    assert_eq!(
        layer.read(&mut bytes[..63], WhenEmpty::Refuse),
        Err(Refusal::Einval)
    );
    assert_eq!(bytes, [0xa5; 100]);
    assert_eq!(layer.close(FileNumber(1)), Ok(told()));
    assert_eq!(layer.close(FileNumber(2)), Ok(told()));
    assert_eq!(
        layer.read(&mut bytes, WhenEmpty::Wait),
        Ok(Read::Stored(100))
    );
    let second = Taken::Close {
        file: FileNumber(2),
    };
    assert_eq!(layer.next_entry(), Some(second));
}

#[test]
fn each_kind_of_completion() {
    // 0 and 5: words and errors
    type Answered = fn(Call) -> Completion;
    let noticed = Reply::Regular {
        result: Err(Errno::ENOENT),
        extra0: 3,
        notice: true,
    };
    let with_notice = Reply::Regular {
        result: Ok(7),
        extra0: 0,
        notice: true,
    };
    let cases: [(Answered, Reply); 5] = [
        (|call| call.ok(7), regular(Ok(7))),
        (|call| call.err(Errno::ENOSPC), regular(Err(Errno::ENOSPC))),
        (|call| call.err(Errno::EINTR), regular(Err(Errno::EIO))),
        (
            |call| call.err_with_notice(Errno::ENOENT).with_extra([3, 0, 0]),
            noticed,
        ),
        (|call| call.ok_with_notice(7), with_notice),
    ];
    for (answered, wanted) in cases {
        let (mut layer, tag, call) = waiting(&[]);
        let wake = Effect::Wake {
            caller: CALLER,
            tag,
        };
        assert_eq!(accepted(&mut layer, answered(call)), [wake]);
        assert_eq!(layer.slot(tag).reply.as_ref(), Some(&wanted));
        assert_eq!(reply(&mut layer, tag), wanted);
        assert_eq!(layer.slot(tag).state, SlotState::Vacant);
        assert_eq!(layer.wake(tag, CALLER), Err(Refusal::Ebadfd));
    }

    // 1: the description in a handle; a call whose reply is refused comes back
    let (mut layer, tag, call) = waiting(&[1]);
    layer.open(Description(2)).unwrap();
    layer.put(Description(2), Handle(6)).unwrap();
    let empty = layer.answer(call.descriptor(Handle(7)));
    let [refusal] = <[_; 1]>::try_from(empty.refused).unwrap();
    assert_eq!(refusal.why, Refusal::Einval);
    let call = refusal.call.expect("it still waits");
    let wake = Effect::Wake {
        caller: CALLER,
        tag,
    };
    let closed = Effect::Close {
        description: Description(1),
    };
    let effects = accepted(&mut layer, call.descriptor(Handle(6)));
    assert_eq!(effects, [wake, closed]);
    assert_eq!(
        layer.write(&ok_bytes(tag.0 as u32)).answer,
        Err(Refusal::Einval)
    );
    assert_eq!(reply(&mut layer, tag), Reply::Descriptor(Description(2)));

    // 2: an event
    let event = Effect::Event {
        number: 33,
        flags: EventFlags::WRITE,
    };
    let sent = Completion::event(33, EventFlags::WRITE);
    assert_eq!(accepted(&mut layer, sent), [event]);
    let unknown = Completion::event(33, EventFlags::from_bits(1 << 40));
    assert_eq!(refused(&mut layer, unknown), Refusal::Einval);

    // 3: the first description to a handle; 4: the others as the reply
    let (mut layer, tag, call) = waiting(&[1, 2, 3]);
    let obtain = call.obtain(Handle(0), ObtainFlags::CLOEXEC | ObtainFlags::MANUAL_FD);
    let entry = obtain.cqe();
    assert_eq!((entry.kind(), entry.tag(), entry.parse()), (3, tag, Ok(())));
    assert_eq!(accepted(&mut layer, obtain), []);
    assert_eq!(layer.handle(Handle(0)), Some(Description(1)));
    let wide = call.obtain(Handle(0), ObtainFlags::from_bits(1 << 24));
    assert_eq!(wide.cqe().parse(), Err(Refusal::Einval));
    let unknown = call.obtain(Handle(0), ObtainFlags::from_bits(16));
    assert_eq!(unknown.cqe().parse(), Err(Refusal::Einval));
    assert_eq!(refused(&mut layer, unknown), Refusal::Einval);
    assert_eq!(accepted(&mut layer, call.many()).len(), 1);
    let many = Reply::Many(vec![Description(2), Description(3)]);
    assert_eq!(reply(&mut layer, tag), many);

    // bytes: a good entry, a bad one, one that is not looked at
    let (mut layer, tag, call) = waiting(&[]);
    let event = Completion::event(1, EventFlags::READ);
    let entries = [call.ok(1).into_bytes(), ok_bytes(9), event.into_bytes()];
    let written = layer.write(&entries.concat());
    assert_eq!(written.answer, Ok(16));
    let wake = Effect::Wake {
        caller: CALLER,
        tag,
    };
    assert_eq!(written.effects, [wake]);
    assert_eq!(
        layer.write(&ok_bytes(u32::MAX)).answer,
        Err(Refusal::Ebadfd)
    );
}

#[test]
fn woken_too_early_and_killed() {
    let (mut layer, tag, call) = waiting(&[]);
    assert_eq!(layer.wake(tag, Caller(101)), Err(Refusal::NotThisCallers));
    assert_eq!(layer.wake(tag, CALLER), Ok(Wake::Blocked(Some(READABLE))));
    assert_eq!(layer.wake(tag, CALLER), Ok(Wake::Blocked(None)));
    assert!(layer.slot(tag).cancelling);
    let Some(Taken::Cancel(cancel)) = layer.next_entry() else {
        panic!("a Cancel is queued")
    };
    assert!(cancel.is_for(&call) && cancel.tag() == tag);
    let span = Span { base: 5, count: 2 };
    assert_eq!(layer.wake_killed(tag, CALLER, span), Ok(Killed::Returned));
    assert_eq!(
        (layer.slot(tag).returned, layer.slot(tag).span),
        (true, span)
    );
    let again = layer.wake_killed(tag, CALLER, span);
    assert_eq!(again, Err(Refusal::NotThisCallers));
    let wake = Effect::Wake {
        caller: CALLER,
        tag,
    };
    let effects = accepted(&mut layer, call.err(Errno::ECANCELED));
    assert_eq!(effects, [wake, Effect::Unmap { span }]);
    assert_eq!(layer.status().responded.tags().collect::<Vec<_>>(), [tag]);

    let (mut layer, tag, call) = waiting(&[]);
    assert_eq!(accepted(&mut layer, call.ok(8)).len(), 1);
    let killed = layer.wake_killed(tag, CALLER, span);
    assert_eq!(killed, Ok(Killed::Replied(regular(Ok(8)))));
}

#[test]
fn layers_are_equal_by_their_words() {
    let (mut layer, tag, _call) = waiting(&[1]);
    let before = layer.clone();
    assert_eq!(layer.wake(tag, Caller(101)), Err(Refusal::NotThisCallers));
    assert_eq!(layer, before);
    assert_eq!(layer.close(FileNumber(1)), Ok(told()));
    assert_ne!(layer, before);
    assert_eq!((layer.unread().len(), before.unread().len()), (1, 0));
    assert_eq!(layer.scheme(), before.scheme());
    // an entry that was read stands there until another takes its place
    assert!(layer.next_entry().is_some());
    assert_ne!(layer, before);
}

#[test]
fn an_ended_caller() {
    let (mut layer, tag, call) = waiting(&[1]);
    layer.ended(CALLER);
    assert!(layer.slot(tag).ended);
    let closed = Effect::Close {
        description: Description(1),
    };
    assert_eq!(accepted(&mut layer, call.ok(0)), [closed]);
    assert_eq!(layer.slot(tag).state, SlotState::Vacant);
}

#[test]
fn lists_moved_and_obtained() {
    let (mut layer, tag, call) = waiting(&[1, 2]);
    assert_eq!(
        layer.slot(tag).descriptions,
        [Description(1), Description(2)]
    );
    assert_eq!(layer.obtain_list(tag), Ok(2));
    assert_eq!(layer.move_list(tag, &[Description(2)]), Ok(1));
    assert_eq!(layer.slot(tag).descriptions, [Description(2)]);
    assert_eq!(
        layer.move_list(Tag(9), &[Description(1)]),
        Err(Refusal::Einval)
    );
    // what a refused move brought is gone
    assert_eq!(layer.holds(Description(1)).all, 0);
    assert_eq!(accepted(&mut layer, call.many()).len(), 1);
    assert_eq!(layer.obtain_list(tag), Err(Refusal::Enoent));
}

#[test]
fn a_map_request() {
    let mut layer = layer();
    let tag = layer
        .request_fmap(CALLER, FileNumber(9), 1, 0, WHO)
        .unwrap()
        .tag;
    assert_eq!(
        layer.write(&ok_bytes(tag.0 as u32)).answer,
        Err(Refusal::Einval)
    );
    assert_eq!(layer.provide_mmap(tag, 0, 4095, 1), Err(Refusal::Einval));
    assert_eq!(layer.provide_mmap(tag, 0, 4096, 1), Ok(()));
    let tag = layer
        .request_fmap(CALLER, FileNumber(9), 1, 0, WHO)
        .unwrap()
        .tag;
    layer.ended(CALLER);
    assert_eq!(layer.provide_mmap(tag, 0, 4096, 1), Err(Refusal::Esrch));
    assert_eq!(layer.slot(tag).state, SlotState::Vacant);
}

#[test]
fn replies_read() {
    let one = || Reply::Descriptor(Description(5));
    let many = || Reply::Many(vec![Description(5); 16]);
    assert_eq!(regular(Ok(7)).into_regular(), Ok(7));
    assert_eq!(one().into_regular(), Err(Errno::EIO));
    assert_eq!(many().into_call_generic(), (Err(Errno::EIO), false));
    let noticed = Reply::Regular {
        result: Err(Errno::ENOENT),
        extra0: 1,
        notice: true,
    };
    assert_eq!(noticed.into_call_generic(), (Err(Errno::ENOENT), true));
    assert_eq!(one().into_kopenat(), Ok(Opened::External(Description(5))));
    assert_eq!(many().into_kdup(), Err(Errno::EIO));
    let opened = |extra0| Reply::Regular {
        result: Ok(44),
        extra0,
        notice: false,
    };
    let local = Opened::Local {
        number: 44,
        flags: 1,
    };
    assert_eq!(opened(1).into_kopenat(), Ok(local));
    assert_eq!(opened(2).into_kdup(), Err(Errno::EINVAL));

    let failed = || regular(Err(Errno::ENOSPC));
    assert_eq!(regular(Ok(u64::MAX)).into_kfdwrite(), Ok(u64::MAX));
    assert_eq!(failed().into_kfdwrite(), Err(Errno::ENOSPC));
    assert_eq!(one().into_kfdwrite(), Err(Errno::EIO));
    assert_eq!(many().into_kfdwrite(), Err(Errno::EIO));
    assert_eq!(regular(Ok(0)).into_kfdread(), Err(Errno::EIO));
    assert_eq!(failed().into_kfdread(), Err(Errno::ENOSPC));
    assert_eq!(one().into_kfdread(), Err(Errno::EIO));
    assert_eq!(many().into_kfdread(), Ok(16));
    assert_eq!(
        Reply::Many(vec![Description(0), Description(9)]).into_kfdread(),
        Ok(2)
    );
    assert_eq!(Reply::Many(Vec::new()).into_kfdread(), Ok(0));
    // what the host has to drop can be seen before it is read
    assert_eq!(one().descriptions(), [Description(5)]);
    assert_eq!(many().descriptions(), [Description(5); 16]);
    assert_eq!(failed().descriptions(), []);
}

/// The entry that its driver finds.
fn told_entry(layer: &Layer) -> Sqe {
    let unread = layer.unread();
    assert_eq!(unread.len(), 1);
    unread[0]
}

fn send(
    layer: &mut Layer,
    flags: CallFlags,
    metadata: &[u64],
    list: &[Description],
) -> Result<Submitted, Refusal> {
    layer.kfdwrite(CALLER, FileNumber(20), flags, metadata, WHO, list)
}

fn ask(
    layer: &mut Layer,
    len: u64,
    flags: CallFlags,
    metadata: &[u64],
) -> Result<Submitted, Refusal> {
    layer.kfdread(CALLER, FileNumber(20), len, flags, metadata, WHO)
}

/// An asking call that its driver has taken.
fn asked(layer: &mut Layer, len: u64) -> (Tag, Call) {
    let tag = ask(layer, len, CallFlags::NONE, &[]).unwrap().tag;
    let Some(Taken::Call(call)) = layer.next_entry() else {
        panic!("a call is queued")
    };
    (tag, call)
}

const SUBMITTED: Submitted = Submitted {
    tag: Tag(0),
    effect: READABLE,
};

/// Uid and gid, as the sixth argument.
const OWNER: u64 = 1 + (2 << 32);

#[test]
fn what_a_driver_is_told_of_descriptions_sent() {
    let (none, exclusive) = (SendFdFlags::NONE, SendFdFlags::EXCLUSIVE);
    let others = CallFlags::from_bits(!CallFlags::FD_EXCLUSIVE.bits());
    let all = CallFlags::from_bits(u64::MAX);
    let sent = [Description(3), Description(4), Description(3)];
    for (flags, told) in [
        (CallFlags::NONE, none),
        (CallFlags::FD_EXCLUSIVE, exclusive),
        (CallFlags::FD_UPPER, none),
        (others, none),
        (all, exclusive),
    ] {
        for (metadata, first) in [(&[][..], 0), (&[6], 6), (&[u64::MAX, 7, 8], u64::MAX)] {
            for many in [0, 1, 3] {
                let mut layer = layer();
                layer.open(Description(3)).unwrap();
                layer.copy(Description(3)).unwrap();
                layer.open(Description(4)).unwrap();
                let list = &sent[..many];
                assert_eq!(send(&mut layer, flags, metadata, list), Ok(SUBMITTED));
                let wanted = Sqe {
                    opcode: 12,
                    flags: SqeFlags::NONE,
                    tag: Tag(0),
                    args: [20, told.bits(), first, many as u64, 0, OWNER],
                    pid: Pid(9),
                };
                assert_eq!(told_entry(&layer), wanted);
                assert_eq!(layer.slot(Tag(0)).descriptions, list);
            }
        }
    }
}

#[test]
fn what_a_driver_is_told_of_descriptions_asked_for() {
    let (none, upper) = (RecvFdFlags::NONE, RecvFdFlags::UPPER_TBL);
    let others = CallFlags::from_bits(!CallFlags::FD_UPPER.bits());
    let all = CallFlags::from_bits(u64::MAX);
    for (flags, told) in [
        (CallFlags::NONE, none),
        (CallFlags::FD_UPPER, upper),
        (CallFlags::FD_EXCLUSIVE, none),
        (others, none),
        (all, upper),
    ] {
        for (metadata, first, second) in [
            (&[][..], 0, 0),
            (&[6], 6, 0),
            (&[6, u64::MAX], 6, u64::MAX),
            (&[6, 7, 8], 6, 7),
        ] {
            for (len, room) in [(0, 0), (8, 1), (24, 3), (u64::MAX - 7, u64::MAX / 8)] {
                let mut layer = layer();
                assert_eq!(ask(&mut layer, len, flags, metadata), Ok(SUBMITTED));
                let wanted = Sqe {
                    opcode: 31,
                    flags: SqeFlags::NONE,
                    tag: Tag(0),
                    args: [20, told.bits(), room, first, second, OWNER],
                    pid: Pid(9),
                };
                assert_eq!(told_entry(&layer), wanted);
                assert_eq!(layer.slot(Tag(0)).descriptions, []);
            }
        }
    }
}

#[test]
fn sixteen_descriptions_are_sent_and_seventeen_are_not() {
    let mut layer = layer();
    let list: Vec<Description> = (0..17).map(Description).collect();
    for description in &list[..16] {
        layer.open(*description).unwrap();
    }
    // one that is not open is told first
    let before = layer.clone();
    let refused = send(&mut layer, CallFlags::NONE, &[], &list);
    assert_eq!(refused, Err(Refusal::OutOfRules));
    assert_eq!(layer, before);
    layer.open(list[16]).unwrap();
    let before = layer.clone();
    let refused = send(&mut layer, CallFlags::NONE, &[], &list);
    assert_eq!(refused, Err(Refusal::ManyDescriptions));
    assert_eq!(layer, before);
    // as often as the host holds it, and not once more
    let twice = [Description(3); 2];
    let refused = send(&mut layer, CallFlags::NONE, &[], &twice);
    assert_eq!(refused, Err(Refusal::OutOfRules));
    assert_eq!(layer, before);

    let sent = send(&mut layer, CallFlags::NONE, &[], &list[..16]);
    assert_eq!(sent, Ok(SUBMITTED));
    assert_eq!(layer.slot(Tag(0)).descriptions, list[..16]);
    for description in &list {
        let outside = u64::from(*description == list[16]);
        assert_eq!(layer.holds(*description), Holds { all: 1, outside });
    }
}

#[test]
fn an_odd_length_is_told_before_a_full_table_and_a_full_queue() {
    const ODD: [u64; 4] = [1, 7, 23, u64::MAX];
    // every slot is given out
    let mut full = layer();
    for _ in 0..64 {
        full.reserve(CALLER).unwrap();
    }
    // every place of the queue is taken
    let mut unread = layer();
    for _ in 0..128 {
        assert_eq!(unread.close(FileNumber(1)), Ok(told()));
    }
    let mut both = full.clone();
    for _ in 0..128 {
        assert_eq!(both.close(FileNumber(1)), Ok(told()));
    }
    for (mut layer, why) in [
        (layer(), None),
        (full, Some(Refusal::NoVacantSlot)),
        (unread, Some(Refusal::QueueFull)),
        (both, Some(Refusal::NoVacantSlot)),
    ] {
        let before = layer.clone();
        for len in ODD {
            let refused = ask(&mut layer, len, CallFlags::NONE, &[]);
            assert_eq!(refused, Err(Refusal::Einval));
            assert_eq!(layer, before);
        }
        if let Some(why) = why {
            assert_eq!(ask(&mut layer, 24, CallFlags::NONE, &[]), Err(why));
            assert_eq!(send(&mut layer, CallFlags::NONE, &[], &[]), Err(why));
            // what is wrong with a list comes before both
            let refused = send(&mut layer, CallFlags::NONE, &[], &[Description(1)]);
            assert_eq!(refused, Err(Refusal::OutOfRules));
            assert_eq!(layer, before);
        }
    }
}

#[test]
fn one_descriptor_where_many_were_asked_for() {
    let mut layer = layer();
    let (tank, handle) = (Description(3), Handle(6));
    layer.open(tank).unwrap();
    layer.put(tank, handle).unwrap();
    let (tag, call) = asked(&mut layer, 16);
    let wake = Effect::Wake {
        caller: CALLER,
        tag,
    };
    assert_eq!(accepted(&mut layer, call.descriptor(handle)), [wake]);
    assert_eq!(layer.holds(tank), Holds { all: 1, outside: 0 });

    // it is handed over once, and its hold is the host's though it is read as an error
    let handed = reply(&mut layer, tag);
    assert_eq!(handed, Reply::Descriptor(tank));
    assert_eq!(layer.holds(tank), Holds { all: 1, outside: 1 });
    assert_eq!(layer.slot(tag).state, SlotState::Vacant);
    assert_eq!(layer.wake(tag, CALLER), Err(Refusal::Ebadfd));
    let held = handed.descriptions().to_vec();
    assert_eq!(handed.into_kfdread(), Err(Errno::EIO));
    assert_eq!(held, [tank]);
    assert_eq!(layer.drop_hold(tank), Ok(()));
    assert_eq!(layer.holds(tank), Holds { all: 0, outside: 0 });
    assert_eq!(layer.drop_hold(tank), Err(Refusal::OutOfRules));
}

#[test]
fn many_descriptors_where_many_were_asked_for() {
    let mut layer = layer();
    let (tank, valve) = (Description(3), Description(4));
    for description in [tank, tank, valve] {
        layer
            .open(description)
            .or_else(|_| layer.copy(description))
            .unwrap();
    }
    // room for one, and three come: how many fit is the host's to see to
    let (tag, call) = asked(&mut layer, 8);
    let list = [tank, valve, tank];
    assert_eq!(layer.give_list(&call, &list), Ok(3));
    assert_eq!(layer.holds(tank), Holds { all: 2, outside: 0 });
    assert_eq!(accepted(&mut layer, call.many()).len(), 1);
    let handed = reply(&mut layer, tag);
    assert_eq!(handed.descriptions(), list);
    assert_eq!(handed.into_kfdread(), Ok(3));
    assert_eq!(layer.holds(tank), Holds { all: 2, outside: 2 });
    assert_eq!(layer.holds(valve), Holds { all: 1, outside: 1 });

    // none, whatever there is room for
    for len in [0, 64] {
        let (tag, call) = asked(&mut layer, len);
        assert_eq!(accepted(&mut layer, call.many()).len(), 1);
        assert_eq!(reply(&mut layer, tag).into_kfdread(), Ok(0));
    }
    // a word, and an error
    let (tag, call) = asked(&mut layer, 8);
    assert_eq!(accepted(&mut layer, call.ok(1)).len(), 1);
    assert_eq!(reply(&mut layer, tag).into_kfdread(), Err(Errno::EIO));
    let (tag, call) = asked(&mut layer, 8);
    assert_eq!(accepted(&mut layer, call.err(Errno::ENOSPC)).len(), 1);
    assert_eq!(reply(&mut layer, tag).into_kfdread(), Err(Errno::ENOSPC));
}

#[test]
fn descriptions_sent_are_taken_or_closed() {
    let mut layer = layer();
    let (tank, valve) = (Description(3), Description(4));
    layer.open(tank).unwrap();
    layer.open(valve).unwrap();
    let sent = send(&mut layer, CallFlags::NONE, &[], &[tank, valve]);
    let tag = sent.unwrap().tag;
    let Some(Taken::Call(call)) = layer.next_entry() else {
        panic!("a call is queued")
    };
    let obtain = call.obtain(Handle(0), ObtainFlags::NONE);
    assert_eq!(accepted(&mut layer, obtain), []);
    assert_eq!(layer.handle(Handle(0)), Some(tank));
    let effects = accepted(&mut layer, call.ok(1));
    let closed = Effect::Close { description: valve };
    let wake = Effect::Wake {
        caller: CALLER,
        tag,
    };
    assert_eq!(effects, [wake, closed]);
    assert_eq!(reply(&mut layer, tag).into_kfdwrite(), Ok(1));
}
