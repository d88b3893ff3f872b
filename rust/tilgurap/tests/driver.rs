//! A driver at its layer: what an entry wants, each opcode's method, replies made once, refused entries passed.

use tilgurap::{
    Answer, Call, Caller, Cancel, Completion, Description, Driver, Effect, Errno, EventFlags,
    FileNumber, Handle, Identity, Killed, Layer, MapRequest, ObtainFlags, Opcode, Pid, Refusal,
    Rejected, Request, SchemeNumber, Served, SlotState, Span, SqeFlags, Supplied, Tag, Taken, Wake,
    Wants, limits,
};

const WHO: Identity = Identity {
    uid: 1,
    gid: 2,
    pid: Pid(9),
};
const LAYERS_OWN: [Opcode; 4] = [
    Opcode::RequestMmap,
    Opcode::Cancel,
    Opcode::CloseMsg,
    Opcode::Detach,
];

fn layer() -> Layer {
    Layer::new(SchemeNumber(7))
}

fn call(layer: &mut Layer, caller: u32, opcode: Opcode, file: u64) -> Tag {
    let called = layer.call(Caller(caller), opcode, [file, 0, 0, 0, 0], WHO, &[]);
    called.unwrap().tag
}

fn opcodes() -> impl Iterator<Item = Opcode> {
    (0..256).filter_map(Opcode::new)
}

/// What the caller reads.
fn read(layer: &mut Layer, tag: Tag, caller: u32) -> Result<u64, Errno> {
    match layer.wake(tag, Caller(caller)) {
        Ok(Wake::Replied(reply)) => reply.into_regular(),
        other => panic!("{other:?}"),
    }
}

fn woken(served: &Served) -> Vec<(u32, u64)> {
    let of = |effect: &Effect| match effect {
        Effect::Wake { caller, tag } => (caller.0, tag.0),
        other => panic!("{other:?}"),
    };
    served.effects.iter().map(of).collect()
}

/// Doses are kept until they are finished, a valve answers at once; closes and cancels are noted.
#[derive(Default)]
struct Plant {
    dosing: Vec<Call>,
    maps: Vec<MapRequest>,
    valve_opened: bool,
    noted: Vec<String>,
}

const VALVE: u64 = 1;
const DOSER: u64 = 2;
const GAUGE: u64 = 3;

impl Driver for Plant {
    fn write(&mut self, call: Call) -> Answer {
        match call.file().0 {
            VALVE => {
                self.valve_opened = true;
                call.ok(1).into()
            }
            DOSER => {
                self.dosing.push(call);
                Answer::Nothing
            }
            _ => call.err(Errno::ENOENT).into(),
        }
    }

    fn request_mmap(&mut self, request: MapRequest) -> Answer {
        self.maps.push(request);
        Answer::Nothing
    }

    fn on_cancel(&mut self, cancel: Cancel) -> Answer {
        self.noted.push(format!("cancel {}", cancel.tag()));
        match self.dosing.iter().position(|call| cancel.is_for(call)) {
            Some(place) => self.dosing.remove(place).err(Errno::ECANCELED).into(),
            None => Answer::Nothing,
        }
    }

    fn on_close(&mut self, file: FileNumber) -> Answer {
        self.noted.push(format!("close {file}"));
        Answer::Nothing
    }

    fn on_detach(&mut self, file: FileNumber, pid: Pid) -> Answer {
        self.noted.push(format!("detach {file} {pid}"));
        Answer::Nothing
    }
}

/// The story that went wrong: a driver that answered the close by its tag failed the dosing call, whose late reply then
/// told the valve call that it was done.
#[test]
fn a_close_reaches_no_call() {
    let (mut layer, mut plant) = (layer(), Plant::default());
    let dose = call(&mut layer, 100, Opcode::Write, DOSER);
    assert_eq!(dose, Tag(0));
    assert_eq!(layer.serve(&mut plant), Served::default());

    assert!(layer.close(FileNumber(GAUGE)).is_ok());
    assert_eq!(layer.unread()[0].tag, dose);
    assert_eq!(layer.serve(&mut plant), Served::default());
    assert_eq!(plant.noted, ["close 3"]);
    assert_eq!(layer.slot(dose).state, SlotState::Waiting);

    let valve = call(&mut layer, 200, Opcode::Write, VALVE);
    assert_ne!(valve, dose);
    assert!(!plant.valve_opened);
    assert_eq!(woken(&layer.serve(&mut plant)), [(200, valve.0)]);
    assert!(plant.valve_opened);
    assert_eq!(read(&mut layer, valve, 200), Ok(1));

    let done = plant.dosing.remove(0).ok(20);
    assert_eq!(woken(&layer.answer(done)), [(100, dose.0)]);
    assert_eq!(read(&mut layer, dose, 100), Ok(20));
    assert!(layer.occupied().is_empty());
}

#[test]
fn what_each_entry_wants() {
    for opcode in opcodes() {
        let wants = match opcode {
            Opcode::RequestMmap => Wants::Supply,
            Opcode::Cancel | Opcode::CloseMsg | Opcode::Detach => Wants::Nothing,
            _ => Wants::Reply,
        };
        let mut bytes = [0; 64];
        bytes[0] = opcode.number();
        assert_eq!(tilgurap::Sqe::from_bytes(&bytes).wants(), wants);
        let taken = Taken::from_bytes(&bytes);
        assert_eq!(taken.wants(), wants);
        assert_eq!(taken.wants_reply(), wants == Wants::Reply);
        // the flag of a Cancel does not make a call one that wants nothing
        bytes[1] = SqeFlags::ONEWAY.bits();
        assert_eq!(Taken::from_bytes(&bytes).wants(), wants);
    }
    // a number that is no opcode is answered too, or its caller would wait for good
    let mut plant = Plant::default();
    let Answer::Entry(reply) = tilgurap::dispatch(&mut plant, Taken::from_bytes(&[200; 64])) else {
        panic!("no reply")
    };
    let wanted = tilgurap::mux(Err(Errno::EOPNOTSUPP));
    assert_eq!((reply.cqe().kind(), reply.cqe().result()), (0, wanted));
}

#[test]
fn opcodes_of_the_layers_own_are_refused() {
    for opcode in LAYERS_OWN {
        let mut layer = layer();
        let before = layer.clone();
        let called = layer.call(Caller(1), opcode, [0; 5], WHO, &[]);
        assert_eq!(called, Err(Refusal::Einval));
        assert_eq!(layer, before);
        let tag = layer.reserve(Caller(1)).unwrap();
        let before = layer.clone();
        let request = Request {
            opcode,
            flags: SqeFlags::NONE,
            args: [0; 6],
            pid: Pid(0),
        };
        let submitted = layer.submit(tag, Caller(1), request, &[]);
        assert_eq!(submitted, Err(Refusal::Einval));
        assert_eq!(layer, before);
    }
}

/// Answers each call with its method's own opcode.
struct Numbered;

macro_rules! numbered {
    ($($method:ident = $opcode:ident),*) => {
        impl Driver for Numbered {
            $(fn $method(&mut self, call: Call) -> Answer {
                call.ok(u64::from(Opcode::$opcode.number())).into()
            })*
        }
    };
}

numbered! {
    close = Close, dup = Dup, read = Read, write = Write, fsize = Fsize, fchmod = Fchmod, fchown = Fchown,
    fcntl = Fcntl, fevent = Fevent, sendfd = Sendfd, fpath = Fpath, frename = Frename, fstat = Fstat,
    fstatvfs = Fstatvfs, fsync = Fsync, ftruncate = Ftruncate, futimens = Futimens, mmap_prep = MmapPrep,
    mremap = Mremap, munmap = Munmap, msync = Msync, getdents = Getdents, call = Call, openat = OpenAt,
    flink = Flink, recvfd = Recvfd, unlinkat = UnlinkAt, std_fs_call = StdFsCall
}

#[test]
fn each_opcode_has_its_method() {
    let calls = || opcodes().filter(|opcode| !LAYERS_OWN.contains(opcode));
    assert_eq!(calls().count(), 28);
    for opcode in calls() {
        let mut layer = layer();
        let tag = call(&mut layer, 1, opcode, 0);
        assert_eq!(woken(&layer.serve(&mut Numbered)), [(1, tag.0)]);
        assert_eq!(read(&mut layer, tag, 1), Ok(u64::from(opcode.number())));
        // and one that is not written says so
        struct Idle;
        impl Driver for Idle {}
        let tag = call(&mut layer, 1, opcode, 0);
        assert_eq!(woken(&layer.serve(&mut Idle)), [(1, tag.0)]);
        assert_eq!(read(&mut layer, tag, 1), Err(Errno::EOPNOTSUPP));
    }
}

#[test]
fn a_cancelled_call_is_replied_to_once() {
    let (mut layer, mut plant) = (layer(), Plant::default());
    let dose = call(&mut layer, 100, Opcode::Write, DOSER);
    let other = call(&mut layer, 101, Opcode::Write, DOSER);
    assert_eq!(layer.serve(&mut plant), Served::default());
    assert!(matches!(
        layer.wake(other, Caller(101)),
        Ok(Wake::Blocked(Some(_)))
    ));
    assert!(layer.detach(FileNumber(GAUGE), Pid(5)).is_ok());
    assert_eq!(woken(&layer.serve(&mut plant)), [(101, other.0)]);
    assert_eq!(plant.noted, ["cancel 1", "detach 3 5"]);
    assert_eq!(read(&mut layer, other, 101), Err(Errno::EINTR));
    assert_eq!(layer.slot(dose).state, SlotState::Waiting);
    assert_eq!(plant.dosing.len(), 1);
}

#[test]
fn a_map_request_is_supplied() {
    let (mut layer, mut plant) = (layer(), Plant::default());
    let request = |layer: &mut Layer| {
        let queued = layer.request_fmap(Caller(1), FileNumber(9), 2, 3, WHO);
        queued.unwrap().tag
    };
    let tag = request(&mut layer);
    assert_eq!(layer.serve(&mut plant), Served::default());
    let map = plant.maps.remove(0);
    assert_eq!(
        (map.tag(), map.file(), map.pid()),
        (tag, FileNumber(9), Pid(9))
    );
    assert_eq!((map.flags(), map.pages()), (3, 2));
    // off a page it comes back
    let map = map
        .supply(1, 4096)
        .unwrap_err()
        .supply(0, 4095)
        .unwrap_err();
    let supply = map.supply(0, 4096).unwrap();
    let served = layer.answer(supply);
    let page = Supplied {
        tag,
        offset: 0,
        base: 4096,
    };
    assert_eq!(served.supplied, [page]);
    assert!(served.effects.is_empty() && served.refused.is_empty());
    assert_eq!(layer.slot(tag).state, SlotState::Vacant);

    let tag = request(&mut layer);
    assert_eq!(layer.serve(&mut plant), Served::default());
    layer.ended(Caller(1));
    let supply = plant.maps.remove(0).supply(0, 4096).unwrap();
    let refused = layer.answer(supply).refused;
    assert_eq!(
        (refused[0].what, refused[0].why),
        (Rejected::Supply(tag), Refusal::Esrch)
    );
    assert_eq!(
        refused[0].to_string(),
        "the supply to tag 0 was refused: the caller has ended (3)"
    );
}

/// A bad entry hides none of the others, wherever it stands.
#[test]
fn a_refused_entry_is_passed() {
    for place in 0..3 {
        let mut layer = layer();
        let tags = [100, 101].map(|caller| call(&mut layer, caller, Opcode::Read, 0));
        let mut calls = Vec::new();
        while let Some(Taken::Call(call)) = layer.next_entry() {
            calls.push(call);
        }
        let mut entries: Vec<Completion> = calls.into_iter().map(|call| call.ok(4)).collect();
        entries.insert(place, Completion::event(1, EventFlags::from_bits(1 << 20)));
        let served = layer.answer(entries);
        assert_eq!(woken(&served), [(100, tags[0].0), (101, tags[1].0)]);
        let [refused] = <[_; 1]>::try_from(served.refused).unwrap();
        assert_eq!((refused.why, &refused.call), (Refusal::Einval, &None));
        assert!(matches!(refused.what, Rejected::Entry(entry) if entry.kind() == 2));
        assert_eq!(
            refused.to_string(),
            "an event was refused: not valid there (22)"
        );
        for (tag, caller) in tags.into_iter().zip([100, 101]) {
            assert_eq!(read(&mut layer, tag, caller), Ok(4));
        }
    }
}

/// Replies with a handle that is empty, and with what it is told to when that is refused.
struct Fumbling {
    again: fn(Call) -> Answer,
    refused: usize,
}

impl Driver for Fumbling {
    fn openat(&mut self, call: Call) -> Answer {
        call.descriptor(Handle(5)).into()
    }

    fn read(&mut self, call: Call) -> Answer {
        call.ok(4).into()
    }

    fn on_refused(&mut self, call: Call, why: Refusal) -> Answer {
        assert_eq!(why, Refusal::Einval);
        self.refused += 1;
        (self.again)(call)
    }
}

/// In a driver's turn too, first, in the middle and last; and the call whose reply it was is not left waiting.
#[test]
fn a_refused_reply_is_made_again() {
    type Again = fn(Call) -> Answer;
    let otherwise: [(Again, Result<u64, Errno>, usize); 2] = [
        (|call| call.err(Errno::ENOSPC).into(), Err(Errno::ENOSPC), 1),
        // refused a second time
        (|call| call.descriptor(Handle(6)).into(), Err(Errno::EIO), 2),
    ];
    for (again, wanted, times) in otherwise {
        for place in 0..3 {
            let mut layer = layer();
            let opcode = |at| {
                if at == place {
                    Opcode::OpenAt
                } else {
                    Opcode::Read
                }
            };
            let tags = [0, 1, 2].map(|at| call(&mut layer, 100 + at as u32, opcode(at), 0));
            let mut driver = Fumbling { again, refused: 0 };
            let served = layer.serve(&mut driver);
            assert_eq!(woken(&served), [(100, 0), (101, 1), (102, 2)]);
            assert_eq!((served.refused.len(), driver.refused), (times, 1));
            assert!(served.refused.iter().all(|refused| refused.call.is_none()));
            for (at, tag) in tags.into_iter().enumerate() {
                let wanted = if at == place { wanted } else { Ok(4) };
                assert_eq!(read(&mut layer, tag, 100 + at as u32), wanted);
            }
        }
    }
    // as it is where a driver says nothing about it
    struct Plain;
    impl Driver for Plain {
        fn openat(&mut self, call: Call) -> Answer {
            call.descriptor(Handle(5)).into()
        }
    }
    let mut layer = layer();
    let tag = call(&mut layer, 100, Opcode::OpenAt, 0);
    assert_eq!(layer.serve(&mut Plain).refused.len(), 1);
    assert_eq!(read(&mut layer, tag, 100), Err(Errno::EIO));
}

#[test]
fn a_driver_that_is_gone() {
    let (mut layer, mut plant) = (layer(), Plant::default());
    let taken = call(&mut layer, 100, Opcode::Write, DOSER);
    let map = layer.request_fmap(Caller(101), FileNumber(9), 1, 0, WHO);
    let map = map.unwrap().tag;
    assert_eq!(layer.serve(&mut plant), Served::default());
    let unread = call(&mut layer, 102, Opcode::Write, VALVE);
    let reserved = layer.reserve(Caller(103)).unwrap();

    let map_unread = layer.request_fmap(Caller(101), FileNumber(8), 1, 0, WHO);
    let map_unread = map_unread.unwrap().tag;

    assert!(layer.open(Description(7)).is_ok());
    assert!(layer.put(Description(7), Handle(63)).is_ok());
    let gone = layer.driver_gone(Errno::EIO);
    assert_eq!(gone.handles, [(Handle(63), Description(7))]);
    let wakes = [(100, taken), (102, unread)].map(|(caller, tag)| Effect::Wake {
        caller: Caller(caller),
        tag,
    });
    assert_eq!(gone.effects, wakes);
    assert!(layer.unread().is_empty());
    assert_eq!(gone.lost_maps, [map]);
    let [request] = <[_; 1]>::try_from(gone.unread_maps).unwrap();
    assert_eq!((request.tag(), request.file()), (map_unread, FileNumber(8)));
    assert_eq!(read(&mut layer, unread, 102), Err(Errno::EIO));
    assert_eq!(read(&mut layer, taken, 100), Err(Errno::EIO));
    assert_eq!(layer.slot(map).state, SlotState::Fmap);
    assert_eq!(layer.slot(reserved).state, SlotState::Placeholder);
    // the next one serves, and what the one before still replies reaches nobody
    let mut next = Plant::default();
    let valve = call(&mut layer, 100, Opcode::Write, VALVE);
    assert_eq!(valve, plant.dosing[0].tag());
    let late = layer.answer(plant.dosing.remove(0).ok(20));
    assert_eq!(
        (late.effects.len(), late.refused[0].why),
        (0, Refusal::Einval)
    );
    let late = plant.maps.remove(0).supply(0, 4096).unwrap();
    assert_eq!(layer.answer(late).refused[0].why, Refusal::Einval);
    assert_eq!(woken(&layer.serve(&mut next)), [(100, valve.0)]);
    assert_eq!(read(&mut layer, valve, 100), Ok(1));
    let supplied = layer.answer(request.supply(0, 4096).unwrap()).supplied;
    assert_eq!(supplied.len(), 1);
    assert_eq!(layer.slot(map_unread).state, SlotState::Vacant);
}

/// Two drivers have a layer each, and both have a call with tag 0.
#[test]
fn a_call_is_answered_at_its_own_layer() {
    let (mut first, mut other, mut plant) = (layer(), layer(), Plant::default());
    let dose = call(&mut first, 100, Opcode::Write, DOSER);
    let tag = call(&mut other, 200, Opcode::Write, DOSER);
    assert_eq!(dose, tag);
    assert_eq!(first.serve(&mut plant), Served::default());
    let mut rack = Plant::default();
    assert_eq!(other.serve(&mut rack), Served::default());

    let before = other.clone();
    let mixed_up = other.answer(plant.dosing.remove(0).ok(20));
    assert_eq!((&other, mixed_up.effects.len()), (&before, 0));
    let [refused] = <[_; 1]>::try_from(mixed_up.refused).unwrap();
    assert_eq!(refused.why, Refusal::Einval);
    // it comes back and serves its own
    let done = refused.call.expect("it still waits").ok(20);
    assert_eq!(woken(&first.answer(done)), [(100, dose.0)]);

    // a copy has none of the calls that were taken
    let mut plant = rack;
    let mut copy = other.clone();
    let obtain = plant.dosing[0].obtain(Handle(0), ObtainFlags::NONE);
    assert_eq!(copy.answer(obtain).refused[0].why, Refusal::Einval);
    assert!(copy.open(Description(5)).is_ok() && other.open(Description(5)).is_ok());
    let taken = &plant.dosing[0];
    let given = copy.give_list(taken, &[Description(5)]);
    assert_eq!(given, Err(Refusal::Einval));
    assert_eq!(copy.holds(Description(5)).outside, 1);
    assert_eq!(copy.take_list(taken), Err(Refusal::Einval));
    assert_eq!(other.give_list(taken, &[Description(5)]), Ok(1));
    assert_eq!(other.slot(tag).descriptions, [Description(5)]);
    assert_eq!(other.take_list(taken), Ok(1));
    let refused = copy.answer(plant.dosing.remove(0).ok(20)).refused;
    assert_eq!(refused.len(), 1);
    assert_eq!(copy.slot(tag).state, SlotState::Waiting);

    // nor a map request's
    let map = first.request_fmap(Caller(1), FileNumber(9), 1, 0, WHO);
    assert!(map.is_ok());
    assert_eq!(first.serve(&mut plant), Served::default());
    let supply = plant.maps.remove(0).supply(0, 4096).unwrap();
    let [refused] = <[_; 1]>::try_from(other.answer(supply).refused).unwrap();
    assert_eq!(refused.why, Refusal::Einval);
    let supply = refused.request.expect("it comes back").supply(0, 4096);
    assert_eq!(first.answer(supply.unwrap()).supplied.len(), 1);

    // a driver that puts another layer's call to its own is passed, too
    struct Mixed(Option<Call>);
    impl Driver for Mixed {
        fn read(&mut self, call: Call) -> Answer {
            let stray = self.0.take().expect("asked once").ok(1);
            vec![stray, call.ok(2)].into()
        }
    }
    let stray = call(&mut first, 100, Opcode::Write, DOSER);
    let Some(Taken::Call(taken)) = first.next_entry() else {
        panic!("a call is queued")
    };
    let mut third = layer();
    let read = call(&mut third, 300, Opcode::Read, 0);
    let served = third.serve(&mut Mixed(Some(taken)));
    assert_eq!(woken(&served), [(300, read.0)]);
    let [refused] = <[_; 1]>::try_from(served.refused).unwrap();
    assert_eq!(refused.call.map(|call| call.tag()), Some(stray));
}

/// What goes with a call is refused once the call was replied to: its tag is the next call's.
#[test]
fn nothing_outlives_its_call() {
    let (mut layer, mut plant) = (layer(), Plant::default());
    let dose = call(&mut layer, 100, Opcode::Write, DOSER);
    assert_eq!(layer.serve(&mut plant), Served::default());
    let first = plant.dosing.remove(0);
    let obtain = first.obtain(Handle(0), ObtainFlags::NONE);
    assert!(matches!(
        layer.wake(dose, Caller(100)),
        Ok(Wake::Blocked(Some(_)))
    ));
    assert_eq!(woken(&layer.answer(first.ok(20))), [(100, dose.0)]);
    assert_eq!(read(&mut layer, dose, 100), Ok(20));

    // another call with the same tag and a list
    assert!(layer.open(Description(5)).is_ok());
    let args = [DOSER, 0, 0, 0, 0];
    let next = layer.call(Caller(200), Opcode::Write, args, WHO, &[Description(5)]);
    assert_eq!(next.map(|next| next.tag), Ok(dose));
    let refused = layer.answer(obtain).refused;
    assert_eq!(refused[0].why, Refusal::Einval);
    assert_eq!(layer.handle(Handle(0)), None);
    // the Cancel of the first is not for it
    let Some(Taken::Cancel(cancel)) = layer.next_entry() else {
        panic!("a Cancel is queued")
    };
    assert_eq!(layer.serve(&mut plant), Served::default());
    assert_eq!(cancel.tag(), plant.dosing[0].tag());
    assert!(!cancel.is_for(&plant.dosing[0]));
    assert_eq!(layer.slot(dose).descriptions, [Description(5)]);
}

/// A reply by bytes to a call that was taken leaves it in its driver's hands; the tag's next user is safe from it.
#[test]
fn a_call_that_was_answered_by_bytes() {
    let (mut layer, mut plant) = (layer(), Plant::default());
    let dose = call(&mut layer, 100, Opcode::Write, DOSER);
    assert_eq!(layer.serve(&mut plant), Served::default());
    assert_eq!(layer.write(&[0; 16]).answer, Ok(16));
    assert_eq!(read(&mut layer, dose, 100), Ok(0));
    assert_eq!(call(&mut layer, 200, Opcode::Write, VALVE), dose);
    let late = layer.answer(plant.dosing.remove(0).ok(20));
    assert_eq!(
        (late.effects.len(), late.refused[0].why),
        (0, Refusal::Einval)
    );
    assert_eq!(woken(&layer.serve(&mut plant)), [(200, dose.0)]);
}

#[test]
fn a_caller_is_killed() {
    let (mut layer, mut plant) = (layer(), Plant::default());
    let dose = call(&mut layer, 100, Opcode::Write, DOSER);
    let valve = call(&mut layer, 100, Opcode::Write, VALVE);
    let other = call(&mut layer, 200, Opcode::Write, DOSER);
    assert_eq!(woken(&layer.serve(&mut plant)), [(100, valve.0)]);
    let span = Span { base: 3, count: 1 };
    let returned = call(&mut layer, 100, Opcode::Write, DOSER);
    let early = layer.wake_killed(returned, Caller(100), Span::NONE);
    assert_eq!(early, Ok(Killed::Returned));
    // asked for those alone that return now
    let mut asked = Vec::new();
    let left = layer.kill(Caller(100), |tag| {
        asked.push(tag);
        span
    });
    assert_eq!(asked, [dose]);
    let [(first, Killed::Returned), (second, Killed::Replied(reply))] = &left[..] else {
        panic!("{left:?}")
    };
    assert_eq!((*first, *second), (dose, valve));
    assert_eq!(reply.clone().into_regular(), Ok(1));
    let slot = layer.slot(dose);
    assert!(slot.ended && slot.returned && slot.span == span);
    assert!(layer.kill(Caller(100), |_| Span::NONE).is_empty());
    // the late reply frees the slot, and the other call goes on
    let served = layer.answer(plant.dosing.remove(0).ok(20));
    assert_eq!(served.effects, [Effect::Unmap { span }]);
    let occupied: Vec<Tag> = layer.occupied().iter().map(|(tag, _)| *tag).collect();
    assert_eq!(occupied, [other, returned]);
}

/// What was served before a driver panics is there.
#[test]
fn a_driver_that_panics() {
    struct Broken;
    impl Driver for Broken {
        fn read(&mut self, call: Call) -> Answer {
            call.ok(1).into()
        }

        fn write(&mut self, _: Call) -> Answer {
            panic!("as it was asked to")
        }

        fn on_refused(&mut self, _: Call, _: Refusal) -> Answer {
            panic!("as it was asked to")
        }
    }
    let mut layer = layer();
    let good = call(&mut layer, 100, Opcode::Read, 0);
    let bad = call(&mut layer, 101, Opcode::Write, 0);
    let mut served = Served::default();
    let turn = std::panic::AssertUnwindSafe(|| layer.serve_into(&mut Broken, &mut served));
    assert!(std::panic::catch_unwind(turn).is_err());
    assert_eq!(woken(&served), [(100, good.0)]);
    let gone = layer.driver_gone(Errno::EIO);
    let caller = Caller(101);
    assert_eq!(gone.effects, [Effect::Wake { caller, tag: bad }]);

    let good = call(&mut layer, 102, Opcode::Read, 0);
    let bad = call(&mut layer, 103, Opcode::Read, 0);
    let mut calls = Vec::new();
    while let Some(Taken::Call(call)) = layer.next_entry() {
        calls.push(call);
    }
    let second = calls.pop().unwrap().descriptor(Handle(5));
    let first = calls.pop().unwrap().ok(1);
    let mut served = Served::default();
    let turn = std::panic::AssertUnwindSafe(|| {
        layer.answer_into(&mut Broken, vec![first, second], &mut served);
    });
    assert!(std::panic::catch_unwind(turn).is_err());
    assert_eq!(woken(&served), [(102, good.0)]);
    assert_eq!(layer.slot(bad).state, SlotState::Waiting);
}

/// Nobody will fetch their replies, and still a driver has to reply to them.
#[test]
fn orphans_are_replied_to() {
    let mut layer = layer();
    let killed = call(&mut layer, 100, Opcode::Write, DOSER);
    let ended = call(&mut layer, 101, Opcode::Write, DOSER);
    let refused = call(&mut layer, 102, Opcode::Write, DOSER);
    let other = call(&mut layer, 103, Opcode::Write, DOSER);
    let all = [killed, ended, refused, other];
    let calls = all.map(|_| match layer.next_entry() {
        Some(Taken::Call(call)) => call,
        other => panic!("{other:?}"),
    });
    assert_eq!(
        layer.wake_killed(killed, Caller(100), Span::NONE),
        Ok(Killed::Returned)
    );
    layer.ended(Caller(101));
    layer.ended(Caller(102));
    let status = layer.status();
    assert_eq!(status.orphans.tags().collect::<Vec<_>>(), all[..3]);
    assert_eq!(status.outstanding.tags().collect::<Vec<_>>(), all[3..]);
    assert_eq!((status.orphans.count, status.outstanding.count), (3, 1));
    assert_eq!(status.waiting().collect::<Vec<_>>(), all);

    // an orphan's refused entry comes back with its call: its driver owes it another
    let [_, _, call, _] = calls;
    let mut served = layer.answer(call.descriptor(Handle(5)));
    let back = served.refused.pop().and_then(|refused| refused.call);
    assert_eq!(back.map(|call| call.tag()), Some(refused));

    // and where the driver is gone, each gets its error: the slots of ended callers are vacant
    let gone = layer.driver_gone(Errno::EIO);
    let wakes = [(100, killed), (103, other)].map(|(caller, tag)| Effect::Wake {
        caller: Caller(caller),
        tag,
    });
    assert_eq!(gone.effects, wakes);
    let status = layer.status();
    assert_eq!((status.orphans.bits, status.outstanding.bits), (0, 0));
    assert_eq!(status.responded.tags().collect::<Vec<_>>(), [killed, other]);
    assert_eq!(layer.slot(ended).state, SlotState::Vacant);
}

#[test]
fn words_that_read_as_errors() {
    let (mut layer, mut plant) = (layer(), Plant::default());
    let tag = call(&mut layer, 100, Opcode::Write, DOSER);
    assert_eq!(layer.serve(&mut plant), Served::default());
    // a gauge of -100 in 32 bits
    let call = plant.dosing.remove(0).try_ok(0xffff_ff9c).unwrap_err();
    let reply = call.try_ok(0xffff_ffff_0000_0064).unwrap();
    assert_eq!(woken(&layer.answer(reply)), [(100, 0)]);
    assert_eq!(read(&mut layer, tag, 100), Ok(0xffff_ffff_0000_0064));
}

/// A scheduler and a driver on threads of their own: the layer is free while the driver works.
#[test]
fn threads_take_turns() {
    use std::sync::Mutex;

    fn is_shared<T: Send + Sync>() {}
    is_shared::<Layer>();
    fn is_sent<T: Send>() {}
    is_sent::<(Call, MapRequest, Completion, Answer, Served)>();

    let layer = Mutex::new(layer());
    let calls = 2_000;
    std::thread::scope(|threads| {
        let driver = threads.spawn(|| {
            let mut left = calls;
            while left > 0 {
                let taken = layer.lock().unwrap().next_entry();
                let Some(taken) = taken else {
                    std::thread::yield_now();
                    continue;
                };
                let answer = tilgurap::dispatch(&mut Numbered, taken);
                let served = layer.lock().unwrap().answer_for(&mut Numbered, answer);
                assert_eq!((served.effects.len(), served.refused.len()), (1, 0));
                left -= 1;
            }
        });
        for caller in [1, 2] {
            let layer = &layer;
            threads.spawn(move || {
                for _ in 0..calls / 2 {
                    let tag = call(&mut layer.lock().unwrap(), caller, Opcode::Fsync, 0);
                    loop {
                        let mut layer = layer.lock().unwrap();
                        if layer.slot(tag).state == SlotState::Responded {
                            let wanted = u64::from(Opcode::Fsync.number());
                            assert_eq!(read(&mut layer, tag, caller), Ok(wanted));
                            break;
                        }
                        drop(layer);
                        std::thread::yield_now();
                    }
                }
            });
        }
        driver.join().unwrap();
    });
    assert!(layer.into_inner().unwrap().occupied().is_empty());
}

#[test]
fn flags_and_limits() {
    let both = EventFlags::READ | EventFlags::HUP;
    assert!(both.contains(EventFlags::READ) && both.contains(EventFlags::HUP));
    assert!(!both.contains(EventFlags::WRITE) && !EventFlags::READ.contains(both));
    assert!(both.contains(EventFlags::NONE) && EventFlags::default() == EventFlags::NONE);
    let mut flags = ObtainFlags::NONE;
    flags |= ObtainFlags::CLOEXEC;
    assert_eq!((flags.bits(), SqeFlags::MULTIPLE_IDS.bits()), (8, 2));

    let mut layer = layer();
    for _ in 0..limits::SLOTS {
        assert!(layer.reserve(Caller(1)).is_ok());
    }
    assert_eq!(layer.reserve(Caller(1)), Err(Refusal::NoVacantSlot));
    for _ in 0..limits::QUEUE_ENTRIES {
        assert!(layer.close(FileNumber(1)).is_ok());
    }
    assert_eq!(layer.close(FileNumber(1)), Err(Refusal::QueueFull));
    let last = Description(limits::DESCRIPTIONS as u64 - 1);
    assert!(layer.open(last).is_ok());
    let beyond = Description(limits::DESCRIPTIONS as u64);
    assert_eq!(layer.open(beyond), Err(Refusal::OutOfRules));
    assert!(layer.put(last, Handle(limits::HANDLES as u64 - 1)).is_ok());
    assert!(layer.open(Description(0)).is_ok());
    for _ in 1..limits::HOLDS {
        assert!(layer.copy(Description(0)).is_ok());
    }
    let full = layer.copy(Description(0));
    assert_eq!(full, Err(Refusal::HoldsFull));
    let list = [Description(0); limits::LIST + 1];
    assert_eq!(
        layer.move_list(Tag(0), &list),
        Err(Refusal::ManyDescriptions)
    );
    assert_eq!(layer.move_list(Tag(0), &list[1..]), Err(Refusal::Enoent));
    assert_eq!(limits::EFFECT_WORDS, 3 * limits::EFFECTS);
}
