//! A driver, a method for each opcode, and the turn that it takes at its layer.

use alloc::vec::Vec;
use core::fmt::{self, Display, Formatter};

use crate::completion::Completion;
use crate::effect::Effect;
use crate::entry::Cqe;
use crate::errno::{Errno, mux};
use crate::ids::{Description, FileNumber, Handle, Pid, Tag};
use crate::layer::{Layer, Written};
use crate::limits::HANDLES;
use crate::opcode::Opcode;
use crate::refusal::Refusal;
use crate::taken::{Call, Cancel, MapRequest, Serial, Serials, Supply, Taken};

/// What a driver gives back.
#[derive(Debug, PartialEq, Eq)]
#[must_use = "it is to be put to the layer"]
pub enum Answer {
    /// Nothing now: a call or a map request is kept for later, a notice wants nothing.
    Nothing,
    /// An entry: the reply to this call or to one that was kept, or an event.
    Entry(Completion),
    /// A map request's page.
    Supply(Supply),
    /// Several, in order.
    Several(Vec<Answer>),
}

impl From<Completion> for Answer {
    fn from(entry: Completion) -> Answer {
        Answer::Entry(entry)
    }
}

impl From<Vec<Completion>> for Answer {
    fn from(entries: Vec<Completion>) -> Answer {
        Answer::Several(entries.into_iter().map(Answer::Entry).collect())
    }
}

impl From<Supply> for Answer {
    fn from(supply: Supply) -> Answer {
        Answer::Supply(supply)
    }
}

/// What a driver's answers came to. The effects have to be carried out, in order.
#[derive(Debug, Default, PartialEq, Eq)]
#[must_use = "its effects are the host's to carry out"]
pub struct Served {
    /// What the host has to do.
    pub effects: Vec<Effect>,
    /// The pages that were accepted, for the host to map.
    pub supplied: Vec<Supplied>,
    /// What the layer refused. It hid nothing: all else was put to the layer.
    pub refused: Vec<Refused>,
}

/// A page that a map request was supplied with. Its slot is vacant again.
#[derive(Clone, Copy, Debug, PartialEq, Eq)]
pub struct Supplied {
    /// Which map request.
    pub tag: Tag,
    /// The page's offset in the file.
    pub offset: u64,
    /// Where it lies.
    pub base: u64,
}

/// What a driver that is gone leaves. The effects have to be carried out, in order.
#[derive(Debug, PartialEq, Eq)]
#[must_use = "its effects are the host's to carry out"]
pub struct Gone {
    /// What the host has to do.
    pub effects: Vec<Effect>,
    /// The map requests that it had not read, for the driver that takes its place.
    pub unread_maps: Vec<MapRequest>,
    /// Those that it had taken, and those of an earlier `Gone` that were not supplied yet: their slots stay taken until
    /// somebody supplies a page ([`provide_mmap`](Layer::provide_mmap)), also where the caller has ended.
    pub lost_maps: Vec<Tag>,
    /// What its handles hold. They stay full: the next driver may reply with these descriptions, and nothing else empties
    /// a handle.
    pub handles: Vec<(Handle, Description)>,
}

/// What the layer refused of a driver's answers.
#[derive(Debug, PartialEq, Eq)]
pub struct Refused {
    /// What it was.
    pub what: Rejected,
    /// Why.
    pub why: Refusal,
    /// The call, where a reply was refused and it still wants one (that was a descriptor from an empty handle, say), or
    /// where it is not this layer's: one that is dropped leaves its caller waiting. That of a driver that was
    /// [gone](Layer::driver_gone) comes back too, has got its error, and is refused wherever it is put.
    pub call: Option<Call>,
    /// The map request, where it is not this layer's, in the same way.
    pub request: Option<MapRequest>,
}

/// Something that the layer refused.
#[derive(Clone, Copy, Debug, PartialEq, Eq)]
pub enum Rejected {
    /// An entry.
    Entry(Cqe),
    /// The supply of the map request with this tag.
    Supply(Tag),
}

impl Display for Refused {
    fn fmt(&self, f: &mut Formatter) -> fmt::Result {
        match &self.what {
            // an event's flags stand where a tag does
            Rejected::Entry(entry) if entry.kind() == 2 => write!(f, "an event")?,
            Rejected::Entry(entry) => {
                let (kind, tag) = (entry.kind(), entry.tag());
                write!(f, "an entry of kind {kind} with tag {tag}")?;
            }
            Rejected::Supply(tag) => write!(f, "the supply to tag {tag}")?,
        }
        write!(f, " was refused: {}", self.why)
    }
}

/// The trait's methods for calls and their dispatch, from one table.
macro_rules! calls {
    ($($(#[$doc:meta])* $method:ident = $opcode:ident;)*) => {
        /// A driver: a method for each opcode. A call comes as a [`Call`], which its reply uses up; what wants
        /// no reply comes without one. A driver that is not done with a call keeps it, answers
        /// [`Nothing`](Answer::Nothing), and puts the reply to its layer later ([`Layer::answer`]).
        ///
        /// A call whose method is not written gets [`EOPNOTSUPP`](Errno::EOPNOTSUPP). The arguments named below
        /// are those that the Redox kernel sends (src/scheme/user.rs); an opcode without any is one that it does not send there.
        /// The layer passes any on. A [`Layer::call`] has the caller's uid and gid (gid times 2^32) as its sixth.
        ///
        /// ```
        /// use tilgurap::{
        ///     Answer, Call, Caller, Driver, Effect, FileNumber, Identity, Layer, Opcode, Pid, Reply,
        ///     SchemeNumber, Tag, Wake,
        /// };
        ///
        /// /// Doses come to an end later, the gauge is read at once.
        /// #[derive(Default)]
        /// struct Plant {
        ///     dosing: Vec<Call>,
        /// }
        ///
        /// impl Driver for Plant {
        ///     fn read(&mut self, call: Call) -> Answer {
        ///         call.ok(34).into()
        ///     }
        ///
        ///     fn write(&mut self, call: Call) -> Answer {
        ///         self.dosing.push(call);
        ///         Answer::Nothing
        ///     }
        /// }
        ///
        /// let (mut layer, mut plant) = (Layer::new(SchemeNumber(7)), Plant::default());
        /// let who = Identity { uid: 0, gid: 0, pid: Pid(100) };
        /// let dose = layer.call(Caller(100), Opcode::Write, [2, 20, 0, 0, 0], who, &[])?.tag;
        /// let gauge = layer.call(Caller(101), Opcode::Read, [3, 0, 0, 0, 0], who, &[])?.tag;
        /// assert!(layer.close(FileNumber(3)).is_ok());
        ///
        /// // the driver's turn: of three entries one is replied to, one kept, one wants nothing
        /// let served = layer.serve(&mut plant);
        /// assert_eq!(served.effects, [Effect::Wake { caller: Caller(101), tag: gauge }]);
        ///
        /// // later
        /// let done = plant.dosing.remove(0).ok(20);
        /// let served = layer.answer(done);
        /// assert_eq!(served.effects, [Effect::Wake { caller: Caller(100), tag: dose }]);
        /// # Ok::<(), tilgurap::Refusal>(())
        /// ```
        pub trait Driver {
            $(
                $(#[$doc])*
                fn $method(&mut self, call: Call) -> Answer {
                    call.err(Errno::EOPNOTSUPP).into()
                }
            )*

            /// A map request: it wants a page, now or later. A driver that lets its files be mapped writes this one:
            /// a request that is dropped leaves its caller waiting and its slot taken.
            fn request_mmap(&mut self, _request: MapRequest) -> Answer {
                Answer::Nothing
            }

            /// A call is to be given up: a driver that has kept it ([`Cancel::is_for`]) may reply to it now, with
            /// [`ECANCELED`](Errno::ECANCELED) or as it was asked to. The call wants its reply in any case.
            fn on_cancel(&mut self, _cancel: Cancel) -> Answer {
                Answer::Nothing
            }

            /// A file's last descriptor was closed.
            fn on_close(&mut self, _file: FileNumber) -> Answer {
                Answer::Nothing
            }

            /// A descriptor was detached from its file.
            fn on_detach(&mut self, _file: FileNumber, _pid: Pid) -> Answer {
                Answer::Nothing
            }

            /// The reply to this call was refused, and the call still waits. [`Layer::serve`] and
            /// [`Layer::answer_for`] ask this. A call whose reply is refused in what this answers gets
            /// [`EIO`](Errno::EIO).
            fn on_refused(&mut self, call: Call, _why: Refusal) -> Answer {
                call.err(Errno::EIO).into()
            }
        }

        fn dispatch_call<D: Driver + ?Sized>(driver: &mut D, call: Call) -> Answer {
            match call.opcode() {
                $(Some(Opcode::$opcode) => driver.$method(call),)*
                // those that are no calls, and numbers that are no opcodes
                _ => call.err(Errno::EOPNOTSUPP).into(),
            }
        }
    };
}

calls! {
    /// Close.
    close = Close;
    /// Open again: file, address, length.
    dup = Dup;
    /// Read: file, address, length, offset, flags.
    read = Read;
    /// Write: file, address, length, offset, flags.
    write = Write;
    /// A file's size: file.
    fsize = Fsize;
    /// Change the mode.
    fchmod = Fchmod;
    /// Change the owner: file, uid, gid.
    fchown = Fchown;
    /// File control: file, command, argument.
    fcntl = Fcntl;
    /// Ask for events: file, flags.
    fevent = Fevent;
    /// Descriptors are sent along: file, flags ([`SendFdFlags`](crate::SendFdFlags)), the first metadata word, how many.
    /// [`Layer::take_list`] or [`Call::obtain`] takes them.
    sendfd = Sendfd;
    /// A file's path: file, address, length.
    fpath = Fpath;
    /// Rename: file, address, length.
    frename = Frename;
    /// A file's data: file, address, length.
    fstat = Fstat;
    /// A file system's data.
    fstatvfs = Fstatvfs;
    /// Write out what is buffered: file.
    fsync = Fsync;
    /// Set the length.
    ftruncate = Ftruncate;
    /// Set the times.
    futimens = Futimens;
    /// Get ready to map: file, size, flags, offset.
    mmap_prep = MmapPrep;
    /// Map anew.
    mremap = Mremap;
    /// Unmap: file, size, flags, offset.
    munmap = Munmap;
    /// Write a mapping out.
    msync = Msync;
    /// List a folder.
    getdents = Getdents;
    /// A call of the driver's own: file, address, length, metadata; with two files the second as the sixth.
    call = Call;
    /// Open a path: file, address, length, flags, descriptor flags.
    openat = OpenAt;
    /// Link: file, address, length.
    flink = Flink;
    /// Descriptors are asked for: file, flags ([`RecvFdFlags`](crate::RecvFdFlags)), how many there is room for, two metadata words.
    /// [`Layer::give_list`] gives some, and [`Call::many`] replies with them; any other reply but an error reads as
    /// [`EIO`](Errno::EIO).
    recvfd = Recvfd;
    /// Remove a path.
    unlinkat = UnlinkAt;
    /// A standard file system call: file, address, length, kind, two arguments.
    std_fs_call = StdFsCall;
}

/// Hands what a driver has taken to the method for it, for a host whose layer is free for others meanwhile; what it gives goes to
/// [`Layer::answer_for`]. [`Layer::serve`] does both for a whole turn.
pub fn dispatch<D: Driver + ?Sized>(driver: &mut D, taken: Taken) -> Answer {
    match taken {
        Taken::Call(call) => dispatch_call(driver, call),
        Taken::MapRequest(request) => driver.request_mmap(request),
        Taken::Cancel(cancel) => driver.on_cancel(cancel),
        Taken::Close { file } => driver.on_close(file),
        Taken::Detach { file, pid } => driver.on_detach(file, pid),
    }
}

impl Layer {
    /// A driver's turn: it takes every entry that is queued, and what it answers is put to the layer. What is refused
    /// is passed and reported; the driver may answer a call that still waits otherwise
    /// ([`on_refused`](Driver::on_refused)).
    pub fn serve<D: Driver + ?Sized>(&mut self, driver: &mut D) -> Served {
        let mut served = Served::default();
        self.serve_into(driver, &mut served);
        served
    }

    /// As [`serve`](Layer::serve), added to what was served before: it is there also if the driver panics, and then the
    /// call that it was at is lost ([`driver_gone`](Layer::driver_gone)).
    pub fn serve_into<D: Driver + ?Sized>(&mut self, driver: &mut D, served: &mut Served) {
        while let Some(taken) = self.next_entry() {
            let answer = dispatch(driver, taken);
            self.answer_into(driver, answer, served);
        }
    }

    /// Puts to the layer what a driver answers, as [`answer`](Layer::answer) does, and asks the driver about a reply that was
    /// refused ([`on_refused`](Driver::on_refused)).
    pub fn answer_for<D: Driver + ?Sized>(
        &mut self,
        driver: &mut D,
        answer: impl Into<Answer>,
    ) -> Served {
        let mut served = Served::default();
        self.answer_into(driver, answer, &mut served);
        served
    }

    /// As [`answer_for`](Layer::answer_for), added to what was served before: it is there also if the driver panics.
    pub fn answer_into<D: Driver + ?Sized>(
        &mut self,
        driver: &mut D,
        answer: impl Into<Answer>,
        served: &mut Served,
    ) {
        let mut looked_at = served.refused.len();
        self.put_answer(answer.into(), served);
        let first = served.refused.len();
        while let Some(refused) = served.refused.get_mut(looked_at) {
            let taken = &self.taken;
            let own = |call: &mut Call| is_own(taken, call.tag(), call.serial);
            if let Some(call) = refused.call.take_if(own) {
                // asked once: a reply with an error is not refused
                let again = if looked_at < first {
                    driver.on_refused(call, refused.why)
                } else {
                    call.err(Errno::EIO).into()
                };
                self.put_answer(again, served);
            }
            looked_at += 1;
        }
    }

    /// Puts to the layer what a driver answers: a reply, an event, a page, several. Each entry is an event of its own,
    /// so that a refused one hides none behind it. What goes with a call of another layer's, or whose tag is another call's by
    /// now, is refused with [`Einval`](Refusal::Einval), and the layer is not asked.
    pub fn answer(&mut self, answer: impl Into<Answer>) -> Served {
        let mut served = Served::default();
        self.put_answer(answer.into(), &mut served);
        served
    }

    /// A driver gives a call that it has taken these descriptions, out of outside holds, in the place of those that it
    /// has: [`move_list`](Layer::move_list), for this call and no other. [`Einval`](Refusal::Einval) where it is another
    /// layer's, and nothing is dropped then. What the call had is dropped, with no close.
    pub fn give_list(&mut self, call: &Call, list: &[Description]) -> Result<usize, Refusal> {
        self.own(call.tag(), call.serial)?;
        self.move_list(call.tag(), list)
    }

    /// A driver takes the descriptions of a call that it has taken: [`obtain_list`](Layer::obtain_list), of this call
    /// and no other.
    pub fn take_list(&mut self, call: &Call) -> Result<usize, Refusal> {
        self.own(call.tag(), call.serial)?;
        self.obtain_list(call.tag())
    }

    /// The driver is gone with the calls that it had taken: what it has not read is removed, and every call that
    /// waits gets this error. A driver that takes its place begins with an empty queue and with the map requests that
    /// were unread; what the one before still has to say of its calls is refused, an event is not.
    pub fn driver_gone(&mut self, errno: Errno) -> Gone {
        self.taken = Serials::none();
        let mut unread_maps = Vec::new();
        while let Some(taken) = self.next_entry() {
            if let Taken::MapRequest(request) = taken {
                unread_maps.push(request);
            }
        }
        let mut effects = Vec::new();
        for tag in self.status().waiting() {
            let entry = Cqe::new(0, tag, mux(Err(errno)));
            let written = self.write(&entry.to_bytes());
            debug_assert_eq!(written.answer, Ok(Cqe::BYTES));
            effects.extend(written.effects);
        }
        let unread = |tag: &Tag| unread_maps.iter().any(|request| request.tag() == *tag);
        let lost_maps = (self.status().fmap.tags())
            .filter(|tag| !unread(tag))
            .collect();
        let handles = (0..HANDLES as u64).map(Handle);
        let held = |handle| self.handle(handle).map(|held| (handle, held));
        Gone {
            effects,
            unread_maps,
            lost_maps,
            handles: handles.filter_map(held).collect(),
        }
    }

    /// What goes with a call or map request that was not taken here, or is done with, is not put to the layer.
    fn own(&self, tag: Tag, serial: Serial) -> Result<(), Refusal> {
        match is_own(&self.taken, tag, serial) {
            true => Ok(()),
            false => Err(Refusal::Einval),
        }
    }

    fn put_answer(&mut self, answer: Answer, served: &mut Served) {
        match answer {
            Answer::Nothing => {}
            Answer::Entry(entry) => self.put_entry(entry, served),
            Answer::Supply(supply) => self.put_supply(supply, served),
            Answer::Several(answers) => {
                for answer in answers {
                    self.put_answer(answer, served);
                }
            }
        }
    }

    fn put_supply(&mut self, supply: Supply, served: &mut Served) {
        let tag = supply.request.tag();
        let mut refuse = |why, request| {
            let what = Rejected::Supply(tag);
            served.refused.push(Refused {
                what,
                why,
                call: None,
                request,
            });
        };
        if let Err(why) = self.own(tag, supply.request.serial) {
            return refuse(why, Some(supply.request));
        }
        let Supply { offset, base, .. } = supply;
        match self.provide_mmap(tag, offset, base, 1) {
            Ok(()) => served.supplied.push(Supplied { tag, offset, base }),
            Err(why) => refuse(why, None),
        }
    }

    fn put_entry(&mut self, completion: Completion, served: &mut Served) {
        let Completion {
            entry,
            serial,
            call,
        } = completion;
        let mut refuse = |why, call| {
            let what = Rejected::Entry(entry);
            served.refused.push(Refused {
                what,
                why,
                call,
                request: None,
            });
        };
        if let Err(why) = self.own(entry.tag(), serial) {
            return refuse(why, call);
        }
        let Written { answer, effects } = self.write(&entry.to_bytes());
        if let Err(why) = answer {
            // by the status words, which take no copy of the state
            let waits = |call: &Call| self.status().waiting().any(|tag| tag == call.tag());
            refuse(why, call.filter(waits));
        }
        served.effects.extend(effects);
    }
}

/// May something that goes with this call be put to the layer where these were taken?
fn is_own(taken: &Serials, tag: Tag, serial: Serial) -> bool {
    serial == Serial::ELSEWHERE || taken.at(tag) == serial
}
