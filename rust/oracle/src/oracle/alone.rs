//! Calls on one thread, for their time: whoever measures them measures no hand-over.

use std::cell::RefCell;
use std::rc::Rc;
use std::sync::Arc;
use std::time::Duration;

use script::Event;
use syscall::CallFlags;
use syscall::schemev2::{Opcode, Sqe, SqeFlags};

use super::{Oracle, clean, description};
use crate::context::Context;
use crate::context::memory::PageSpan;
use crate::count;
use crate::machine::{Machine, OnSwitch};
use crate::scheme::CallerCtx;
use crate::scheme::KernelScheme;
use crate::scheme::user::{UserInner, UserScheme};
use crate::sync::RwLock;
use crate::syscall::error::{EIO, Error};
use crate::syscall::usercopy::{UserSlice, UserSliceRw};

/// The kernel's own time in each part of a call.
#[derive(Clone, Copy, Debug, Default)]
pub struct Alone {
    /// From its entry until it blocks.
    pub entered: Duration,
    /// A wake for nothing: a Cancel is queued and it blocks again.
    pub canceled: Duration,
    /// A wake for its reply.
    pub handed: Duration,
    /// Reading the call's entry, reading the Cancel, writing the reply.
    pub driver: [Duration; 3],
}

/// What a call's driver does meanwhile.
struct Meanwhile {
    machine: Arc<Machine>,
    inner: Arc<UserInner>,
    told: RefCell<Alone>,
}

impl Meanwhile {
    fn read(&self) -> Duration {
        let mut entry = [0u8; size_of::<Sqe>()];
        // SAFETY: the bytes outlive the slice.
        let slice = unsafe { UserSlice::new(entry.as_mut_ptr() as usize, entry.len()) };
        let read = || self.inner.read(slice, 0, &mut clean());
        let read = self.machine.kernel(read);
        assert_eq!(read, Ok(entry.len()), "the entry is there");
        self.machine.clock(true)
    }

    fn reply(&self, tag: u32) -> Duration {
        let mut entry = [0u8; 16];
        entry[4..8].copy_from_slice(&tag.to_le_bytes());
        entry[8] = 7;
        // SAFETY: the bytes outlive the slice.
        let slice = unsafe { UserSlice::new(entry.as_ptr() as usize, entry.len()) };
        let written = || self.inner.write(slice, &mut clean());
        let written = self.machine.kernel(written);
        assert_eq!(written, Ok(entry.len()), "the reply is accepted");
        self.machine.clock(true)
    }

    /// When the call blocks first, and when it blocks again.
    fn first(self: Rc<Self>) {
        let entered = self.machine.clock(true);
        let tag = self.inner.probe_newest().expect("the call's entry").tag;
        let read = self.read();
        {
            let told = &mut self.told.borrow_mut();
            told.entered = entered;
            told.driver[0] = read;
        }
        let meanwhile = self.clone();
        let second = OnSwitch::Then(Box::new(move || meanwhile.second(tag)));
        self.machine.next_switch(second);
    }

    fn second(&self, tag: u32) {
        let canceled = self.machine.clock(true);
        let (read, replied) = (self.read(), self.reply(tag));
        let told = &mut self.told.borrow_mut();
        told.canceled = canceled;
        told.driver[1] = read;
        told.driver[2] = replied;
    }
}

impl Oracle {
    /// A submit, call, generic, stdfs, fdwrite or fdread from its entry until its reply is handed
    /// over, on this thread alone. It has no list, and the queue is empty.
    pub fn alone(&mut self, event: &Event) -> Alone {
        let _inside = self.machine.enter();
        let meanwhile = Rc::new(Meanwhile {
            machine: self.machine.clone(),
            inner: self.inner.clone(),
            told: RefCell::default(),
        });
        let context = Context::new(self.space.clone(), 0, 0, 0);
        let context = Arc::new(RwLock::new(context));
        let first = meanwhile.clone();
        let switch = OnSwitch::Then(Box::new(move || first.first()));
        self.machine.clock(true);
        count::part(0);
        self.machine.run_as(&context, || {
            self.machine.run_until(switch, || self.enter_alone(event));
        });
        meanwhile.told.borrow_mut().handed = self.machine.clock(false);
        self.machine.effects();
        *meanwhile.told.borrow()
    }

    fn enter_alone(&self, event: &Event) {
        let (flags, token, list) = (CallFlags::empty(), &mut clean(), Vec::new());
        let span = PageSpan::of_call(0);
        let opcode = |op: u64| {
            let opcode = u8::try_from(op).ok().and_then(Opcode::try_from_raw);
            opcode.expect("an opcode")
        };
        let done = match event {
            Event::Submit {
                tag,
                op,
                fl,
                args,
                pid,
                ..
            } => {
                let entry = Sqe {
                    opcode: opcode(*op) as u8,
                    sqe_flags: SqeFlags::from_bits_retain(*fl),
                    tag: *tag as u32,
                    args: *args,
                    caller: *pid,
                    ..Sqe::default()
                };
                let submitted = || self.inner.probe_submit(list, entry, span);
                self.machine.kernel(submitted).is_ok()
            }
            Event::Call {
                op,
                args,
                uid,
                gid,
                pid,
                ..
            } => {
                let ctx = CallerCtx {
                    pid: *pid as usize,
                    uid: *uid,
                    gid: *gid,
                };
                let (op, args) = (opcode(*op), *args);
                let called = || self.inner.probe_call(ctx, list, op, args, span);
                self.machine.kernel(called).is_ok()
            }
            Event::Generic(payload) | Event::Stdfs(payload) => {
                let fds: Vec<usize> = payload.fds.iter().map(|fd| *fd as usize).collect();
                let slice = UserSliceRw::captured(payload.base as usize, payload.len as usize);
                let scheme = UserScheme::new(self.inner.clone());
                let (meta, desc) = (&payload.meta, description(0));
                let called = match event {
                    Event::Generic(_) => {
                        (self.machine).kernel(|| scheme.kcall(&fds, slice, flags, meta, token))
                    }
                    _ => self.machine.kernel(|| {
                        scheme.translate_std_fs_call(&fds, desc, slice, flags, meta, token)
                    }),
                };
                called.is_ok()
            }
            Event::Fdwrite { call, .. } => {
                let scheme = UserScheme::new(self.inner.clone());
                let flags = CallFlags::from_bits_retain(call.flags as usize);
                let number = call.number as usize;
                let called = || scheme.kfdwrite(number, list, flags, &call.meta, token);
                self.machine.kernel(called).is_ok()
            }
            Event::Fdread { call, len } => {
                let scheme = UserScheme::new(self.inner.clone());
                let flags = CallFlags::from_bits_retain(call.flags as usize);
                let number = call.number as usize;
                let payload = UserSliceRw::captured(0, *len as usize);
                let called = || scheme.kfdread(number, payload, flags, &call.meta, token);
                // a word is no reply to it
                self.machine.kernel(called) == Err(Error::new(EIO))
            }
            _ => panic!("{event} enters no call"),
        };
        assert!(done, "{event} has its reply");
    }
}
