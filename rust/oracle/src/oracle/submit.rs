//! Giving slots out and queuing entries.

use std::panic::{AssertUnwindSafe, catch_unwind, resume_unwind};
use std::sync::{Arc, Mutex, PoisonError};

use script::{Answer, FdCall, Payload, Phase};
use syscall::schemev2::{Opcode, Sqe, SqeFlags};
use syscall::{CallFlags, MapFlags};

use super::{Description, LISTED, Oracle, QUEUE, SLOTS, clean, description, done, no, with_files};
use crate::context::memory::PageSpan;
use crate::context::{Context, ContextLock};
use crate::machine::{Left, OnSwitch};
use crate::scheme::user::probe::Handed;
use crate::scheme::user::{UserInner, UserScheme};
use crate::scheme::{CallerCtx, KernelScheme};
use crate::sync::RwLock;
use crate::syscall::error::Result;
use crate::syscall::usercopy::UserSliceRw;
use crate::threads::Running;

/// How a call's thread came back.
pub(super) enum Ended {
    /// From `call` or `call_inner`, with the reply itself.
    Inner(Result<Handed>),
    /// From a front that reads the reply.
    Read(Result<usize>),
}

/// What a slot was given out for.
pub(super) struct Given {
    pub(super) caller: u32,
    pub(super) ended: bool,
    pub(super) returned: bool,
    /// The caller's thread, unless it only reserved or has ended.
    pub(super) context: Option<Arc<ContextLock>>,
    pub(super) call: Option<Call>,
}

/// A call that has been submitted.
pub(super) struct Call {
    /// The thread, while it is inside the call.
    pub(super) running: Option<Running>,
    result: Arc<Mutex<Option<Ended>>>,
    /// The number of its span.
    pub(super) span: u64,
    pub(super) way: Way,
}

/// Who reads a call's reply.
pub(super) enum Way {
    /// Nobody: `call` and `call_inner` hand it over.
    Inner,
    /// A front, which answers with a word or an error.
    Front,
    /// A front that leaves kind 5's notice with this description.
    Noticing(Description),
    /// `kfdread`, with a payload of so many bytes.
    Receiving(u64),
}

impl Given {
    fn new(caller: u32, context: Option<Arc<ContextLock>>, call: Option<Call>) -> Option<Given> {
        Some(Given {
            caller,
            ended: false,
            returned: false,
            context,
            call,
        })
    }
}

impl Call {
    /// How it came back, once its thread is done.
    pub(super) fn end(&self) -> Ended {
        let mut end = self.result.lock().unwrap_or_else(PoisonError::into_inner);
        end.take().expect("the thread is done")
    }
}

impl Oracle {
    pub(super) fn no_slot(&self) -> bool {
        self.inner.probe_occupied() >= SLOTS
    }

    pub(super) fn no_room(&self) -> bool {
        self.inner.probe_queued() >= QUEUE
    }

    pub(super) fn reserve(&mut self, c: u32) -> Answer {
        if self.no_slot() {
            return Answer::Skip;
        }
        match self.machine.kernel(|| self.inner.probe_reserve()) {
            Ok(tag) => {
                self.given[tag as usize] = Given::new(c, None, None);
                Answer::Ok(u64::from(tag))
            }
            Err(error) => no(error),
        }
    }

    /// A list and an opcode as the kernel takes them; none is the host's to refuse.
    pub(super) fn listed(&self, op: u64, list: &[u64]) -> Option<Opcode> {
        let opcode = u8::try_from(op).ok().and_then(Opcode::try_from_raw)?;
        (self.is_list(list) && list.len() <= LISTED).then_some(opcode)
    }

    pub(super) fn submit(
        &mut self,
        tag: u64,
        c: u32,
        (op, fl, args, caller): (u64, u8, [u64; 6], u64),
        list: &[u64],
    ) -> Answer {
        let Some(opcode) = self.listed(op, list) else {
            return Answer::Skip;
        };
        let given = self.given.get(tag as usize).and_then(Option::as_ref);
        let own = given.is_some_and(|given| given.caller == c && !given.ended);
        if self.phase(tag) != Phase::Placeholder || !own || self.no_room() {
            return Answer::Skip;
        }
        let list = self.take(list);
        let entry = Sqe {
            opcode: opcode as u8,
            sqe_flags: SqeFlags::from_bits_retain(fl),
            tag: tag as u32,
            args,
            caller,
            ..Sqe::default()
        };
        let context = Context::new(self.space.clone(), 0, 0, 0);
        let inner = self.inner.clone();
        self.begin(c, context, Way::Inner, move |span| {
            Ended::Inner(inner.probe_submit(list, entry, PageSpan::of_call(span)))
        })
    }

    pub(super) fn call(
        &mut self,
        c: u32,
        op: u64,
        args: [u64; 6],
        ctx: CallerCtx,
        list: &[u64],
    ) -> Answer {
        let Some(opcode) = self.listed(op, list) else {
            return Answer::Skip;
        };
        if self.no_slot() || self.no_room() {
            return Answer::Skip;
        }
        let list = self.take(list);
        let context = Context::new(self.space.clone(), ctx.pid, ctx.uid, ctx.gid);
        let inner = self.inner.clone();
        self.begin(c, context, Way::Inner, move |span| {
            Ended::Inner(inner.probe_call(ctx, list, opcode, args, PageSpan::of_call(span)))
        })
    }

    /// `kcall`, or `translate_std_fs_call` where `std_fs` is set.
    pub(super) fn front(&mut self, payload: &Payload, std_fs: bool) -> Answer {
        let fds: Vec<usize> = payload.fds.iter().map(|fd| *fd as usize).collect();
        let slice = UserSliceRw::captured(payload.base as usize, payload.len as usize);
        let meta = payload.meta.clone();
        let desc = std_fs.then(|| description(0));
        let way = desc.clone().map_or(Way::Front, Way::Noticing);
        let put = move |inner: Arc<UserInner>| {
            let scheme = UserScheme::new(inner);
            let (flags, token) = (CallFlags::empty(), &mut clean());
            match desc {
                Some(desc) => scheme.translate_std_fs_call(&fds, desc, slice, flags, &meta, token),
                None => scheme.kcall(&fds, slice, flags, &meta, token),
            }
        };
        let context = Context::new(self.space.clone(), payload.pid as usize, 0, 0);
        if self.no_slot() || self.no_room() {
            return self.front_refusal(context, put);
        }
        self.begin_front(payload.c, context, way, put)
    }

    fn context_of(&self, call: &FdCall) -> Context {
        Context::new(self.space.clone(), call.pid as usize, call.uid, call.gid)
    }

    pub(super) fn fdwrite(&mut self, call: &FdCall, list: &[u64]) -> Answer {
        if !self.is_list(list) || list.len() > LISTED || self.no_slot() || self.no_room() {
            return Answer::Skip;
        }
        let (list, meta, number) = (self.take(list), call.meta.clone(), call.number as usize);
        let flags = CallFlags::from_bits_retain(call.flags as usize);
        self.begin_front(call.c, self.context_of(call), Way::Front, move |inner| {
            let scheme = UserScheme::new(inner);
            scheme.kfdwrite(number, list, flags, &meta, &mut clean())
        })
    }

    /// Its payload names a place in the caller's table for as many files as a reply can have, so that
    /// they are refused for no other reason than the payload's length.
    pub(super) fn fdread(&mut self, call: &FdCall, len: u64) -> Answer {
        let (meta, number) = (call.meta.clone(), call.number as usize);
        let flags = CallFlags::from_bits_retain(call.flags as usize);
        let context = self.context_of(call);
        let mut handles: Vec<usize> = (0..LISTED).collect();
        let put = move |inner: Arc<UserInner>| {
            // SAFETY: the handles outlive the slice, and no more of it is read than descriptions come.
            let payload = unsafe { UserSliceRw::new(handles.as_mut_ptr() as usize, len as usize) };
            let scheme = UserScheme::new(inner);
            scheme.kfdread(number, payload, flags, &meta, &mut clean())
        };
        if self.no_slot() || self.no_room() {
            return self.front_refusal(context, put);
        }
        let context = with_files(context, LISTED);
        self.begin_front(call.c, context, Way::Receiving(len), put)
    }

    /// There is no room for the call: does the kernel refuse it before it takes a slot? The
    /// stand-in says.
    pub(super) fn front_refusal(
        &mut self,
        context: Context,
        put: impl FnOnce(Arc<UserInner>) -> Result<usize>,
    ) -> Answer {
        let context = Arc::new(RwLock::new(context));
        let stand_in = self.stand_in.clone();
        let put = || catch_unwind(AssertUnwindSafe(|| put(stand_in)));
        let answered = self
            .machine
            .run_as(&context, || self.machine.run_until(OnSwitch::Leave, put));
        self.machine.effects();
        self.stand_in.probe_stand_in(0);
        match answered {
            Ok(Err(error)) => no(error),
            Ok(Ok(_)) => unreachable!("nobody replies to the stand-in"),
            Err(left) if left.is::<Left>() => Answer::Skip,
            Err(panic) => resume_unwind(panic),
        }
    }

    /// Begins a call by a front that makes its span itself. That of `kfdwrite` and `kfdread` stays empty
    /// in the kernel; here a killed caller's wake says it, as for any other call.
    fn begin_front(
        &mut self,
        caller: u32,
        context: Context,
        way: Way,
        put: impl FnOnce(Arc<UserInner>) -> Result<usize> + Send + 'static,
    ) -> Answer {
        let (inner, machine) = (self.inner.clone(), self.machine.clone());
        self.begin(caller, context, way, move |span| {
            machine.next_span(span);
            let result = put(inner);
            machine.next_span(0);
            Ended::Read(result)
        })
    }

    /// Runs a call on a thread of its own until it blocks, or is refused.
    pub(super) fn begin(
        &mut self,
        caller: u32,
        context: Context,
        way: Way,
        what: impl FnOnce(u64) -> Ended + Send + 'static,
    ) -> Answer {
        self.spans += 1;
        let span = self.spans;
        let context = Arc::new(RwLock::new(context));
        let result = Arc::new(Mutex::new(None));
        let (machine, end) = (self.machine.clone(), result.clone());
        let mut running = Running::new(Box::new(move || {
            let _inside = machine.enter();
            let ended = machine.kernel(|| what(span));
            *end.lock().unwrap_or_else(PoisonError::into_inner) = Some(ended);
        }));
        let done = self.machine.run_as(&context, || running.resume());
        let call = Call {
            running: Some(running),
            result,
            span,
            way,
        };
        if done {
            return match call.end() {
                Ended::Inner(Err(error)) | Ended::Read(Err(error)) => no(error),
                Ended::Inner(Ok(_)) | Ended::Read(Ok(_)) => unreachable!("nobody has replied"),
            };
        }
        let tag = self.inner.probe_newest().expect("the call's entry").tag;
        context.write(clean().token()).call = Some((caller, tag));
        self.given[tag as usize] = Given::new(caller, Some(context), Some(call));
        Answer::Ok(u64::from(tag))
    }

    pub(super) fn fmap(
        &mut self,
        c: u32,
        context: Context,
        id: u64,
        pages: u64,
        flags: u64,
    ) -> Answer {
        if self.no_slot() || self.no_room() {
            return Answer::Skip;
        }
        let context = Arc::new(RwLock::new(context));
        let flags = MapFlags::from_bits_retain(flags as usize);
        let asked = self.machine.run_as(&context, || {
            self.machine.kernel(|| {
                let (inner, token) = (&self.inner, &mut clean());
                inner.request_fmap(id as usize, 0, pages as usize, flags, token)
            })
        });
        if let Err(error) = asked {
            return no(error);
        }
        let tag = self.inner.probe_newest().expect("its entry").tag;
        context.write(clean().token()).call = Some((c, tag));
        self.given[tag as usize] = Given::new(c, Some(context), None);
        Answer::Ok(u64::from(tag))
    }

    pub(super) fn close(&mut self, id: u64) -> Answer {
        if self.no_room() {
            return Answer::Skip;
        }
        let scheme = UserScheme::new(self.inner.clone());
        let closed = self
            .machine
            .kernel(|| scheme.close(id as usize, &mut clean()));
        done(closed.map(|()| 0))
    }

    pub(super) fn detach(&mut self, id: u64, pid: u64) -> Answer {
        if self.no_room() {
            return Answer::Skip;
        }
        let context = Context::new(self.space.clone(), pid as usize, 0, 0);
        let context = Arc::new(RwLock::new(context));
        let scheme = UserScheme::new(self.inner.clone());
        let detached = self.machine.run_as(&context, || {
            self.machine
                .kernel(|| scheme.detach(id as usize, &mut clean()))
        });
        done(detached.map(|()| 0))
    }
}
