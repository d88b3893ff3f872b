//! A layer whose events take and answer a script's numbers.

use core::array;

use script::{Answer, Effect, Payload, Phase, Reply, State, StatusWords};

use crate::ffi;
use crate::ids::SchemeNumber;
use crate::steps::{FdCall, GenericCall};

/// What an event answered, and the effect that it made, if any.
#[derive(Clone, Debug, PartialEq, Eq)]
pub struct Outcome {
    /// The answer.
    pub answer: Answer,
    /// The effect.
    pub effect: Option<Effect>,
}

/// A [`crate::Layer`], with a method for each event of a script.
#[derive(Clone, PartialEq, Eq)]
pub struct Layer {
    layer: crate::Layer,
}

fn answer(words: ffi::AnswerWords) -> Answer {
    match words.kind {
        0 => Answer::Ok(words.value),
        1 => Answer::No(words.value),
        2 => Answer::Wait,
        3 => Answer::Blocked,
        kind => unreachable!("{kind} is no kind of answer"),
    }
}

fn effect(effect: ffi::Effect) -> Option<Effect> {
    (effect.kind != 0).then_some(Effect {
        kind: effect.kind,
        a: effect.a,
        b: effect.b,
    })
}

fn reply(reply: ffi::Reply, fds: ffi::List) -> Reply {
    let regular = |result| Reply::Regular {
        result,
        extra0: reply.extra0,
        notice: reply.notice,
    };
    match reply.kind {
        0 => regular(Ok(reply.word)),
        1 => regular(Err(reply.word)),
        2 => Reply::Fd(reply.word),
        3 => {
            let list = &fds.at[..usize::from(fds.len)];
            Reply::Many(list.iter().map(|d| u64::from(*d)).collect())
        }
        kind => unreachable!("{kind} is no kind of reply"),
    }
}

impl From<ffi::StepWords> for Outcome {
    fn from(step: ffi::StepWords) -> Outcome {
        Outcome {
            answer: answer(step.answer),
            effect: effect(step.effect),
        }
    }
}

fn generic_call(payload: &Payload) -> GenericCall<'_> {
    GenericCall {
        caller: payload.c,
        pid: payload.pid,
        fds: &payload.fds,
        base: payload.base,
        len: payload.len,
        metadata: &payload.meta,
    }
}

fn fd_call(call: &script::FdCall) -> FdCall<'_> {
    FdCall {
        caller: call.c,
        number: call.number,
        flags: call.flags,
        metadata: &call.meta,
        uid: call.uid,
        gid: call.gid,
        pid: call.pid,
    }
}

/// The parameters are the fields of the script's lines, in their order.
impl Layer {
    /// A fresh state, given the scheme's number.
    pub fn new(scheme: u64) -> Layer {
        Layer {
            layer: crate::Layer::new(SchemeNumber(scheme)),
        }
    }

    /// The layer itself.
    pub fn typed(&self) -> &crate::Layer {
        &self.layer
    }

    /// `open`
    pub fn open(&mut self, d: u64) -> Outcome {
        self.layer.steps.open(d).into()
    }

    /// `copy`
    pub fn copy(&mut self, d: u64) -> Outcome {
        self.layer.steps.copy(d).into()
    }

    /// `drop`
    pub fn drop_one(&mut self, d: u64) -> Outcome {
        self.layer.steps.drop_one(d).into()
    }

    /// `put`
    pub fn put(&mut self, d: u64, h: u64) -> Outcome {
        self.layer.steps.put(d, h).into()
    }

    /// `ended`
    pub fn ended(&mut self, c: u32) -> Outcome {
        self.layer.steps.ended(c).into()
    }

    /// `reserve`
    pub fn reserve(&mut self, c: u32) -> Outcome {
        self.layer.steps.reserve(c).into()
    }

    /// `submit`
    #[allow(clippy::too_many_arguments)]
    pub fn submit(
        &mut self,
        tag: u64,
        c: u32,
        op: u64,
        fl: u8,
        args: [u64; 6],
        pid: u64,
        list: &[u64],
    ) -> Outcome {
        (self.layer.steps)
            .submit(tag, c, op, fl, args, pid, list)
            .into()
    }

    /// `call`
    #[allow(clippy::too_many_arguments)]
    pub fn call(
        &mut self,
        c: u32,
        op: u64,
        args: [u64; 6],
        uid: u32,
        gid: u32,
        pid: u64,
        list: &[u64],
    ) -> Outcome {
        (self.layer.steps)
            .call(c, op, args, uid, gid, pid, list)
            .into()
    }

    /// `generic`
    pub fn generic(&mut self, payload: &Payload) -> Outcome {
        self.layer.steps.generic(&generic_call(payload)).into()
    }

    /// `stdfs`
    pub fn stdfs(&mut self, payload: &Payload) -> Outcome {
        self.layer.steps.stdfs(&generic_call(payload)).into()
    }

    /// `fmap`
    #[allow(clippy::too_many_arguments)]
    pub fn fmap(
        &mut self,
        c: u32,
        id: u64,
        pages: u64,
        flags: u64,
        uid: u32,
        gid: u32,
        pid: u64,
    ) -> Outcome {
        (self.layer.steps)
            .fmap(c, id, pages, flags, uid, gid, pid)
            .into()
    }

    /// `close`
    pub fn close(&mut self, id: u64) -> Outcome {
        self.layer.steps.close(id).into()
    }

    /// `detach`
    pub fn detach(&mut self, id: u64, pid: u64) -> Outcome {
        self.layer.steps.detach(id, pid).into()
    }

    /// `wake`
    pub fn wake(&mut self, tag: u64, c: u32, killed: u64, base: u64, count: u64) -> Outcome {
        let woken = self.layer.steps.wake(tag, c, killed, base, count);
        Outcome {
            answer: match woken.answer.kind {
                4 => Answer::Reply(reply(woken.reply, woken.fds)),
                _ => answer(woken.answer),
            },
            effect: effect(woken.effect),
        }
    }

    /// `read`, into these bytes. Those beyond the ones stored stay as they are.
    pub fn read(&mut self, out: &mut [u8], flags: u32) -> Answer {
        answer(self.layer.steps.read(out, flags))
    }

    /// `write`, lent these words: the answer, and how many of them hold effects, three to each.
    pub fn write(&mut self, fx: &mut [u64], bytes: &[u8]) -> (Answer, usize) {
        let (words, used) = self.layer.steps.write(fx, bytes);
        (answer(words), used)
    }

    /// `move`
    pub fn move_list(&mut self, meta: &[u64], list: &[u64]) -> Outcome {
        self.layer.steps.move_list(meta, list).into()
    }

    /// `obtain`
    pub fn obtain(&mut self, meta: &[u64]) -> Outcome {
        self.layer.steps.obtain(meta).into()
    }

    /// `supply`
    pub fn supply(&mut self, tag: u64, offset: u64, base: u64, count: u64) -> Outcome {
        self.layer.steps.supply(tag, offset, base, count).into()
    }

    /// `fdwrite`
    pub fn fdwrite(&mut self, call: &script::FdCall, list: &[u64]) -> Outcome {
        self.layer.steps.fdwrite(&fd_call(call), list).into()
    }

    /// `fdread`
    pub fn fdread(&mut self, call: &script::FdCall, len: u64) -> Outcome {
        self.layer.steps.fdread(&fd_call(call), len).into()
    }

    /// `status`
    pub fn status(&self) -> StatusWords {
        self.layer.steps.status()
    }

    /// The state as a run's last line has it.
    pub fn state(&self) -> State {
        let state = self.layer.steps.state();
        let slots = array::from_fn(|tag| match state.table.slots[tag].state {
            1 => Phase::Placeholder,
            2 => Phase::Waiting,
            3 => Phase::Responded,
            4 => Phase::Fmap,
            _ => Phase::Vacant,
        });
        State {
            slots,
            queue: state.driver.queue.len,
            holds: state.table.holds.holds,
            outside: state.table.holds.outside,
            handles: (state.driver.handles.at).map(|held| held.checked_sub(1)),
            status: self.status(),
        }
    }

    /// The state's fields.
    #[cfg(feature = "parts")]
    pub fn parts(&self) -> ffi::State {
        self.layer.steps.state()
    }

    /// Changes the state's fields.
    #[cfg(feature = "parts")]
    pub fn change_parts(&mut self, change: impl FnOnce(&mut ffi::State)) {
        self.layer.steps.change(change);
    }
}
