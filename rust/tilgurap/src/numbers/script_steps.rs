//! The events of a script as steps of a layer.

use alloc::boxed::Box;
use alloc::vec;
use alloc::vec::Vec;

use script::{Answer, Effect, Event, Line, OutputLine, Script};

use crate::entry::{Cqe, Sqe};
use crate::limits::{EFFECT_WORDS, QUEUE_ENTRIES};
use crate::numbers::{Layer, Outcome, front};

/// The bytes of a full queue. No read stores more, so a longer one is lent no more.
const QUEUE_BYTES: u64 = (QUEUE_ENTRIES * Sqe::BYTES) as u64;

impl From<Outcome> for Line {
    fn from(outcome: Outcome) -> Line {
        Line {
            answer: outcome.answer,
            effects: outcome.effect.into_iter().collect(),
            bytes: Vec::new(),
        }
    }
}

/// Effects from the words that hold them.
fn effects(words: &[u64]) -> Vec<Effect> {
    let effect = |words: &[u64]| Effect {
        kind: words[0],
        a: words[1],
        b: words[2],
    };
    words.chunks_exact(3).map(effect).collect()
}

impl Layer {
    /// Puts one event to the layer.
    pub fn step(&mut self, event: &Event) -> Line {
        match event {
            Event::Open { d } => self.open(*d).into(),
            Event::Copy { d } => self.copy(*d).into(),
            Event::Drop { d } => self.drop_one(*d).into(),
            Event::Put { d, h } => self.put(*d, *h).into(),
            Event::Ended { c } => self.ended(*c).into(),
            Event::Reserve { c } => self.reserve(*c).into(),
            Event::Submit {
                tag,
                c,
                op,
                fl,
                args,
                pid,
                list,
            } => self.submit(*tag, *c, *op, *fl, *args, *pid, list).into(),
            Event::Call {
                c,
                op,
                args,
                uid,
                gid,
                pid,
                list,
            } => self.call(*c, *op, *args, *uid, *gid, *pid, list).into(),
            Event::Generic(payload) => self.generic(payload).into(),
            Event::Stdfs(payload) => self.stdfs(payload).into(),
            Event::Fmap {
                c,
                id,
                pages,
                flags,
                uid,
                gid,
                pid,
            } => self.fmap(*c, *id, *pages, *flags, *uid, *gid, *pid).into(),
            Event::Close { id } => self.close(*id).into(),
            Event::Detach { id, pid } => self.detach(*id, *pid).into(),
            Event::Wake {
                tag,
                c,
                killed,
                base,
                count,
            } => self.wake(*tag, *c, *killed, *base, *count).into(),
            Event::Read { len, flags } => {
                let mut out = vec![0; (*len).min(QUEUE_BYTES) as usize];
                self.read_line(&mut out, *flags)
            }
            Event::Write { words, bytes } => {
                // what is lent beyond that is never used
                let most = (EFFECT_WORDS * (bytes.len() / Cqe::BYTES)) as u64;
                let mut fx = vec![0; (*words).min(most) as usize];
                self.write_line(&mut fx, bytes)
            }
            Event::Move { meta, list } => self.move_list(meta, list).into(),
            Event::Obtain { meta } => self.obtain(meta).into(),
            Event::Supply {
                tag,
                offset,
                base,
                count,
            } => self.supply(*tag, *offset, *base, *count).into(),
            Event::Fdwrite { call, list } => self.fdwrite(call, list).into(),
            Event::Fdread { call, len } => self.fdread(call, *len).into(),
            // a question that the state has no part in
            Event::Front { form, reply } => Line::answer(match front(*form, reply) {
                Ok(value) => Answer::Ok(value),
                Err(errno) => Answer::No(errno),
            }),
            Event::Status => Line::answer(Answer::Status(self.status())),
        }
    }

    /// A read into these bytes, as a line.
    pub fn read_line(&mut self, out: &mut [u8], flags: u32) -> Line {
        let mut line = Line::answer(self.read(out, flags));
        if let Answer::Ok(stored) = line.answer {
            line.bytes = out[..stored as usize].to_vec();
        }
        line
    }

    /// A write that is lent these words, as a line.
    pub fn write_line(&mut self, fx: &mut [u64], bytes: &[u8]) -> Line {
        let (answer, used) = self.write(fx, bytes);
        Line {
            answer,
            effects: effects(&fx[..used]),
            bytes: Vec::new(),
        }
    }
}

/// Runs a whole script: a line for each event, then the state.
pub fn run_script(script: &Script) -> Vec<OutputLine> {
    let mut layer = Layer::new(script.scheme);
    let mut lines: Vec<OutputLine> = (script.events.iter())
        .map(|event| OutputLine::Event(layer.step(event)))
        .collect();
    lines.push(OutputLine::State(Box::new(layer.state())));
    lines
}
