//! Waking: one turn of `call_inner`'s loop.

use std::sync::Arc;

use script::{Answer, Phase, Reply};

use super::submit::{Ended, Way};
use super::{Description, Oracle, SLOTS, clean, no};
use crate::context::Context;
use crate::context::file::InternalFlags;
use crate::machine::OnSwitch;
use crate::scheme::user::probe::Handed;
use crate::sync::RwLock;
use crate::syscall::error::{EINVAL, EIO, Error, Result};

impl Oracle {
    pub(super) fn wake(&mut self, tag: u64, c: u32, killed: u64, span: (u64, u64)) -> Answer {
        if killed > 1 || u32::try_from(tag).is_err() {
            return Answer::Skip;
        }
        let phase = self.phase(tag);
        if !matches!(phase, Phase::Waiting | Phase::Responded) {
            return self.wake_none(tag, killed == 1);
        }
        let tag = tag as usize;
        let waits = phase == Phase::Waiting;
        let cancels = waits && killed == 0 && !self.inner.probe_canceling(tag);
        let given = self.given[tag].as_mut().expect("a slot that is occupied");
        if given.caller != c || given.ended || given.returned {
            return Answer::Skip;
        }
        if cancels && self.no_room() {
            return Answer::Skip;
        }
        let given = self.given[tag].as_mut().expect("it was there");
        let context = given.context.clone().expect("a caller that lives");
        let call = given.call.as_mut().expect("a call");
        context.write(clean().token()).being_sigkilled = killed == 1;
        context.write(clean().token()).unblock_no_ipi();
        if waits && killed == 1 {
            self.machine.leave(call.span, span.0, span.1);
        }
        // a front reads the reply and drops its descriptions: the host takes its own holds before
        let held = match call.way {
            Way::Inner => None,
            Way::Front | Way::Noticing(_) | Way::Receiving(_) => self.inner.probe_reply(tag),
        };
        let running = call.running.as_mut().expect("a thread inside the call");
        if !self.machine.run_as(&context, || running.resume()) {
            return Answer::Blocked;
        }
        call.running = None;
        match (call.end(), held) {
            (Ended::Inner(Ok(handed)), _) => self.handed(tag, handed),
            (Ended::Read(read), Some(held)) => {
                let handed = read_as(held, read, &call.way);
                self.handed(tag, handed)
            }
            (Ended::Inner(Err(error)) | Ended::Read(Err(error)), _) => {
                given.returned = true;
                no(error)
            }
            (Ended::Read(Ok(word)), None) => unreachable!("{word} came from no reply"),
        }
    }

    fn handed(&mut self, tag: usize, handed: Handed) -> Answer {
        self.given[tag] = None;
        Answer::Reply(match handed {
            Handed::Regular(result, extra0, notice) => Reply::Regular {
                result: result
                    .map(|word| word as u64)
                    .map_err(|error| error.errno as u64),
                extra0,
                notice,
            },
            Handed::Fd(description) => Reply::Fd(self.give(vec![description])[0]),
            Handed::Many(list) => Reply::Many(self.give(list)),
        })
    }

    /// A wake of a tag that no call waits at. The stand-in enters `call_inner` for that tag, then
    /// gets the real slots and takes its turn on them. A tag over 63 is as absent as tag 64.
    fn wake_none(&mut self, tag: u64, killed: bool) -> Answer {
        let tag = tag.min(SLOTS as u64) as u32;
        let mut context = Context::new(self.space.clone(), 0, 0, 0);
        context.being_sigkilled = killed;
        let context = Arc::new(RwLock::new(context));
        self.stand_in.probe_stand_in(SLOTS + 1);
        let (inner, stand_in) = (self.inner.clone(), self.stand_in.clone());
        let swap = OnSwitch::Then(Box::new(move || inner.probe_swap(&stand_in)));
        let turned = self.machine.run_as(&context, || {
            self.machine
                .run_until(swap, || self.stand_in.probe_turn(tag))
        });
        self.inner.probe_swap(&self.stand_in);
        self.machine.effects();
        match turned {
            Err(error) => no(error),
            Ok(_) => unreachable!("no call waits there"),
        }
    }
}

/// Will the next detach of this description be told?
fn notices(description: &Description) -> bool {
    let flags = description.read(clean().token()).internal_flags;
    flags.contains(InternalFlags::NOTIFY_ON_NEXT_DETACH)
}

/// The reply that a front read: what the front answered, and of the reply what it did not say.
fn read_as(held: Handed, read: Result<usize>, way: &Way) -> Handed {
    match (held, way) {
        (held, Way::Receiving(len)) => {
            assert_eq!(read, received(&held, *len), "kfdread reads {held:?}");
            held
        }
        (Handed::Regular(_, extra0, notice), _) => {
            let notice = match way {
                Way::Noticing(description) => notices(description),
                _ => notice,
            };
            Handed::Regular(read, extra0, notice)
        }
        (held, _) => {
            assert_eq!(read, Err(Error::new(EIO)), "descriptions are read as EIO");
            held
        }
    }
}

/// What `kfdread` answers where its payload has so many bytes: `bulk_insert_fds` asks for a word of it
/// for each description.
fn received(held: &Handed, len: u64) -> Result<usize> {
    match held {
        Handed::Regular(Err(error), ..) => Err(*error),
        Handed::Regular(Ok(_), ..) | Handed::Fd(_) => Err(Error::new(EIO)),
        Handed::Many(list) if (size_of::<usize>() * list.len()) as u64 == len => Ok(list.len()),
        Handed::Many(_) => Err(Error::new(EINVAL)),
    }
}
