//! How the kernel's fronts read the reply that a call hands them.

use std::sync::{Arc, Mutex, PoisonError};

use script::{Answer, Form, Reply};
use syscall::CallFlags;
use syscall::schemev2::Cqe;

use crate::context::Context;
use crate::context::file::InternalFlags;
use crate::context::memory::AddrSpaceWrapper;
use crate::machine::Machine;
use crate::oracle::{Description, LISTED, clean, description, number, with_files};
use crate::scheme::user::probe::{self, Handed};
use crate::scheme::user::{UserInner, UserScheme};
use crate::scheme::{CallerCtx, KernelScheme, OpenResult, SchemeId, StrOrBytes};
use crate::sync::RwLock;
use crate::syscall::error::{Error, Result};
use crate::syscall::usercopy::UserSlice;
use crate::threads::Running;

/// Who reads a reply.
#[derive(Clone, Copy, Debug, PartialEq, Eq)]
pub enum Front {
    /// `into_regular`, here by `fcntl`.
    Regular,
    /// `call_generic`, by `kcall`.
    Call,
    /// `call_generic`, by `translate_std_fs_call`, which takes kind 5's notice.
    StdFsCall,
    /// `kopenat`.
    Open,
    /// `kdup`.
    Dup,
    /// `kfdwrite`.
    Fdwrite,
    /// `kfdread`, whose payload has a word for each descriptor of the reply.
    Fdread,
}

/// What it reads.
#[derive(Clone, Debug, PartialEq, Eq)]
pub enum Reading {
    Word(u64),
    Error(u64),
    /// A file of the scheme's own: its number, and its flags.
    Local(u64, u32),
    /// A description.
    External(u64),
}

/// Makes a call by that front and reads its reply. What comes in descriptors goes to these handles.
fn read(
    scheme: &UserScheme,
    front: Front,
    noticed: Description,
    handles: &mut [usize],
) -> Result<Reading> {
    let (token, flags) = (&mut clean(), CallFlags::empty());
    let ctx = CallerCtx {
        pid: 0,
        uid: 0,
        gid: 0,
    };
    let word = match front {
        Front::Regular => scheme.fcntl(0, 0, 0, token)?,
        Front::Call => {
            let payload = UserSlice::captured(0, 0);
            scheme.kcall(&[0], payload, flags, &[], token)?
        }
        Front::StdFsCall => {
            let (payload, meta) = (UserSlice::captured(0, 0), [1, 0, 0]);
            scheme.translate_std_fs_call(&[0], noticed, payload, flags, &meta, token)?
        }
        Front::Fdwrite => scheme.kfdwrite(0, Vec::new(), flags, &[], token)?,
        Front::Fdread => {
            let (base, len) = (handles.as_mut_ptr() as usize, size_of_val(handles));
            // SAFETY: the handles outlive the slice.
            let payload = unsafe { UserSlice::new(base, len) };
            scheme.kfdread(0, payload, flags, &[], token)?
        }
        Front::Open | Front::Dup => {
            let opened = if front == Front::Open {
                scheme.kopenat(0, StrOrBytes::from_str("path"), 0, 0, ctx, token)?
            } else {
                scheme.kdup(0, UserSlice::captured(0, 0), ctx, token)?
            };
            return Ok(match opened {
                OpenResult::SchemeLocal(number, flags) => {
                    Reading::Local(number as u64, flags.bits())
                }
                OpenResult::External(description) => Reading::External(number(&description)),
            });
        }
    };
    Ok(Reading::Word(word as u64))
}

fn handed(reply: &Reply) -> Handed {
    match reply {
        Reply::Regular {
            result,
            extra0,
            notice,
        } => {
            let result = result.map(|word| word as usize);
            let result = result.map_err(|errno| Error::new(errno as i32));
            Handed::Regular(result, *extra0, *notice)
        }
        Reply::Fd(d) => Handed::Fd(description(*d)),
        Reply::Many(list) => Handed::Many(list.iter().map(|d| description(*d)).collect()),
    }
}

/// What a front reads in a reply, and the notice, where it takes one.
pub fn read_reply(front: Front, reply: &Reply) -> (Reading, Option<bool>) {
    let space = AddrSpaceWrapper::new();
    let context = || {
        let context = Context::new(space.clone(), 0, 0, 0);
        Arc::new(RwLock::new(with_files(context, LISTED)))
    };
    let (driver, caller) = (context(), context());
    let machine = Arc::new(Machine::new(caller));
    let scheme = SchemeId::User(0);
    let inner = UserInner::new(SchemeId::Root, scheme, Arc::downgrade(&driver));
    let inner = Arc::new(inner);

    // before the call the notice is what the reply doesn't say, so that taking it shows
    let notice = matches!(reply, Reply::Regular { notice: true, .. });
    let told = InternalFlags::NOTIFY_ON_NEXT_DETACH;
    let noticed = description(0);
    (noticed.write(clean().token()).internal_flags).set(told, !notice);

    let listed = match reply {
        Reply::Many(list) => list.len(),
        _ => 0,
    };
    let end = Arc::new(Mutex::new(None));
    let mut running = Running::new(Box::new({
        let (scheme, noticed) = (UserScheme::new(inner.clone()), noticed.clone());
        let end = end.clone();
        move || {
            let _inside = machine.enter();
            let mut handles: Vec<usize> = (0..listed).collect();
            let read = read(&scheme, front, noticed, &mut handles);
            *end.lock().unwrap_or_else(PoisonError::into_inner) = Some(read);
        }
    }));
    let early = running.resume();
    assert!(!early, "the call waits for its reply");
    inner.probe_respond(0, handed(reply));
    let done = running.resume();
    assert!(done, "the call has its reply");

    let end = end.lock().unwrap_or_else(PoisonError::into_inner).take();
    let read = end.expect("the thread is done");
    let reading = read.unwrap_or_else(|error| Reading::Error(error.errno as u64));
    let after = noticed.read(clean().token()).internal_flags.contains(told);
    (reading, (after == notice).then_some(notice))
}

/// What the line `front` answers. No errno of the kernel's has more than 32 bits: it is not asked about
/// such a one.
pub(crate) fn front(form: Form, reply: &Reply) -> Answer {
    if let Reply::Regular { result, .. } = reply
        && result.is_err_and(|errno| i32::try_from(errno).is_err())
    {
        return Answer::Skip;
    }
    let front = match form {
        Form::Fdwrite => Front::Fdwrite,
        Form::Fdread => Front::Fdread,
    };
    match read_reply(front, reply).0 {
        Reading::Word(word) => Answer::Ok(word),
        Reading::Error(errno) => Answer::No(errno),
        other => unreachable!("{other:?} is no word and no error"),
    }
}

/// What `parse_cqe` refuses an entry with.
pub fn parse_cqe(entry: &Cqe) -> std::result::Result<(), u64> {
    probe::parse(entry).map_err(|error| error.errno as u64)
}
