//! What a refusal stores: nothing, but for the four cases that the scope names.

use script::Event;

use crate::ffi::Words;
use crate::places::{ALL, CHAIN, HANDLES, HEAD, OUTSIDE, SLOT};

/// A refusal that stores something.
#[derive(Clone, Copy, Debug, PartialEq, Eq)]
pub enum Case {
    /// A descriptor response, first of its write and refused by its tag, has emptied its handle
    /// and dropped the hold.
    Descriptor,
    /// EINTR of a killed wake: the slot has the span, and is marked cancelling and returned.
    Interrupted,
    /// A move refused by its request drops the holds that it brought.
    Move,
    /// ESRCH of a supply has vacated the slot.
    Supply,
}

pub const CASES: usize = 4;

/// The handle of a write's first entry, where that is a descriptor response and the handle is not
/// empty.
fn named_handle(words: &Words, bytes: &[u8]) -> Option<usize> {
    let entry: &[u8; 16] = bytes.first_chunk()?;
    let result = u64::from_le_bytes(*entry.last_chunk()?);
    let handle = usize::try_from(result).ok().filter(|handle| *handle < 64)?;
    (entry[0] % 8 == 1 && words[HANDLES + handle] != 0).then_some(handle)
}

/// Which of them a refusal is, on these words and with this number.
pub fn case(words: &Words, event: &Event, number: u64) -> Option<Case> {
    match (event, number) {
        (Event::Write { bytes, .. }, 22 | 77) => {
            named_handle(words, bytes).map(|_| Case::Descriptor)
        }
        (Event::Wake { .. }, 4) => Some(Case::Interrupted),
        (Event::Move { .. }, 22 | 2) => Some(Case::Move),
        (Event::Supply { .. }, 3) => Some(Case::Supply),
        _ => None,
    }
}

fn one_less(count: &mut u64) {
    *count = count.saturating_sub(1);
}

impl Case {
    /// Changes the words as the refused event has to.
    pub fn store(self, words: &mut Words, event: &Event) {
        match (self, event) {
            (Case::Descriptor, Event::Write { bytes, .. }) => {
                let handle = named_handle(words, bytes).expect("it is such an entry");
                let held = std::mem::take(&mut words[HANDLES + handle]);
                // a handle that holds more names no description
                if held <= 64 {
                    one_less(&mut words[ALL + held as usize - 1]);
                }
            }
            (
                Case::Interrupted,
                Event::Wake {
                    tag, base, count, ..
                },
            ) => {
                // the slot is stored whole: bits and words without a meaning become 0
                let slot = &mut words[SLOT * *tag as usize..][..SLOT];
                slot[0] = slot[0] & 0x2ff | 0x500;
                slot[1] &= 0xffff_ffff;
                slot[2..6].copy_from_slice(&[0, 0, *base, *count]);
                slot[6] &= 0x1_ffff;
                slot[8] = 0;
                slot[11] &= 0xff;
            }
            (Case::Move, Event::Move { list, .. }) => {
                for d in list {
                    one_less(&mut words[OUTSIDE + *d as usize]);
                    one_less(&mut words[ALL + *d as usize]);
                }
            }
            (Case::Supply, Event::Supply { tag, .. }) => {
                words[SLOT * *tag as usize..][..SLOT].fill(0);
                words[CHAIN + *tag as usize] = words[HEAD];
                words[HEAD] = *tag;
            }
            _ => unreachable!("{self:?} is no case of {event}"),
        }
    }
}
