//! Why an event is refused.

use core::fmt::{self, Display, Formatter};

/// Why an event was refused. A refused event has changed nothing, but for four of them:
/// [`Esrch`](Refusal::Esrch), [`Eintr`](Refusal::Eintr), a refused
/// [`move_list`](crate::Layer::move_list), and a refused entry [with a descriptor](crate::Call::descriptor).
///
/// ```
/// use tilgurap::Refusal;
///
/// assert_eq!(Refusal::NoVacantSlot.number(), 202);
/// assert_eq!(Refusal::from_number(202), Some(Refusal::NoVacantSlot));
/// assert_eq!(Refusal::NoVacantSlot.to_string(), "no slot is vacant (202)");
/// ```
#[derive(Clone, Copy, Debug, PartialEq, Eq, Hash)]
#[non_exhaustive]
pub enum Refusal {
    /// 2: the call does not wait any more, or no description is listed.
    Enoent,
    /// 3: the caller of a map request has ended. Its slot was vacated.
    Esrch,
    /// 4: a killed caller's call returned before its driver replied. It keeps its slot until then.
    Eintr,
    /// 11: the queue is empty, and the read was not to wait.
    Eagain,
    /// 22: an argument, an entry or a tag that is not valid there.
    Einval,
    /// 77: no call waits under this tag.
    Ebadfd,
    /// 95: no such standard file system call.
    Eopnotsupp,
    /// 201: the slot is not this caller's, or its caller ended or its call returned.
    NotThisCallers,
    /// 202: all 64 slots are given out.
    NoVacantSlot,
    /// 203: 128 entries are unread.
    QueueFull,
    /// 204: too few words for effects were lent. [`Layer::write`](crate::Layer::write) always lends enough.
    FewEffectWords,
    /// 205: a description or handle that is over 63, not open, already open or in use, or a hold that does not exist.
    OutOfRules,
    /// 206: more than 16 descriptions in a list.
    ManyDescriptions,
    /// 207: a description has 65,535 holds already.
    HoldsFull,
}

const REFUSALS: [(Refusal, u64, &str); 14] = [
    (
        Refusal::Enoent,
        2,
        "the call does not wait, or lists no description",
    ),
    (Refusal::Esrch, 3, "the caller has ended"),
    (
        Refusal::Eintr,
        4,
        "the call returns before its driver has replied",
    ),
    (Refusal::Eagain, 11, "nothing is there to read"),
    (Refusal::Einval, 22, "not valid there"),
    (Refusal::Ebadfd, 77, "no call waits under this tag"),
    (Refusal::Eopnotsupp, 95, "no such standard file system call"),
    (
        Refusal::NotThisCallers,
        201,
        "the slot is not this caller's",
    ),
    (Refusal::NoVacantSlot, 202, "no slot is vacant"),
    (Refusal::QueueFull, 203, "the queue is full"),
    (
        Refusal::FewEffectWords,
        204,
        "too few words lent for effects",
    ),
    (
        Refusal::OutOfRules,
        205,
        "a number or a hold that the host does not have",
    ),
    (Refusal::ManyDescriptions, 206, "more than 16 descriptions"),
    (Refusal::HoldsFull, 207, "the description has 65,535 holds"),
];

impl Refusal {
    /// The refusal of this number.
    pub fn from_number(number: u64) -> Option<Refusal> {
        let found = REFUSALS.iter().find(|(_, of, _)| *of == number);
        found.map(|(refusal, _, _)| *refusal)
    }

    /// An errno, or 201 to 207.
    pub fn number(self) -> u64 {
        REFUSALS[self as usize].1
    }

    /// In a few words.
    pub fn meaning(self) -> &'static str {
        REFUSALS[self as usize].2
    }
}

impl Display for Refusal {
    fn fmt(&self, f: &mut Formatter) -> fmt::Result {
        write!(f, "{} ({})", self.meaning(), self.number())
    }
}

impl core::error::Error for Refusal {}

/// A refusal that the layer says: it has no others.
pub(crate) fn refusal(number: u64) -> Refusal {
    Refusal::from_number(number).unwrap_or_else(|| unreachable!("{number} is no refusal"))
}

#[cfg(test)]
mod tests {
    use super::*;

    #[test]
    fn each_refusal_stands_at_its_place() {
        for (place, (refusal, number, _)) in REFUSALS.iter().enumerate() {
            assert_eq!(*refusal as usize, place);
            assert_eq!(Refusal::from_number(*number), Some(*refusal));
        }
    }
}
