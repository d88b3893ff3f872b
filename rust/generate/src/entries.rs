//! Completion entries, and writes of them.

use script::{Event, Phase};

use crate::draw::Draw;
use crate::model::Generator;

const ENTRY: usize = 16;
const OBTAIN: u8 = 3;
const MANY: u8 = 4;
/// The words that an entry may make.
const EFFECT_WORDS: u64 = 54;
/// EINTR and ECANCELED, which cancelling turns round; errors at the ends; numbers that are none.
const ERRNOS: [u64; 14] = [1, 2, 4, 4, 4, 5, 22, 125, 125, 125, 131, 132, 133, 4_095];

/// Flags of events and of obtain entries at the ends of their masks.
const FLAG_EDGES: [u32; 14] = [
    15, 16, 17, 30, 31, 32, 33, 64, 128, 255, 256, 257, 65_536, 65_537,
];

/// The kind of an entry and the handle that it names.
fn obtains(entry: &[u8]) -> Option<u64> {
    let handle: [u8; 8] = entry[8..16].try_into().expect("eight bytes");
    (entry[0] % 8 == OBTAIN).then(|| u64::from_le_bytes(handle))
}

fn result_word(draw: &mut Draw) -> u64 {
    let errno = draw.one_of(&ERRNOS);
    match draw.below(100) {
        0..40 => draw.word(),
        40..80 => errno.wrapping_neg(),
        80..90 => u64::from((errno as u32).wrapping_neg()),
        _ => draw.any() << 32 | u64::from((errno as u32).wrapping_neg()),
    }
}

impl Generator {
    fn handle(&mut self, occupied: bool) -> u64 {
        let handles = self.state.handles.iter().zip(0..);
        let fitting: Vec<u64> = handles
            .filter(|(held, _)| held.is_some() == occupied)
            .map(|(_, h)| h)
            .collect();
        match self.draw.maybe_of(&fitting) {
            Some(h) if !self.draw.chance(12) => h,
            _ if self.draw.chance(50) => self.draw.below(66),
            _ => self.draw.word(),
        }
    }

    fn reply_tag(&mut self) -> u32 {
        let phase = match self.draw.below(100) {
            0..88 => Phase::Waiting,
            88..93 => Phase::Responded,
            93..95 => Phase::Placeholder,
            95..97 => Phase::Fmap,
            _ => Phase::Vacant,
        };
        self.tag_in(phase) as u32
    }

    /// Entries that were taken.
    pub(crate) fn learn_entries(&mut self, bytes: &[u8]) {
        for entry in bytes.chunks_exact(ENTRY) {
            let tag = u32::from_le_bytes(entry[4..8].try_into().expect("four bytes"));
            if obtains(entry).is_some()
                && let Some(Some(given)) = self.given.get_mut(tag as usize)
            {
                given.listed = given.listed.saturating_sub(1);
            }
        }
    }

    /// A kind that has something to do, mostly.
    fn entry_kind(&mut self) -> u8 {
        if !self.receiving(true).is_empty() && self.draw.chance(25) {
            return MANY;
        }
        let kind = self.draw.weighted(&[30, 14, 7, 16, 14, 10, 1, 1]) as u8;
        let idle = match kind {
            1 => self.state.handles.iter().all(Option::is_none),
            OBTAIN => self.with_list().is_empty(),
            _ => false,
        };
        if idle && self.draw.chance(85) {
            self.draw.one_of(&[0, 4, 5])
        } else {
            kind
        }
    }

    fn entry(&mut self) -> [u8; ENTRY] {
        let kind = self.entry_kind();
        let flags = match self.draw.chance(80) {
            true => kind,
            false => kind | self.draw.byte() & 0xf8,
        };
        let mut extra = [0; 3];
        if self.draw.chance(50) {
            extra = [(); 3].map(|()| self.draw.byte());
        }
        let mut tag = self.reply_tag();
        let result = match kind {
            1 => self.handle(true),
            2 => {
                tag = match self.draw.below(100) {
                    0..80 => self.draw.below(32) as u32,
                    80..90 => self.draw.one_of(&FLAG_EDGES),
                    _ => self.draw.half(),
                };
                self.draw.word()
            }
            OBTAIN => {
                extra = match self.draw.below(100) {
                    0..86 => [self.draw.below(16) as u8, 0, 0],
                    86..95 => {
                        let [low, second, third, _] = self.draw.one_of(&FLAG_EDGES).to_le_bytes();
                        [low, second, third]
                    }
                    _ => extra,
                };
                let listed = self.with_list();
                if let Some(listed) = self.draw.maybe_of(&listed)
                    && self.draw.chance(80)
                {
                    tag = listed as u32;
                }
                let occupied = self.occupied && self.draw.chance(8);
                self.handle(occupied)
            }
            MANY => {
                let receiving = self.receiving(true);
                if let Some(receiving) = self.draw.maybe_of(&receiving)
                    && self.draw.chance(80)
                {
                    tag = receiving as u32;
                }
                result_word(&mut self.draw)
            }
            _ => result_word(&mut self.draw),
        };
        let mut entry = [0; ENTRY];
        entry[0] = flags;
        entry[1..4].copy_from_slice(&extra);
        entry[4..8].copy_from_slice(&tag.to_le_bytes());
        entry[8..].copy_from_slice(&result.to_le_bytes());
        // damaged: a byte, or all of them
        match self.draw.below(100) {
            0..3 => {
                let place = self.draw.below(ENTRY as u64) as usize;
                entry[place] = self.draw.byte();
            }
            3 => entry = [(); ENTRY].map(|()| self.draw.byte()),
            _ => {}
        }
        entry
    }

    /// Points obtain entries away from handles that may be occupied when their turn comes.
    fn spare_occupied(&mut self, bytes: &mut [u8]) {
        let mut taken = self.state.handles.map(|held| held.is_some());
        for entry in bytes.chunks_exact_mut(ENTRY) {
            let Some(handle) = obtains(entry) else {
                continue;
            };
            let Some(held) = usize::try_from(handle).ok().and_then(|h| taken.get_mut(h)) else {
                continue;
            };
            if *held {
                entry[8..].copy_from_slice(&64u64.to_le_bytes());
            }
            *held = true;
        }
    }

    pub(crate) fn write(&mut self) -> Event {
        let count = match self.draw.below(100) {
            0..55 => 1,
            55..85 => 2 + self.draw.below(3),
            85..95 => 5 + self.draw.below(8),
            95..98 => 20 + self.draw.below(60),
            _ => 0,
        };
        let mut bytes: Vec<u8> = (0..count).flat_map(|_| self.entry()).collect();
        if self.draw.chance(10) {
            // the same entry twice
            let first = bytes.iter().take(ENTRY).copied().collect::<Vec<u8>>();
            bytes.extend(first);
        }
        if !self.occupied {
            self.spare_occupied(&mut bytes);
        }
        let needed = EFFECT_WORDS * (bytes.len() / ENTRY) as u64;
        if self.draw.chance(12) {
            let left = 1 + self.draw.below(15);
            bytes.extend((0..left).map(|_| self.draw.byte()));
        }
        let words = match self.draw.below(100) {
            0..80 => needed,
            80..97 => needed + self.draw.below(100),
            97 => needed.saturating_sub(1 + self.draw.below(54)),
            98 => 0,
            _ => self.draw.word(),
        };
        Event::Write { words, bytes }
    }
}
