//! The host's own events, and its outside holds.

use std::sync::Arc;

use script::Answer;

use super::{DESCRIPTIONS, Description, HANDLES, HOLDS, Oracle, clean, description, number};
use crate::context::file::FileDescriptor;
use crate::scheme::FileHandle;

impl Oracle {
    pub(super) fn is_open(&self, d: u64) -> bool {
        d < DESCRIPTIONS && self.descriptions[d as usize].strong_count() != 0
    }

    /// Does that description have so many outside holds?
    pub(super) fn has_outside(&self, d: u64, count: usize) -> bool {
        self.is_open(d) && self.outside[d as usize].len() >= count
    }

    /// Can this list be taken from outside holds?
    pub(super) fn is_list(&self, list: &[u64]) -> bool {
        let mut count = [0; DESCRIPTIONS as usize];
        list.iter().all(|d| {
            d < &DESCRIPTIONS && {
                count[*d as usize] += 1;
                self.has_outside(*d, count[*d as usize])
            }
        })
    }

    pub(super) fn take(&mut self, list: &[u64]) -> Vec<Description> {
        list.iter()
            .map(|d| self.outside[*d as usize].pop().expect("an outside hold"))
            .collect()
    }

    pub(super) fn give(&mut self, list: Vec<Description>) -> Vec<u64> {
        let numbers: Vec<u64> = list.iter().map(number).collect();
        for (d, hold) in numbers.iter().zip(list) {
            self.outside[*d as usize].push(hold);
        }
        numbers
    }

    pub(super) fn open(&mut self, d: u64) -> Answer {
        if d >= DESCRIPTIONS || self.is_open(d) {
            return Answer::Skip;
        }
        let description = description(d);
        self.descriptions[d as usize] = Arc::downgrade(&description);
        self.outside[d as usize].push(description);
        Answer::Ok(0)
    }

    pub(super) fn copy(&mut self, d: u64) -> Answer {
        if !self.has_outside(d, 1) || self.descriptions[d as usize].strong_count() >= HOLDS {
            return Answer::Skip;
        }
        let hold = self.outside[d as usize][0].clone();
        self.outside[d as usize].push(hold);
        Answer::Ok(0)
    }

    pub(super) fn drop_one(&mut self, d: u64) -> Answer {
        if !self.has_outside(d, 1) {
            return Answer::Skip;
        }
        drop(self.take(&[d]));
        Answer::Ok(0)
    }

    pub(super) fn put(&mut self, d: u64, h: u64) -> Answer {
        let files = self.driver.read(clean().token()).files.clone();
        let full = files.read(clean().token()).is_occupied(h as usize);
        if h >= HANDLES || full || !self.has_outside(d, 1) {
            return Answer::Skip;
        }
        let description = self.take(&[d]).remove(0);
        let file = FileDescriptor { description };
        let token = &mut clean();
        let mut driver = self.driver.read(token.token());
        let (driver, mut token) = driver.token_split();
        let put = driver.insert_file(FileHandle::from(h as usize), file, &mut token);
        assert!(put.is_some(), "the handle takes the description");
        Answer::Ok(0)
    }

    pub(super) fn ended(&mut self, c: u32) -> Answer {
        for given in self.given.iter_mut().flatten() {
            if given.caller == c {
                given.ended = true;
                if let Some(call) = &mut given.call {
                    call.running = None;
                }
                if let Some(context) = given.context.take() {
                    assert_eq!(Arc::strong_count(&context), 1, "nobody else keeps a caller");
                }
            }
        }
        Answer::Ok(0)
    }
}
