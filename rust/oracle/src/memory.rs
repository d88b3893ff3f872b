//! Pages and frames: numbers, as far as the user scheme code goes.

use std::ops::{Deref, DerefMut};

pub const PAGE_SIZE: usize = 4096;

#[derive(Clone, Copy, Debug, PartialEq, Eq, PartialOrd, Ord)]
pub struct VirtualAddress(usize);

impl VirtualAddress {
    pub fn new(address: usize) -> Self {
        VirtualAddress(address)
    }
    pub fn data(&self) -> usize {
        self.0
    }
}

#[derive(Clone, Copy, Debug)]
pub struct PhysicalAddress(pub usize);

#[derive(Clone, Copy, Debug, PartialEq, Eq, PartialOrd, Ord)]
pub struct Page(usize);

impl Page {
    pub fn numbered(number: usize) -> Self {
        Page(number)
    }
    pub fn number(self) -> usize {
        self.0
    }
    pub fn containing_address(address: VirtualAddress) -> Self {
        Page(address.0 / PAGE_SIZE)
    }
    pub fn start_address(self) -> VirtualAddress {
        VirtualAddress(self.0 * PAGE_SIZE)
    }
    pub fn next_by(self, by: usize) -> Self {
        Page(self.0 + by)
    }
    pub fn next(self) -> Self {
        self.next_by(1)
    }
}

#[derive(Clone, Copy, Debug)]
#[allow(dead_code)]
pub struct Frame(usize);

impl Frame {
    pub fn containing(address: PhysicalAddress) -> Self {
        Frame(address.0 / PAGE_SIZE)
    }
}

/// A value in a frame of its own.
#[derive(Debug)]
pub struct FrameAllocated<T>(Box<T>);

impl<T> FrameAllocated<T> {
    pub fn try_new(value: T) -> Option<Self> {
        Some(FrameAllocated(Box::new(value)))
    }
}

impl<T> Deref for FrameAllocated<T> {
    type Target = T;
    fn deref(&self) -> &T {
        &self.0
    }
}

impl<T> DerefMut for FrameAllocated<T> {
    fn deref_mut(&mut self) -> &mut T {
        &mut self.0
    }
}
