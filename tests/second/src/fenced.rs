//! Buffers between canary bytes.

use crate::memory::Span;
use std::ptr;

/// A buffer between canary bytes.
pub struct Fenced {
    bytes: Vec<u8>,
    margin: usize,
}

impl Fenced {
    /// The margin is at least 16 bytes and changes with the case, and with it the buffer's place in memory.
    pub fn new(buffer: &[u8], case: u64) -> Fenced {
        let margin = 16 + (case % 8) as usize;
        let canary: Vec<u8> = (0..margin).map(|place| 0x5A ^ (place * 29) as u8).collect();
        Fenced { bytes: [&canary, buffer, &canary].concat(), margin }
    }

    fn length(&self) -> usize {
        self.bytes.len() - 2 * self.margin
    }

    /// The buffer's first byte; an empty buffer is null in every other case, as `wom.h` allows.
    fn start(&mut self) -> *mut u8 {
        if self.length() == 0 && self.margin & 1 == 0 {
            return ptr::null_mut();
        }
        self.bytes[self.margin..].as_mut_ptr()
    }

    /// The buffer as a call is told of it.
    pub fn span(&mut self) -> Span {
        Span { start: self.start(), length: self.length() }
    }

    /// The buffer, and the canary bytes on both sides, with their names.
    pub fn parts(&self) -> [(&'static str, &[u8]); 3] {
        let (before, rest) = self.bytes.split_at(self.margin);
        let (buffer, after) = rest.split_at(self.length());
        [("buffer", buffer), ("canary before it", before), ("canary after it", after)]
    }

    /// Changes the last byte of the buffer, if it has one.
    pub fn spoil_buffer(&mut self) -> bool {
        if self.length() == 0 {
            return false;
        }
        let last = self.margin + self.length() - 1;
        self.bytes[last] ^= 1;
        true
    }

    /// Changes the canary byte after the buffer.
    pub fn spoil_canary(&mut self) -> bool {
        let after = self.margin + self.length();
        self.bytes[after] ^= 1;
        true
    }
}
