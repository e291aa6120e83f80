//! A checksum over all that is answered, a text buffer, and the generator of the random lists of calls.

use std::fmt;

pub struct Sum(pub u32);

impl Sum {
    pub fn new() -> Sum {
        Sum(2_166_136_261)
    }

    pub fn add(&mut self, number: u32) {
        self.0 = (self.0 ^ number).wrapping_mul(16_777_619);
    }

    pub fn add_bytes(&mut self, bytes: &[u8]) {
        for byte in bytes {
            self.add(u32::from(*byte));
        }
    }
}

/// Text without a heap; what does not fit is let go.
pub struct Text {
    bytes: [u8; 160],
    len: usize,
}

impl Text {
    pub fn new() -> Text {
        Text { bytes: [0; 160], len: 0 }
    }

    pub fn bytes(&self) -> &[u8] {
        &self.bytes[..self.len]
    }

    pub fn push(&mut self, byte: u8) {
        if self.len < self.bytes.len() {
            self.bytes[self.len] = byte;
            self.len += 1;
        }
    }

    pub fn cut(&mut self, len: usize) {
        self.len = self.len.min(len);
    }

    pub fn replace(&mut self, place: usize, byte: u8) {
        if place < self.len {
            self.bytes[place] = byte;
        }
    }
}

impl fmt::Write for Text {
    fn write_str(&mut self, text: &str) -> fmt::Result {
        for byte in text.as_bytes() {
            self.push(*byte);
        }
        Ok(())
    }
}

pub struct Random {
    state: u32,
    /// The messages are to fill a cycle each, so that tables come to the brink: late, or unsettled.
    pub is_tight: bool,
}

impl Random {
    pub fn new(seed: u32) -> Random {
        Random { state: seed, is_tight: seed % 4 == 0 }
    }

    pub fn below(&mut self, bound: u32) -> u32 {
        self.state = self.state.wrapping_mul(1_664_525).wrapping_add(1_013_904_223);
        (self.state >> 16) % bound.max(1)
    }

    pub fn byte(&mut self, bound: u32) -> u8 {
        (self.below(bound) & 255) as u8
    }
}
