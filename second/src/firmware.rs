//! Firmwares that keep every rule of admission, drawn at random with their maps.

mod blocks;
mod code;
mod draw;

pub use draw::{Draw, Shape};

use crate::admission::{Mark, RECORD};

/// What is lent to admission.
#[derive(Clone)]
pub struct Firmware {
    pub image: Vec<u8>,
    pub c: u8,
    pub marks: Vec<Mark>,
    /// Whether an instruction lies in another's operand, so that one byte may be of two.
    pub is_overlapped: bool,
}

impl Firmware {
    pub fn map(&self) -> Vec<u8> {
        let records = self.marks.iter().map(|mark| mark.write());
        let mut map = Vec::with_capacity(self.marks.len() * RECORD);
        records.for_each(|record| map.extend(record));
        map
    }

    pub fn word(&self, address: u16) -> u16 {
        let at = usize::from(address);
        u16::from_le_bytes([self.image[at], self.image[at + 1]])
    }

    pub fn put(&mut self, address: u16, bytes: &[u8]) {
        let at = usize::from(address);
        self.image[at..at + bytes.len()].copy_from_slice(bytes);
    }

    /// Everything below may be written.
    pub fn first_protected(&self) -> usize {
        self.image.len() - 256 * usize::from(self.c)
    }
}
