//! Bytes that a call gets to write to, and how they are shown.

use model::RECORD_BYTES;

/// Bytes in which an untouched one can be told from a written one: no record and no image has this pattern.
pub fn pattern(length: usize) -> Vec<u8> {
    (0..length).map(|place| 0xA5 ^ (place as u8).wrapping_mul(29)).collect()
}

pub fn hex(bytes: &[u8]) -> String {
    bytes.iter().map(|byte| format!("{:02X}", byte)).collect::<Vec<_>>().join(" ")
}

/// How many answer bytes a call gets, against four for each word.
#[derive(Clone, Copy, Debug)]
pub enum Room {
    Short(usize),
    Exact,
    Spare(usize),
}

impl Room {
    pub fn bytes(self, words: usize) -> usize {
        let exact = RECORD_BYTES * words;
        match self {
            Room::Short(missing) => exact.saturating_sub(missing),
            Room::Exact => exact,
            Room::Spare(more) => exact + more,
        }
    }
}
