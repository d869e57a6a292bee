//! Event words by name, for whoever writes lists of them.

pub const START: u16 = 0x0000;
pub const STOP: u16 = 0x2000;
pub const TICK: u16 = 0xA000;
pub const TIMEOUT: u16 = 0xE000;

pub const fn byte(value: u8) -> u16 {
    0x4000 | value as u16
}

pub const fn take(ack: bool) -> u16 {
    0x6000 | ack as u16
}

pub const fn pins(levels: u8) -> u16 {
    0x8000 | levels as u16
}

/// Only the low four bits of the straps are looked at.
pub const fn reset(straps: u8, levels: u8) -> u16 {
    0xC000 | (straps as u16 & 0x0F) << 8 | levels as u16
}

/// A RESET of a dock that was built on the short pulse (document 02, request 4).
pub const fn reset_short(straps: u8, levels: u8) -> u16 {
    0x1000 | reset(straps, levels)
}

/// A whole write; `own` is the controller's address byte for writing.
pub const fn write(own: u8, register: u8, value: u8) -> [u16; 5] {
    [START, byte(own), byte(register), byte(value), STOP]
}

/// A whole read; `own` is the controller's address byte for writing.
pub const fn read(own: u8, register: u8) -> [u16; 6] {
    [START, byte(own), byte(register), START, byte(own | 1), take(false)]
}

/// A write of any number of data bytes, for a controller of the second kind.
pub fn write_all(own: u8, register: u8, values: &[u8]) -> Vec<u16> {
    let data = values.iter().map(|&value| byte(value));
    [START, byte(own), byte(register)].into_iter().chain(data).chain([STOP]).collect()
}

/// A read of at least one byte, for a controller of the second kind: every TAKE but the last is ACKed.
pub fn read_all(own: u8, register: u8, count: usize) -> Vec<u16> {
    let takes = (1..=count).map(|taken| take(taken < count));
    [START, byte(own), byte(register), START, byte(own | 1)].into_iter().chain(takes).collect()
}
