//! The words that are timed. Each list begins with a RESET that finds a USB device in bay 0.

use paper::words::{pins, read, write, TICK};

const OWN: u8 = 0x90;
const RESET: u16 = 0xC0BF;

const DEVICE: u16 = pins(0xBF);
const DEVICE_AND_BUTTON: u16 = pins(0x9F);
const NOTHING: u16 = pins(0xFF);

/// RESET, then the part over and over.
fn repeated(part: &[u16], length: usize) -> Vec<u16> {
    std::iter::once(RESET).chain(part.iter().copied().cycle()).take(length).collect()
}

pub fn ticks(length: usize) -> Vec<u16> {
    repeated(&[TICK], length)
}

/// Writes and reads of a driver that is never interrupted.
pub fn commands(length: usize) -> Vec<u16> {
    let part = [
        &write(OWN, 0x14, 0xAC)[..],
        &read(OWN, 0x10),
        &write(OWN, 0x10, 0x04),
        &read(OWN, 0x14),
        &write(OWN, 0x1C, 0x0C),
        &read(OWN, 0x18),
        &write(OWN, 0x40, 0x01),
        &read(OWN, 0x0C),
    ]
    .concat();
    repeated(&part, length)
}

/// The same of the second kind, at its addresses.
pub fn second_commands(length: usize) -> Vec<u16> {
    let part = [
        &write(OWN, 0x10, 0xAC)[..],
        &read(OWN, 0x14),
        &write(OWN, 0x14, 0x04),
        &read(OWN, 0x10),
        &write(OWN, 0x18, 0x0C),
        &read(OWN, 0x20),
        &write(OWN, 0x08, 0x34),
        &read(OWN, 0x0C),
    ]
    .concat();
    repeated(&part, length)
}

/// The life of a device: it comes, is enabled, works for a second, the button goes down, it is let go and taken out.
pub fn mix(length: usize) -> Vec<u16> {
    life(0x10, 0x14, length)
}

pub fn second_mix(length: usize) -> Vec<u16> {
    life(0x14, 0x10, length)
}

fn life(bstr: u8, bcer: u8, length: usize) -> Vec<u16> {
    let settle = [TICK; 10];
    let part = [
        &[DEVICE][..],
        &settle,
        &read(OWN, bstr),
        &write(OWN, bstr, 0x04),
        &write(OWN, bcer, 0xAD),
        &[TICK; 100],
        &[DEVICE_AND_BUTTON],
        &settle,
        &read(OWN, bstr),
        &write(OWN, bstr, 0x08),
        &[DEVICE],
        &settle,
        &write(OWN, bcer, 0x4C),
        &[NOTHING],
        &settle,
        &read(OWN, bstr),
    ]
    .concat();
    repeated(&part, length)
}
