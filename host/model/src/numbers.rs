//! The model's answers as the numbers of the C interface (`include/dock.h`): a refusal times 65,536 plus a value, and
//! above both what the first number of an unpacked word has beyond a byte.

use crate::{Controller, Event, Refusal};

/// A refusal has value 0.
pub fn answer(result: Result<u16, Refusal>) -> u32 {
    match result {
        Ok(value) => u32::from(value),
        Err(refusal) => (refusal as u32) << 16,
    }
}

/// From a fresh controller.
pub fn replay(words: &[u16], records: &mut [u8]) -> u32 {
    batch(&mut Controller::new(), words, records)
}

pub fn batch(dock: &mut Controller, words: &[u16], records: &mut [u8]) -> u32 {
    answer(dock.batch(words, records).map(|count| count as u16))
}

/// A name that is taken has value 0.
pub fn name_kind(dock: &mut Controller, number: u8) -> u32 {
    answer(dock.name_kind(number).map(|()| 0))
}

/// A byte that is held is told beside bit 8, so that 00h is not none.
pub fn held_byte(dock: &Controller) -> u16 {
    dock.held_byte().map_or(0, |byte| u16::from_be_bytes([1, byte]))
}

pub fn pack(kind: u8, first: u16, second: u8) -> u32 {
    answer(event(kind, first, second).ok_or(Refusal::StrayBit).and_then(crate::pack))
}

/// The two numbers of the word's event; its kind is in the word itself.
pub fn unpack(word: u16) -> u32 {
    match crate::unpack(word).map(numbers) {
        Some((first, second)) => {
            let [high, low] = first.to_be_bytes();
            u32::from_be_bytes([high, 0, low, second])
        }
        None => answer(Err(Refusal::StrayBit)),
    }
}

/// In RESET's first number, beside the straps.
const SHORT_PULSE: u16 = 0x100;

/// First and second number of an event.
fn numbers(event: Event) -> (u16, u8) {
    match event {
        Event::Byte(number) | Event::Pins(number) => (number.into(), 0),
        Event::Take { ack } => (ack.into(), 0),
        Event::Reset { straps, levels, short_pulse: false } => (straps.into(), levels),
        Event::Reset { straps, levels, short_pulse: true } => (SHORT_PULSE | u16::from(straps), levels),
        Event::Start | Event::Stop | Event::Tick | Event::Timeout => (0, 0),
    }
}

/// The event that has these numbers, if there is one.
fn event(kind: u8, first: u16, second: u8) -> Option<Event> {
    let [high, low] = first.to_be_bytes();
    Some(match (kind, first, second) {
        (0, 0, 0) => Event::Start,
        (1, 0, 0) => Event::Stop,
        (2, 0..=0xFF, 0) => Event::Byte(low),
        (3, 0 | 1, 0) => Event::Take { ack: first == 1 },
        (4, 0..=0xFF, 0) => Event::Pins(low),
        (5, 0, 0) => Event::Tick,
        (6, 0..=0x1FF, levels) => Event::Reset { straps: low, levels, short_pulse: high == 1 },
        (7, 0, 0) => Event::Timeout,
        _ => return None,
    })
}
