//! Events and their words.

use crate::{pack, unpack, Error, Unnamed};
use core::fmt;

/// The most that four straps make.
const MOST_STRAPS: u16 = 15;

/// What RESET's first number has beside the straps where the short pulse is asked for.
const SHORT_PULSE: u16 = 0x100;

/// One thing that happens to the dock.
///
/// ```
/// use dock::{Error, Event, Refusal};
///
/// assert_eq!(Event::try_from(0x4090)?, Event::Byte(0x90));
/// assert_eq!(u16::try_from(Event::Reset { straps: 0, levels: 0xBF, short_pulse: false })?, 0xC0BF);
/// assert_eq!(Event::try_from(0xD1FF)?, Event::Reset { straps: 1, levels: 0xFF, short_pulse: true });
/// assert_eq!(Event::try_from(0xA001), Err(Error::Refused(Refusal::StrayBit)));
/// let wide = Event::Reset { straps: 16, levels: 0, short_pulse: false };
/// assert_eq!(u16::try_from(wide), Err(Error::Refused(Refusal::WideStraps)));
/// # Ok::<(), Error>(())
/// ```
#[derive(Clone, Copy, PartialEq, Eq, Debug)]
pub enum Event {
    Start,
    Stop,
    Byte(u8),
    Take {
        ack: bool,
    },
    Pins(u8),
    Tick,
    /// LETR then starts at 1, 50 ticks, or with `short_pulse` at 0, 12 ticks. The second kind has no LETR, and passes
    /// `short_pulse` by.
    Reset {
        straps: u8,
        levels: u8,
        short_pulse: bool,
    },
    Timeout,
}

impl Event {
    /// The kind and the two numbers of the C interface.
    fn numbers(self) -> (u8, u16, u8) {
        match self {
            Event::Start => (0, 0, 0),
            Event::Stop => (1, 0, 0),
            Event::Byte(value) => (2, value.into(), 0),
            Event::Take { ack } => (3, ack.into(), 0),
            Event::Pins(levels) => (4, levels.into(), 0),
            Event::Tick => (5, 0, 0),
            Event::Reset { straps, levels, short_pulse: false } => (6, straps.into(), levels),
            Event::Reset { straps, levels, short_pulse: true } => (6, SHORT_PULSE | u16::from(straps), levels),
            Event::Timeout => (7, 0, 0),
        }
    }

    /// The event of these numbers. Numbers that no event of this version has are not cut to fit one: a library whose
    /// RESET has more straps is told as such.
    fn of_numbers(kind: u8, first: u16, second: u8) -> Result<Event, Unnamed> {
        let low = first as u8;
        Ok(match (kind, first, second) {
            (0, 0, 0) => Event::Start,
            (1, 0, 0) => Event::Stop,
            (2, 0..=0xFF, 0) => Event::Byte(low),
            (3, 0 | 1, 0) => Event::Take { ack: first == 1 },
            (4, 0..=0xFF, 0) => Event::Pins(low),
            (5, 0, 0) => Event::Tick,
            (6, first, levels) if first & !SHORT_PULSE <= MOST_STRAPS => {
                Event::Reset { straps: low, levels, short_pulse: first & SHORT_PULSE != 0 }
            }
            (7, 0, 0) => Event::Timeout,
            _ => return Err(unnamed(kind, first, second)),
        })
    }
}

fn unnamed(kind: u8, first: u16, second: u8) -> Unnamed {
    let [high, low] = first.to_be_bytes();
    Unnamed { what: "event", number: u32::from_be_bytes([kind, high, low, second]) }
}

impl TryFrom<u16> for Event {
    type Error = Error;

    /// Refused where a bit that must be 0 is set.
    fn try_from(word: u16) -> Result<Event, Error> {
        let (first, second) = unpack(word)?;
        Ok(Event::of_numbers((word >> 13) as u8, first, second)?)
    }
}

impl TryFrom<Event> for u16 {
    type Error = Error;

    /// Refused only for straps above 15.
    fn try_from(event: Event) -> Result<u16, Error> {
        let (kind, first, second) = event.numbers();
        pack(kind, first, second)
    }
}

impl fmt::Display for Event {
    fn fmt(&self, f: &mut fmt::Formatter) -> fmt::Result {
        match self {
            Event::Start => f.write_str("START"),
            Event::Stop => f.write_str("STOP"),
            Event::Byte(value) => write!(f, "BYTE {:02X}h", value),
            Event::Take { ack: true } => f.write_str("TAKE, ACK"),
            Event::Take { ack: false } => f.write_str("TAKE, NACK"),
            Event::Pins(levels) => write!(f, "PINS {:02X}h", levels),
            Event::Tick => f.write_str("TICK"),
            Event::Reset { straps, levels, short_pulse } => {
                write!(f, "RESET {:X}h {:02X}h", straps, levels)?;
                f.write_str(if *short_pulse { ", short pulse" } else { "" })
            }
            Event::Timeout => f.write_str("TIMEOUT"),
        }
    }
}

/// A whole write; `own` is the dock's address byte for writing.
pub fn write(own: u8, register: u8, value: u8) -> [Event; 5] {
    [Event::Start, Event::Byte(own), Event::Byte(register), Event::Byte(value), Event::Stop]
}

/// A whole read; `own` is the dock's address byte for writing.
pub fn read(own: u8, register: u8) -> [Event; 6] {
    [
        Event::Start,
        Event::Byte(own),
        Event::Byte(register),
        Event::Start,
        Event::Byte(own | 1),
        Event::Take { ack: false },
    ]
}

#[cfg(test)]
mod tests {
    use super::*;

    #[test]
    fn numbers_that_no_event_has_are_told() {
        let bare = [(0, 1, 0), (1, 0, 1), (3, 2, 0), (7, 1, 0)];
        let bytes = [(2, 0, 1), (2, 0x100, 0), (4, 0, 1), (4, 0x100, 0)];
        let resets = [(6, 0x010, 0), (6, 0x110, 0), (6, 0x200, 0), (6, 0x301, 0)];
        for (kind, first, second) in bare.into_iter().chain(bytes).chain(resets) {
            assert_eq!(Event::of_numbers(kind, first, second), Err(unnamed(kind, first, second)));
        }
        assert_eq!(unnamed(6, 0x110, 0xBF), Unnamed { what: "event", number: 0x0601_10BF });
    }
}
