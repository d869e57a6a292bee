//! Event words: sixteen bits, the kind in the top three.

use crate::Refusal;

/// One thing that happens to the controller.
#[derive(Clone, Copy, PartialEq, Eq, Debug)]
pub enum Event {
    Start,
    Stop,
    Byte(u8),
    Take { ack: bool },
    Pins(u8),
    Tick,
    Reset { straps: u8, levels: u8, short_pulse: bool },
    Timeout,
}

/// The bits that may be set below the kind, by kind.
const DATA_BITS: [u16; 8] = [0, 0, 0x00FF, 0x0001, 0x00FF, 0, 0x1FFF, 0];

/// The bit of a RESET by which a dock says that it was built on the short pulse.
const SHORT_PULSE: u16 = 1 << 12;

const MOST_STRAPS: u8 = 15;

/// The event of a word, or nothing where a bit that must be 0 is set.
pub fn unpack(word: u16) -> Option<Event> {
    let kind = word >> 13;
    let data = word & 0x1FFF;
    if data & !DATA_BITS[usize::from(kind)] != 0 {
        return None;
    }
    let low = data as u8;
    Some(match kind {
        0 => Event::Start,
        1 => Event::Stop,
        2 => Event::Byte(low),
        3 => Event::Take { ack: low == 1 },
        4 => Event::Pins(low),
        5 => Event::Tick,
        6 => Event::Reset { straps: (data >> 8 & 0x0F) as u8, levels: low, short_pulse: data & SHORT_PULSE != 0 },
        _ => Event::Timeout,
    })
}

/// The word of an event; only straps can be too wide for it.
pub fn pack(event: Event) -> Result<u16, Refusal> {
    let (kind, data) = match event {
        Event::Start => (0, 0),
        Event::Stop => (1, 0),
        Event::Byte(value) => (2, u16::from(value)),
        Event::Take { ack } => (3, u16::from(ack)),
        Event::Pins(levels) => (4, u16::from(levels)),
        Event::Tick => (5, 0),
        Event::Reset { straps, .. } if straps > MOST_STRAPS => return Err(Refusal::WideStraps),
        Event::Reset { straps, levels, short_pulse } => {
            let asked = if short_pulse { SHORT_PULSE } else { 0 };
            (6, asked | u16::from(straps) << 8 | u16::from(levels))
        }
        Event::Timeout => (7, 0),
    };
    Ok(kind << 13 | data)
}
