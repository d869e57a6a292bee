//! The listening part of request 7 (document 02): samples of the two bus lines in, event words out.
//!
//! What the lines show is told from the sample before and this one; what a bit means, from the list of bits that came
//! since the last one that ended something.

use crate::{pack, Event, Refusal};

/// The most samples of one call.
pub const MOST_SAMPLES: usize = 16_384;

/// The length of a held state's image.
pub const WIRE_BYTES: usize = 7;

const VERSION: u8 = 1;

/// The lines in a sample; the other six bits are ignored.
const CLOCK: u8 = 0b10;
const DATA: u8 = 0b01;

/// SCLK may be low for so many samples in a row, 35 ms; one more is a TIMEOUT.
const LONGEST_LOW: u16 = 17_500;

/// The bits of a byte, and the one after them by which it is acknowledged.
const BYTE_BITS: usize = 8;
const ALL_BITS: usize = 9;

/// The lines as the last sample had them.
#[derive(Clone, Copy, Debug)]
struct Lines {
    data: bool,
    /// For how many samples SCLK has been low; none where it is high. It stays where a TIMEOUT was given.
    low: u16,
}

/// What a sample shows beside the one before it.
enum Seen {
    Start,
    Stop,
    Bit(bool),
    LowTooLong,
}

impl Lines {
    const HIGH: Lines = Lines { data: true, low: 0 };

    fn see(&mut self, sample: u8) -> Option<Seen> {
        let before = *self;
        self.data = sample & DATA != 0;
        if sample & CLOCK == 0 {
            self.low = before.low.saturating_add(1).min(LONGEST_LOW + 1);
            return if before.low == LONGEST_LOW { Some(Seen::LowTooLong) } else { None };
        }
        self.low = 0;
        match (before.low, before.data, self.data) {
            (1.., _, bit) => Some(Seen::Bit(bit)),
            (0, true, false) => Some(Seen::Start),
            (0, false, true) => Some(Seen::Stop),
            (0, _, _) => None,
        }
    }
}

#[derive(Clone, Copy, PartialEq, Eq, Debug)]
enum For {
    Nothing,
    FirstByte,
    BytesFromHost,
    BytesToHost,
}

impl For {
    fn of_number(number: u8) -> Option<For> {
        [For::Nothing, For::FirstByte, For::BytesFromHost, For::BytesToHost]
            .into_iter()
            .find(|&one| one as u8 == number)
    }
}

/// The whole of the listening part.
#[derive(Clone, Debug)]
pub struct Wire {
    lines: Lines,
    listens: For,
    /// How many of the nine bits have come.
    count: usize,
    /// Those bits, the last one at the end. What an image had as their value comes before them.
    bits: Vec<bool>,
}

impl Default for Wire {
    fn default() -> Self {
        Wire::new()
    }
}

impl Wire {
    pub fn new() -> Wire {
        Wire { lines: Lines::HIGH, listens: For::Nothing, count: 0, bits: Vec::new() }
    }

    /// One sample.
    pub fn sample(&mut self, sample: u8) -> Option<u16> {
        let event = match self.lines.see(sample)? {
            Seen::Start => self.begin(For::FirstByte, Event::Start),
            Seen::Stop => self.begin(For::Nothing, Event::Stop),
            Seen::LowTooLong => self.begin(For::Nothing, Event::Timeout),
            Seen::Bit(bit) => self.bit(bit),
        };
        event.and_then(|event| pack(event).ok())
    }

    /// The samples one after the other, and each word in the next place. Counts the words. A refused call changes and
    /// writes nothing.
    pub fn listen(&mut self, samples: &[u8], words: &mut [u16]) -> Result<usize, Refusal> {
        if samples.len() > MOST_SAMPLES {
            return Err(Refusal::TooManyWords);
        }
        if words.len() < samples.len() {
            return Err(Refusal::ShortAnswers);
        }
        let mut count = 0;
        for &sample in samples {
            if let Some(word) = self.sample(sample) {
                words[count] = word;
                count += 1;
            }
        }
        Ok(count)
    }

    /// Whatever was unfinished is dropped.
    fn begin(&mut self, listens: For, event: Event) -> Option<Event> {
        self.listens = listens;
        self.forget_bits();
        Some(event)
    }

    fn forget_bits(&mut self) {
        self.count = 0;
        self.bits.clear();
    }

    fn bit(&mut self, bit: bool) -> Option<Event> {
        if self.listens == For::Nothing {
            return None;
        }
        self.bits.push(bit);
        self.count += 1;
        match self.count {
            BYTE_BITS => self.eighth(),
            ALL_BITS => self.ninth(bit),
            _ => None,
        }
    }

    /// Of a byte that the host clocks in, only its ninth bit says something.
    fn eighth(&mut self) -> Option<Event> {
        match self.listens {
            For::BytesToHost => None,
            _ => Some(Event::Byte(number(&self.bits))),
        }
    }

    fn ninth(&mut self, bit: bool) -> Option<Event> {
        let byte = &self.bits[..self.bits.len() - 1];
        let is_odd = byte.last() == Some(&true);
        let event = match self.listens {
            For::BytesToHost => Some(Event::Take { ack: !bit }),
            _ => None,
        };
        self.listens = match self.listens {
            For::FirstByte if is_odd => For::BytesToHost,
            For::FirstByte => For::BytesFromHost,
            other => other,
        };
        self.forget_bits();
        event
    }

    pub fn image(&self) -> [u8; WIRE_BYTES] {
        let [high, low] = self.lines.low.to_be_bytes();
        let count = self.count as u8;
        [VERSION, self.lines.data.into(), self.listens as u8, count, number(&self.bits), high, low]
    }

    /// The part that has this image; none where the bytes are no image, or that of a state that is not fit.
    pub fn from_image(bytes: &[u8]) -> Option<Wire> {
        let (data, listens, count, value, low) = match *bytes {
            [VERSION, data @ 0..=1, listens, count, value, high, low] => {
                (data == 1, For::of_number(listens)?, count.into(), value, u16::from_be_bytes([high, low]))
            }
            _ => return None,
        };
        if count >= ALL_BITS || low > LONGEST_LOW + 1 {
            return None;
        }
        Some(Wire { lines: Lines { data, low }, listens, count, bits: bits_of(value) })
    }
}

/// The last eight bits as a number, or all where there are fewer, the most significant first.
fn number(bits: &[bool]) -> u8 {
    bits.iter().rev().take(BYTE_BITS).zip(0..).map(|(&bit, place)| u8::from(bit) << place).sum()
}

fn bits_of(value: u8) -> Vec<bool> {
    (0..BYTE_BITS).rev().map(|place| value >> place & 1 == 1).collect()
}
