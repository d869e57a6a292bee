//! What the request says of a call, from the library's own calls on single images alone, with no model: each record
//! that an event reaches is what a step makes of it, the others stay, and at most one drives.

use dock::{ffi, STATE_BYTES};
use trial::{hex, Mismatch};

/// A word with a bit that must be 0: it is refused with 2 by every list that is not refused for itself.
const STRAY: u16 = 0x0001;

const ACK: u64 = 1;
const NO_ACK: u64 = 2;
const DRIVEN: u64 = 3;
const NOT_DRIVEN: u64 = 4;

/// One call: the list before it, what it was asked, what it answered, and the list after it.
pub struct Told<'a> {
    pub before: &'a [u8],
    pub record: u64,
    pub word: u16,
    pub answer: u64,
    pub after: &'a [u8],
}

pub fn refusal(answer: u64) -> u64 {
    answer >> 60
}

/// PINS and RESET are for one record.
pub fn is_for_one(word: u16) -> bool {
    matches!(word >> 13, 4 | 6)
}

/// By the byte of a fit image that says whether a RESET came.
pub fn is_started(image: &[u8]) -> bool {
    image[1] == 1
}

pub fn has_open_read(image: &[u8]) -> bool {
    ffi::held_byte(image) & 0x100 != 0
}

/// The outputs that an answer has of one record.
pub fn outputs(answer: u64, place: usize) -> u64 {
    answer >> (36 - 12 * place) & 0xFFF
}

impl Told<'_> {
    /// Whether everything is as the single calls have it.
    pub fn holds(&self) -> Result<(), Mismatch> {
        match refusal(self.answer) {
            0 => self.accepted()?,
            number => {
                self.promised("the answer of a refused call", self.answer, number << 60)?;
                self.stays("a refused call's list", self.before, self.after)?;
            }
        }
        match refusal(self.answer) {
            1 | 9 => Ok(()),
            _ => self.goes_on(),
        }
    }

    pub fn reaches(&self, place: usize, image: &[u8]) -> bool {
        if is_for_one(self.word) {
            place as u64 == self.record
        } else {
            is_started(image)
        }
    }

    fn accepted(&self) -> Result<(), Mismatch> {
        let mut expected = self.before.to_vec();
        let mut reply = self.idle();
        let mut outputs = 0;
        for (place, image) in expected.chunks_exact_mut(STATE_BYTES).enumerate() {
            if self.reaches(place, image) {
                let record = u64::from(ffi::step(image, self.word));
                self.promised("a step of one record", record >> 28, 0)?;
                if matches!(record >> 25, ACK | DRIVEN) {
                    reply = record >> 17 << 49;
                }
            }
            outputs |= u64::from(ffi::outputs(image)) << (36 - 12 * place);
        }
        self.promised("the answer", self.answer, reply | outputs)?;
        self.stays("the list", &expected, self.after)
    }

    /// The reply and the byte where nobody pulls the line low.
    fn idle(&self) -> u64 {
        match self.word >> 13 {
            2 => NO_ACK << 57,
            3 => NOT_DRIVEN << 57 | 0xFF << 49,
            _ => 0,
        }
    }

    /// At most one started record had a read open, and the list is not refused with 1 at the next call.
    fn goes_on(&self) -> Result<(), Mismatch> {
        let readers = self.before.chunks_exact(STATE_BYTES).filter(|image| has_open_read(image)).count();
        self.promised("whether two have a read open", u64::from(readers > 1), 0)?;
        let next = ffi::chassis_step(&mut self.after.to_vec(), 0, STRAY);
        self.promised("what the next word is refused with", refusal(next), 2)
    }

    fn promised(&self, asked: &str, answer: u64, promise: u64) -> Result<(), Mismatch> {
        if answer == promise {
            return Ok(());
        }
        let shown = |answer| format!("{:016X}h", answer);
        Err(self.mismatch(asked, shown(answer), shown(promise)))
    }

    fn stays(&self, asked: &str, expected: &[u8], after: &[u8]) -> Result<(), Mismatch> {
        if expected == after {
            return Ok(());
        }
        Err(self.mismatch(asked, hex(after), hex(expected)))
    }

    fn mismatch(&self, asked: &str, library: String, promise: String) -> Mismatch {
        let asked = format!("{}, record {}, word {:04X}h", asked, self.record, self.word);
        Mismatch { asked, library, model: promise + ", by the library's single calls" }
    }
}
