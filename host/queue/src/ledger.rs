//! What the request promises over any calls, kept from the library's answers alone, with neither model nor image: the
//! words taken, followed by the words waiting, are the words accepted, and a put is refused exactly when 128 wait.

use dock::{ffi, QUEUE_WORDS};
use trial::{HeldQueue, Mismatch};

const FULL: u32 = 7 << 16;
const EMPTY: u32 = 8 << 16;

#[derive(Default)]
pub struct Ledger {
    /// Those that waited at first among them.
    accepted: Vec<u16>,
    /// How many of them were taken, from the first on.
    taken: usize,
}

impl Ledger {
    /// With what waits now.
    pub fn of(held: &HeldQueue) -> Ledger {
        Ledger { accepted: drained(held).map(|word| word as u16).collect(), taken: 0 }
    }

    pub fn put(&mut self, word: u16, answer: u32) -> Result<(), Mismatch> {
        let is_full = self.accepted.len() - self.taken == QUEUE_WORDS;
        if !is_full {
            self.accepted.push(word);
        }
        promised("the answer of a put", answer, if is_full { FULL } else { 0 })
    }

    pub fn take(&mut self, answer: u32) -> Result<(), Mismatch> {
        let oldest = self.accepted.get(self.taken);
        self.taken += usize::from(oldest.is_some());
        promised("the answer of a take", answer, oldest.map_or(EMPTY, |&word| word.into()))
    }

    /// What waits now is what was accepted and not taken.
    pub fn holds(&self, held: &HeldQueue) -> Result<(), Mismatch> {
        let mut rest = Ledger { accepted: self.accepted[self.taken..].to_vec(), taken: 0 };
        drained(held).chain([EMPTY]).try_for_each(|answer| rest.take(answer))
    }
}

/// What takes from a copy answer until one is refused; more than ever wait would be told as too many.
fn drained(held: &HeldQueue) -> impl Iterator<Item = u32> {
    let mut copy = held.bytes().to_vec();
    (0..=QUEUE_WORDS).map(move |_| ffi::queue_take(&mut copy)).take_while(|answer| answer >> 16 == 0)
}

fn promised(asked: &str, answer: u32, promise: u32) -> Result<(), Mismatch> {
    if answer == promise {
        return Ok(());
    }
    let shown = |answer| format!("{:08X}h", answer);
    let asked = format!("{}, as the answers so far have it", asked);
    Err(Mismatch { asked, library: shown(answer), model: shown(promise) + ", by the request's promise" })
}
