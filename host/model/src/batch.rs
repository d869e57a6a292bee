//! Many event words in one call.

use crate::{Controller, Refusal, RECORD_BYTES};

/// The most words that one batch may have.
pub const MOST_WORDS: usize = 16_384;

impl Controller {
    /// A fresh one, after the words.
    pub fn after(words: &[u16]) -> Controller {
        let mut dock = Controller::new();
        for &word in words {
            dock.step(word);
        }
        dock
    }

    /// The words one after the other, a record for each at its own place. Counts the records.
    /// A refused batch changes and writes nothing.
    pub fn batch(&mut self, words: &[u16], records: &mut [u8]) -> Result<usize, Refusal> {
        if words.len() > MOST_WORDS {
            return Err(Refusal::TooManyWords);
        }
        if records.len() < RECORD_BYTES * words.len() {
            return Err(Refusal::ShortAnswers);
        }
        for (&word, record) in words.iter().zip(records.chunks_exact_mut(RECORD_BYTES)) {
            record.copy_from_slice(&self.step(word).record());
        }
        Ok(words.len())
    }
}
