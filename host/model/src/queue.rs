//! The words that wait, request 8 (document 02): a put at the end, a take from the front, 128 at most.
//!
//! What waits is a list, so that it comes out in the order in which it went in. The ring is what the image makes of it:
//! the waiting words stand from the start on, and every other place holds what was there last.

use crate::Refusal;
use std::collections::VecDeque;

/// The most words that wait, and the places of the ring.
pub const QUEUE_WORDS: usize = 128;

/// The length of a queue's image: its version, start and count, and two bytes for each place.
pub const QUEUE_BYTES: usize = 5 + 2 * QUEUE_WORDS;

const VERSION: u8 = 1;

#[derive(Clone, Debug)]
pub struct Queue {
    waiting: VecDeque<u16>,
    /// The place of the first word that waits; where none does, of the next one that will.
    start: usize,
    /// What the places hold that no waiting word stands in. What is kept here of the others is never looked at.
    left: [u16; QUEUE_WORDS],
}

impl Default for Queue {
    fn default() -> Self {
        Queue::new()
    }
}

impl Queue {
    pub fn new() -> Queue {
        Queue { waiting: VecDeque::new(), start: 0, left: [0; QUEUE_WORDS] }
    }

    /// Any word is taken, also one that the core will refuse.
    pub fn put(&mut self, word: u16) -> Result<(), Refusal> {
        if self.waiting.len() == QUEUE_WORDS {
            return Err(Refusal::QueueFull);
        }
        self.waiting.push_back(word);
        Ok(())
    }

    /// The word stays in the place that it leaves.
    pub fn take(&mut self) -> Result<u16, Refusal> {
        let word = self.waiting.pop_front().ok_or(Refusal::QueueEmpty)?;
        self.left[self.start] = word;
        self.start = (self.start + 1) % QUEUE_WORDS;
        Ok(word)
    }

    /// How many words wait.
    pub fn count(&self) -> usize {
        self.waiting.len()
    }

    /// The places from the start on, once round.
    fn places(start: usize) -> impl Iterator<Item = usize> {
        (start..QUEUE_WORDS).chain(0..start)
    }

    pub fn image(&self) -> [u8; QUEUE_BYTES] {
        let mut ring = self.left;
        Queue::places(self.start).zip(&self.waiting).for_each(|(place, &word)| ring[place] = word);
        let mut image = [VERSION; QUEUE_BYTES];
        let words = [self.start as u16, self.count() as u16].into_iter().chain(ring);
        image[1..].chunks_exact_mut(2).zip(words).for_each(|(two, word)| two.copy_from_slice(&word.to_be_bytes()));
        image
    }

    /// The queue that has this image; none where the bytes are no image, or that of a queue that is not fit.
    pub fn from_image(bytes: &[u8]) -> Option<Queue> {
        if !is_queue_image(bytes) {
            return None;
        }
        let mut words = bytes[1..].chunks_exact(2).map(|two| u16::from_be_bytes([two[0], two[1]]));
        let [start, count] = [words.next()?.into(), words.next()?.into()];
        if start >= QUEUE_WORDS || count > QUEUE_WORDS {
            return None;
        }
        let mut left = [0; QUEUE_WORDS];
        left.iter_mut().zip(words).for_each(|(place, word)| *place = word);
        let waiting = Queue::places(start).take(count).map(|place| left[place]).collect();
        Some(Queue { waiting, start, left })
    }
}

/// Whether these bytes are the image of a queue, fit or not.
pub fn is_queue_image(bytes: &[u8]) -> bool {
    bytes.len() == QUEUE_BYTES && bytes[0] == VERSION
}
