//! Lists of puts and takes as they come to a queue, each meant for as many words as then wait.

use dock::QUEUE_WORDS;
use std::fmt;
use trial::Random;

#[derive(Clone, Copy, PartialEq, Eq)]
pub enum Call {
    Put(u16),
    Take,
    /// The queue is kept as bytes, and goes on elsewhere from a copy of them.
    Keep,
    Begin,
}

impl fmt::Display for Call {
    fn fmt(&self, f: &mut fmt::Formatter) -> fmt::Result {
        match self {
            Call::Put(word) => write!(f, "put={:04X}", word),
            Call::Take => write!(f, "take"),
            Call::Keep => write!(f, "keep"),
            Call::Begin => write!(f, "begin"),
        }
    }
}

/// Words that a wrong order of bytes, a sign or a refusal would show in, beside those drawn by lot.
const WORDS: [u16; 8] = [0x0000, 0x0001, 0x0080, 0x00FF, 0x0100, 0x8000, 0xA000, 0xFFFF];

/// Up to so many more calls than there is room or are words for.
const BEYOND: usize = 4;

/// A list for a queue in which so many words wait.
pub fn list(random: &mut Random, waiting: usize) -> Vec<Call> {
    let mut writer = Writer { random, calls: Vec::new(), waiting };
    for _ in 0..writer.random.between(1, 4) {
        writer.scene();
    }
    writer.calls
}

/// Puts and takes in turn, so often that the ring is gone round so many times, with so many words waiting throughout.
pub fn alternation(random: &mut Random, waiting: usize, rounds: usize) -> Vec<Call> {
    let mut writer = Writer { random, calls: Vec::new(), waiting: 0 };
    writer.puts(waiting);
    for _ in 0..rounds * QUEUE_WORDS {
        writer.put();
        writer.take();
    }
    writer.calls
}

struct Writer<'a> {
    random: &'a mut Random,
    calls: Vec<Call>,
    /// How many words wait after them.
    waiting: usize,
}

impl Writer<'_> {
    fn put(&mut self) {
        let word = if self.random.one_in(4) { self.random.pick(&WORDS) } else { self.random.word() };
        self.calls.push(Call::Put(word));
        self.waiting = (self.waiting + 1).min(QUEUE_WORDS);
    }

    fn take(&mut self) {
        self.calls.push(Call::Take);
        self.waiting = self.waiting.saturating_sub(1);
    }

    fn puts(&mut self, count: usize) {
        (0..count).for_each(|_| self.put());
    }

    fn takes(&mut self, count: usize) {
        (0..count).for_each(|_| self.take());
    }

    fn put_or_take(&mut self) {
        if self.random.one_in(2) {
            self.put();
        } else {
            self.take();
        }
    }

    fn fill(&mut self) {
        let beyond = self.random.between(0, BEYOND);
        self.puts(QUEUE_WORDS - self.waiting + beyond);
    }

    fn drain(&mut self) {
        let beyond = self.random.between(0, BEYOND);
        self.takes(self.waiting + beyond);
    }

    /// Words come faster than they go, or slower.
    fn drift(&mut self) {
        let chances = self.random.between(1, 5);
        let fills = self.random.one_in(2);
        for _ in 0..self.random.between(1, 600) {
            if self.random.below(chances + 1) == 0 {
                self.put_or_take();
            } else if fills {
                self.put();
            } else {
                self.take();
            }
        }
    }

    fn hover(&mut self) {
        for _ in 0..self.random.between(1, 100) {
            self.put_or_take();
        }
    }

    fn in_turn(&mut self) {
        let together = self.random.pick(&[1, 1, 2, 3, 7, 64, 127, 128, 129]);
        for _ in 0..self.random.between(1, 1_000) / together + 1 {
            self.puts(together);
            self.takes(together);
        }
    }

    fn bursts(&mut self) {
        for _ in 0..self.random.between(1, 12) {
            let [in_one, in_other] = [self.random.between(0, 60), self.random.between(0, 60)];
            self.puts(in_one);
            self.takes(in_other);
        }
    }

    fn scene(&mut self) {
        match self.random.below(20) {
            0 | 1 => self.fill(),
            2 | 3 => self.drain(),
            4..=6 => {
                self.fill();
                self.hover();
            }
            7..=9 => {
                self.drain();
                self.hover();
            }
            10 | 11 => self.drift(),
            12..=14 => self.in_turn(),
            15 | 16 => self.bursts(),
            17 => {
                self.calls.push(Call::Begin);
                self.waiting = 0;
                self.bursts();
            }
            _ => self.calls.push(Call::Keep),
        }
    }
}
