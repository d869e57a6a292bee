//! Which damaged queues are tried, and what is tried with each.

use crate::counts::Table;
use crate::strings::noise;
use crate::trials::tell;
use model::{is_queue_image, QUEUE_BYTES};
use trial::{hex, HeldQueue, Mismatch, Random};

/// A reached queue comes after so many puts and takes at most.
const MOST_BEFORE: usize = 1_000;

/// How many puts and takes an accepted queue is given.
const CALLS_AFTER: usize = 12;

/// So many reached queues have every value tried in each byte before the words, and every length.
const THOROUGH: usize = 8;

const START: usize = 1;
const COUNT: usize = 3;
const WORDS: usize = 5;

/// Where a start or a count is fit, or just no more.
const EDGES: [u16; 12] = [0, 1, 126, 127, 128, 129, 255, 256, 383, 0x7F00, 0x8000, 0xFFFF];

pub struct Queues {
    random: Random,
    table: Table,
}

impl Queues {
    pub fn new(seed: u64) -> Queues {
        Queues { random: Random::new(seed, 1), table: Table::default() }
    }

    pub fn everything(&mut self, queues: usize, strings: usize) -> Result<(), String> {
        let reached = self.reached(queues).map_err(|mismatch| tell("on the way", &mismatch))?;
        let thorough = &reached[..THOROUGH.min(reached.len())];
        Table::head("damaged queues", "calls after");
        self.part("single bits flipped", |trials| reached.iter().try_for_each(|image| trials.flips(image)))?;
        self.part("every value before the words", |trials| thorough.iter().try_for_each(|image| trials.values(image)))?;
        self.part("starts and counts at edges", |trials| reached.iter().try_for_each(|image| trials.edges(image)))?;
        self.part("random strings", |trials| trials.noise(strings))?;
        self.part("strings made of fields", |trials| trials.made(strings))?;
        self.part("every length", |trials| thorough.iter().try_for_each(|image| trials.lengths(image)))?;
        self.table.end();
        println!("images of {} reached queues, damaged: 0 mismatches", reached.len());
        Ok(())
    }

    fn part(&mut self, name: &str, run: impl Fn(&mut Queues) -> Result<(), String>) -> Result<(), String> {
        run(self).map_err(|told| format!("{}: {}", name, told))?;
        self.table.row(name);
        Ok(())
    }

    /// Images of queues as the library holds them, some with few words waiting and some with many.
    fn reached(&mut self, queues: usize) -> Result<Vec<Vec<u8>>, Mismatch> {
        (0..queues).map(|_| self.one_reached()).collect()
    }

    fn one_reached(&mut self) -> Result<Vec<u8>, Mismatch> {
        let mut held = HeldQueue::begun()?;
        let chances = self.random.between(1, 9);
        for _ in 0..self.random.between(0, MOST_BEFORE) {
            self.put_or_take(&mut held, chances)?;
        }
        Ok(held.bytes().to_vec())
    }

    /// A put in so many of ten.
    fn put_or_take(&mut self, held: &mut HeldQueue, chances: usize) -> Result<(), Mismatch> {
        let call = if self.random.below(10) < chances { held.put(self.random.word()) } else { held.take() };
        call.map(|_| ())
    }

    fn flips(&mut self, image: &[u8]) -> Result<(), String> {
        for bit in 0..8 * image.len() {
            let mut bytes = image.to_vec();
            bytes[bit / 8] ^= 1 << (bit % 8);
            self.judge(&bytes)?;
        }
        Ok(())
    }

    fn values(&mut self, image: &[u8]) -> Result<(), String> {
        for (place, value) in (0..WORDS).flat_map(|place| (0..=u8::MAX).map(move |value| (place, value))) {
            let mut bytes = image.to_vec();
            bytes[place] = value;
            self.judge(&bytes)?;
        }
        Ok(())
    }

    fn edges(&mut self, image: &[u8]) -> Result<(), String> {
        for (start, count) in EDGES.into_iter().flat_map(|start| EDGES.map(|count| (start, count))) {
            let mut bytes = image.to_vec();
            put_numbers(&mut bytes, start, count);
            self.judge(&bytes)?;
        }
        Ok(())
    }

    fn noise(&mut self, strings: usize) -> Result<(), String> {
        (0..strings).try_for_each(|_| {
            let bytes = noise(&mut self.random, QUEUE_BYTES);
            self.judge(&bytes)
        })
    }

    /// More than half are fit; the others have a number out of range, or another first byte.
    fn made(&mut self, strings: usize) -> Result<(), String> {
        (0..strings).try_for_each(|_| {
            let random = &mut self.random;
            let mut bytes = noise(random, QUEUE_BYTES);
            bytes[0] = 1;
            let [mut start, mut count] = [random.below(128) as u16, random.between(0, 128) as u16];
            match random.below(8) {
                0 => bytes[0] = random.byte(),
                1 => start = random.pick(&EDGES),
                2 => count = random.pick(&EDGES),
                3 => [start, count] = [random.word(), random.word()],
                _ => {}
            }
            put_numbers(&mut bytes, start, count);
            self.judge(&bytes)
        })
    }

    /// The image cut, or followed by zeros, by itself or by anything, and random bytes throughout.
    fn lengths(&mut self, image: &[u8]) -> Result<(), String> {
        for length in 0..=2 * QUEUE_BYTES {
            let tails = [vec![0; QUEUE_BYTES], image.to_vec(), noise(&mut self.random, QUEUE_BYTES)];
            for tail in tails {
                self.judge(&[image, &tail].concat()[..length])?;
            }
            let bytes = noise(&mut self.random, length);
            self.judge(&bytes)?;
        }
        Ok(())
    }

    /// The model says what the bytes are; every call must treat them so.
    fn judge(&mut self, bytes: &[u8]) -> Result<(), String> {
        let mut held = HeldQueue::of_bytes(bytes);
        let is_fit = held.model().is_some();
        self.table.part.tried += 1;
        self.table.part.accepted += usize::from(is_fit);
        self.table.part.unfit += usize::from(is_queue_image(bytes) && !is_fit);
        self.table.part.no_image += usize::from(!is_queue_image(bytes));
        let outcome = if is_fit { self.goes_on(&mut held) } else { self.is_refused(&mut held) };
        outcome.map_err(|mismatch| tell(&format!("queue {}", hex(bytes)), &mismatch))
    }

    /// By every call but the last, which begins a fresh queue where the length is right.
    fn is_refused(&mut self, held: &mut HeldQueue) -> Result<(), Mismatch> {
        held.put(self.random.word())?;
        held.take()?;
        held.begin().map(|_| ())
    }

    fn goes_on(&mut self, held: &mut HeldQueue) -> Result<(), Mismatch> {
        let chances = self.random.between(0, 10);
        self.table.part.after += CALLS_AFTER;
        (0..CALLS_AFTER).try_for_each(|_| self.put_or_take(held, chances))
    }
}

/// Start and count, two bytes each, the high one first.
fn put_numbers(bytes: &mut [u8], start: u16, count: u16) {
    bytes[START..COUNT].copy_from_slice(&start.to_be_bytes());
    bytes[COUNT..WORDS].copy_from_slice(&count.to_be_bytes());
}
