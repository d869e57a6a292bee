//! Lists of samples: spelled as a bus has them, with all that goes wrong on one, and drawn by lot.

use dock::{MOST_SAMPLES, SCLK, SDAT};
use trial::Random;

/// SCLK may be low for so many samples in a row.
const LONGEST_LOW: usize = 17_500;

/// How long a level lasts at most, from a bus as fast as the samples to a slow one.
const PACES: [usize; 6] = [1, 2, 3, 5, 12, 40];

/// Drawn lists: a line moves in one of so many samples.
const CHANCES: [usize; 6] = [2, 3, 5, 10, 40, 400];

/// Addresses of the dock, of others, and of nobody.
const ADDRESSES: [u8; 6] = [0x90, 0x91, 0x92, 0x93, 0x00, 0xFF];

pub fn list(random: &mut Random) -> Vec<u8> {
    match random.below(10) {
        0..=6 => spelled(random),
        7 | 8 => drawn(random),
        _ => noise(random),
    }
}

/// Every bit of every sample by lot.
fn noise(random: &mut Random) -> Vec<u8> {
    (0..random.between(0, 400)).map(|_| random.byte()).collect()
}

/// Each line moves now and then, by a chance of its own.
fn drawn(random: &mut Random) -> Vec<u8> {
    let length = if random.one_in(40) { random.between(0, 2 * MOST_SAMPLES) } else { random.between(0, 1_500) };
    let [clock, data] = [random.pick(&CHANCES), random.pick(&CHANCES)];
    let mut sample = random.byte();
    let mut next = || {
        let moved = |random: &mut Random, chances, line| if random.one_in(chances) { line } else { 0 };
        sample ^= moved(random, clock, SCLK) | moved(random, data, SDAT);
        sample
    };
    (0..length).map(|_| next()).collect()
}

fn spelled(random: &mut Random) -> Vec<u8> {
    let pace = random.pick(&PACES);
    let noisy = random.one_in(2);
    let mut speller = Speller { random, samples: Vec::new(), pace, noisy };
    for _ in 0..speller.random.between(1, 4) {
        speller.scene();
    }
    speller.samples
}

struct Speller<'a> {
    random: &'a mut Random,
    samples: Vec<u8>,
    pace: usize,
    /// Whether the six bits that mean nothing are by lot.
    noisy: bool,
}

fn line(level: bool, line: u8) -> u8 {
    if level {
        line
    } else {
        0
    }
}

impl Speller<'_> {
    fn hold(&mut self, clock: bool, data: bool, count: usize) {
        for _ in 0..count {
            let rest = if self.noisy { self.random.byte() & !(SCLK | SDAT) } else { 0 };
            self.samples.push(rest | line(clock, SCLK) | line(data, SDAT));
        }
    }

    fn high(&mut self, data: bool) {
        let count = self.random.between(1, self.pace);
        self.hold(true, data, count);
    }

    fn low(&mut self, data: bool) {
        let count = self.random.between(1, self.pace);
        self.hold(false, data, count);
    }

    fn flip(&mut self) -> bool {
        self.random.one_in(2)
    }

    /// SDAT settles before the rise of SCLK or moves with it, and likewise with the fall.
    fn bit(&mut self, bit: bool) {
        if self.random.one_in(4) {
            self.low(!bit);
        }
        if !self.random.one_in(8) || self.samples.last().map_or(true, |sample| sample & SCLK != 0) {
            self.low(bit);
        }
        self.high(bit);
        if self.random.one_in(4) {
            let next = self.flip();
            self.low(next);
        }
    }

    fn bits(&mut self, count: usize) {
        for _ in 0..count {
            let bit = self.flip();
            self.bit(bit);
        }
    }

    fn byte(&mut self, value: u8) {
        (0..8).rev().for_each(|place| self.bit(value >> place & 1 == 1));
    }

    /// With its ninth bit.
    fn some_byte(&mut self) {
        let value = self.random.byte();
        self.byte(value);
        let ninth = self.flip();
        self.bit(ninth);
    }

    /// From whatever levels; the rise before it is a bit where SCLK was low.
    fn start(&mut self) {
        if self.samples.last().map_or(false, |&sample| sample & (SCLK | SDAT) != SCLK | SDAT) {
            self.low(true);
        }
        self.high(true);
        self.high(false);
    }

    fn stop(&mut self) {
        self.low(false);
        self.high(false);
        self.high(true);
    }

    /// About as long as it may be, well below, or far beyond.
    fn stretch(&mut self) {
        let data = self.flip();
        let count = match self.random.below(4) {
            0 => self.random.between(1, LONGEST_LOW),
            1 => self.random.between(LONGEST_LOW + 1, 2 * LONGEST_LOW + 100),
            _ => self.random.between(LONGEST_LOW - 4, LONGEST_LOW + 4),
        };
        self.hold(false, data, count);
    }

    fn first_byte(&mut self) {
        let address = if self.flip() { self.random.pick(&ADDRESSES) } else { self.random.byte() };
        self.byte(address);
        let ninth = self.flip();
        self.bit(ninth);
    }

    fn transfer(&mut self) {
        self.start();
        self.first_byte();
        for _ in 0..self.random.between(0, 3) {
            self.some_byte();
        }
        if self.random.one_in(3) {
            self.start();
            self.first_byte();
            for _ in 0..self.random.between(0, 3) {
                self.some_byte();
            }
        }
        // Half a byte, or all of it without its ninth bit.
        if self.random.one_in(3) {
            let count = self.random.between(1, 8);
            self.bits(count);
        }
    }

    fn end(&mut self) {
        match self.random.below(40) {
            0 => self.stretch(),
            1..=4 => self.start(),
            5 | 6 => (),
            _ => self.stop(),
        }
    }

    fn scene(&mut self) {
        match self.random.below(12) {
            0 => self.bits(12),
            1 => (0..self.random.between(1, 6)).for_each(|_| self.start()),
            2 => (0..self.random.between(1, 6)).for_each(|_| self.stop()),
            3 => {
                self.start();
                let count = self.random.between(0, 8);
                self.bits(count);
                self.end();
            }
            _ => {
                self.transfer();
                self.end();
            }
        }
    }
}
