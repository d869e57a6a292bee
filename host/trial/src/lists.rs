//! Lists of event words as a dock may meet them, and as it never should, and of names between them.

mod commands;
mod inputs;
mod kinds;
mod map;
mod registers;
mod waits;

pub use map::ADDRESSES;

use crate::{Call, Random};
use model::{unpack, Controller, Event, Kind, MOST_WORDS};
use paper::words::TIMEOUT;

/// For how many ticks a level must last to be accepted.
const BUTTON_TICKS: usize = 5;
const PRESENCE_TICKS: usize = 10;

/// Around these, the lengths of pulses and those of the lamps' phases.
const SHORT_RUNS: [usize; 10] = [1, 2, 4, 5, 6, 8, 9, 10, 11, 12];
const LONG_RUNS: [usize; 9] = [13, 49, 50, 51, 99, 100, 101, 199, 200];

/// The bit of each input of bay 0 in the levels; bay 1's are four places lower.
const BUTTON: u8 = 0x20;
const BOTH: u8 = 0xC0;
const PRESENCE: [u8; 3] = [0x80, 0x40, BOTH];

/// How long lists are, mostly short, so that many beginnings are seen.
pub fn length(random: &mut Random) -> usize {
    match random.below(100) {
        0 => random.between(3_001, MOST_WORDS),
        1..=8 => random.between(401, 3_000),
        9..=39 => random.between(41, 400),
        _ => random.between(0, 40),
    }
}

/// A list of exactly this many words, for a fresh controller of the first kind. A command may be cut at the end.
pub fn list(random: &mut Random, length: usize) -> Vec<u16> {
    let mut writer = Writer::new(random, Controller::new(), false);
    writer.begin();
    Call::words(&writer.scenes(length))
}

/// A list of exactly this many calls, for a fresh controller, with both kinds named and in force by turns.
pub fn mixed(random: &mut Random, length: usize) -> Vec<Call> {
    let mut writer = Writer::new(random, Controller::new(), true);
    writer.begin();
    writer.scenes(length)
}

/// A list of exactly this many calls, for the controller that the model has come to.
pub fn onward(random: &mut Random, dock: &Controller, length: usize) -> Vec<Call> {
    Writer::new(random, dock.clone(), true).scenes(length)
}

struct Writer<'a> {
    random: &'a mut Random,
    calls: Vec<Call>,
    /// The controller after them, so that what comes later is meant for the dock as it then is.
    dock: Controller,
    /// The inputs as they are, also those of a closed bay.
    levels: u8,
    /// Whether there are names in the list.
    mixes: bool,
}

impl Writer<'_> {
    fn new(random: &mut Random, dock: Controller, mixes: bool) -> Writer<'_> {
        let levels = dock.levels();
        Writer { random, calls: Vec::new(), dock, levels, mixes }
    }

    fn put(&mut self, word: u16) {
        if let Some(Event::Pins(levels) | Event::Reset { levels, .. }) = unpack(word) {
            self.levels = levels;
        }
        self.dock.step(word);
        self.calls.push(Call::Word(word));
    }

    fn kind(&self) -> Kind {
        self.dock.kind()
    }

    /// The address byte for writing.
    fn own(&self) -> u8 {
        self.dock.write_address()
    }

    fn scenes(mut self, length: usize) -> Vec<Call> {
        while self.calls.len() < length {
            self.scene();
        }
        self.calls.truncate(length);
        self.calls
    }

    /// Mostly a RESET at once; sometimes words that come before any.
    fn begin(&mut self) {
        if self.random.one_in(8) {
            for _ in 0..self.random.between(1, 12) {
                self.scene_before_reset();
            }
        }
        self.reset();
    }

    fn scene_before_reset(&mut self) {
        match self.random.below(4) {
            0 => self.noise(),
            1 => self.read(),
            2 => self.write(),
            _ => self.pins_or_tick(),
        }
    }

    fn scene(&mut self) {
        match self.random.below(110) {
            0..=29 => self.write(),
            30..=49 => self.read(),
            50..=57 => self.broken_command(),
            58 | 59 => self.babble(),
            60..=64 => self.flip_pins(),
            65..=74 => self.move_device(),
            75..=80 => self.press_button(),
            81..=84 => self.press_about_a_move(),
            85..=88 => self.ticks(&SHORT_RUNS),
            89 => self.ticks(&LONG_RUNS),
            90..=92 => self.noise(),
            93 => self.put(TIMEOUT),
            94 | 95 => self.unlock(),
            96 | 97 => self.capabilities(),
            98 | 99 => self.reset(),
            100..=105 => self.seat_slowly(),
            _ if self.mixes => self.scene_of_kinds(),
            _ => self.write(),
        }
    }

    /// A word with a bit that must be 0: a good one with one more bit.
    fn refused(&mut self) {
        let good = self.bus_word();
        let stray = 1 << self.random.between(9, 12);
        self.put(good | stray);
    }

    fn noise(&mut self) {
        for _ in 0..self.random.between(1, 6) {
            let word = match self.random.below(3) {
                0 => self.random.word(),
                1 => self.bus_word(),
                _ => self.bus_word() | 1 << self.random.below(13),
            };
            self.put(word);
        }
    }
}
