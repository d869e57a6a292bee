//! Lists of events as they come to a chassis, each meant for its controllers as they then are, and names between them.

use model::{Chassis, Controller, Refusal, CHASSIS_RECORDS};
use paper::words::{byte, pins, read_all, reset, reset_short, take, START, STOP, TICK, TIMEOUT};
use std::fmt;
use trial::{lists, Random};

#[derive(Clone, Copy, PartialEq, Eq)]
pub enum Call {
    Step {
        record: u64,
        word: u16,
    },
    /// The kind of one record, by a call on its image alone.
    Name {
        place: usize,
        number: u8,
    },
    /// The list is kept as bytes, and goes on elsewhere from a copy of them.
    Keep,
}

impl fmt::Display for Call {
    fn fmt(&self, f: &mut fmt::Formatter) -> fmt::Result {
        match self {
            Call::Step { record, word } => write!(f, "{}:{:04X}", record, word),
            Call::Name { place, number } => write!(f, "{}:kind={}", place, number),
            Call::Keep => write!(f, "keep"),
        }
    }
}

/// Numbers of no record, of which some have the low byte or the low half of one.
const ABSENT: [u64; 9] = [4, 5, 255, 256, 257, 1 << 32, (1 << 32) + 1, 1 << 63, u64::MAX];

/// At most so many events of one controller's life are given at a time.
const LONGEST_LIFE: usize = 40;

/// A list for these controllers.
pub fn list(random: &mut Random, chassis: Chassis) -> Vec<Call> {
    let mut writer = Writer { random, calls: Vec::new(), chassis };
    if writer.none_started() && !writer.random.one_in(4) {
        writer.start_all();
    }
    for _ in 0..writer.random.between(1, 6) {
        writer.scene();
    }
    writer.calls
}

/// Calls that a list which is refused for itself is given: all that could be against them as well.
pub fn against(random: &mut Random, chassis: Chassis) -> Vec<Call> {
    let mut writer = Writer { random, calls: Vec::new(), chassis };
    for _ in 0..8 {
        writer.refused();
    }
    writer.calls
}

/// A number of a record, which is often that of none.
pub fn any_record(random: &mut Random) -> u64 {
    if random.one_in(3) {
        random.pick(&ABSENT)
    } else {
        random.below(CHASSIS_RECORDS) as u64
    }
}

struct Writer<'a> {
    random: &'a mut Random,
    calls: Vec<Call>,
    /// The controllers after them.
    chassis: Chassis,
}

impl Writer<'_> {
    fn count(&self) -> usize {
        self.chassis.records().len()
    }

    fn none_started(&self) -> bool {
        self.chassis.clone().step(0, TICK).refusal == Some(Refusal::NotStarted)
    }

    fn put(&mut self, record: u64, word: u16) {
        self.chassis.step(record, word);
        self.calls.push(Call::Step { record, word });
    }

    /// For all, beside a number that is not looked at.
    fn put_to_all(&mut self, word: u16) {
        let record = any_record(self.random);
        self.put(record, word);
    }

    fn name(&mut self, place: usize, number: u8) {
        if let Some(Some(dock)) = self.chassis.records_mut().get_mut(place) {
            // A number that no kind has is refused, and changes nothing.
            let _ = dock.name_kind(number);
        }
        self.calls.push(Call::Name { place, number });
    }

    /// A place that may be none of the list's, where that is empty.
    fn some_place(&mut self) -> usize {
        let count = self.count().max(1);
        self.random.below(count)
    }

    fn dock(&self, place: usize) -> Option<Controller> {
        self.chassis.records().get(place).cloned().flatten()
    }

    /// The address straps of the record at the place, and lock straps by lot.
    fn straps_of(&mut self, place: usize) -> u8 {
        let address = self.dock(place).map_or(0, |dock| (dock.write_address() - 0x90) << 1);
        address | self.random.byte() & 3
    }

    fn reset_to(&mut self, record: u64, straps: u8) {
        let any = self.random.byte();
        let levels = self.random.pick(&[0xFF, 0xBF, 0xFB, 0xBB, any]);
        let word = if self.random.one_in(2) { reset(straps, levels) } else { reset_short(straps, levels) };
        self.put(record, word);
    }

    fn reset(&mut self) {
        let place = self.some_place();
        let straps = self.random.byte() & 0x0F;
        self.reset_to(place as u64, straps);
    }

    /// The record to its own address again, to a neighbour's, or to where none in the list is.
    fn reset_to_known(&mut self) {
        let (place, other) = (self.some_place(), self.some_place());
        let straps = self.straps_of(other);
        let absent = self.random.pick(&ABSENT);
        let record = self.random.pick(&[place as u64, other as u64, absent]);
        self.reset_to(record, straps);
    }

    /// Each at an address of its own, in some order, of either kind.
    fn start_all(&mut self) {
        let first = self.random.byte();
        for place in 0..self.count() {
            let number = self.random.pick(&[1, 2]);
            self.name(place, number);
            let straps = (first.wrapping_add(place as u8) & 3) << 2 | self.random.byte() & 3;
            self.reset_to(place as u64, straps);
        }
    }

    /// Devices in the bays, with the host told and the locks closed, so that there is something to drive.
    fn enable(&mut self) {
        let place = self.some_place();
        self.put(place as u64, pins(0xBB));
        (0..10).for_each(|_| self.put_to_all(TICK));
        let own = self.dock(place).map_or(0x90, |dock| dock.write_address());
        for address in [0x10, 0x14, 0x18, 0x1C] {
            let value = self.random.pick(&[0xA5, 0x84, 0x24, 0xAD]);
            [START, byte(own), byte(address), byte(value), STOP].into_iter().for_each(|word| self.put_to_all(word));
        }
    }

    /// Words of one controller's life, which all hear as far as they can.
    fn live(&mut self) {
        let place = self.some_place();
        let dock = self.dock(place).unwrap_or_default();
        let length = self.random.between(1, LONGEST_LIFE);
        for call in lists::onward(self.random, &dock, length) {
            match call {
                trial::Call::Word(word) => self.put(place as u64, word),
                trial::Call::Name(number) => self.name(place, number),
            }
        }
    }

    /// A read of one, of several bytes where it is of the second kind, and sometimes broken off before a TAKE.
    fn read(&mut self) {
        let place = self.some_place();
        let own = self.dock(place).map_or(0x90, |dock| dock.write_address());
        let address = self.random.pick(&[0x00, 0x04, 0x0C, 0x10, 0x14, 0x18, 0xFE]);
        let count = self.random.between(1, 4);
        let mut words = read_all(own, address, count);
        if self.random.one_in(3) {
            words.truncate(self.random.between(4, words.len()));
        }
        for word in words {
            self.put_to_all(word);
            if self.random.one_in(8) {
                self.pins_or_tick();
            }
        }
    }

    fn pins_or_tick(&mut self) {
        let place = self.some_place();
        let levels = self.random.byte();
        let word = self.random.pick(&[TICK, TICK, pins(levels)]);
        self.put(place as u64, word);
    }

    /// Bus words in any order, to all, at any number.
    fn babble(&mut self) {
        for _ in 0..self.random.between(1, 12) {
            let word = self.bus_word();
            self.put_to_all(word);
        }
    }

    fn bus_word(&mut self) -> u16 {
        let any = self.random.byte();
        let near = 0x90 + self.random.byte() % 8;
        self.random.pick(&[START, START, STOP, byte(near), byte(near), byte(any), take(any & 1 == 1), TICK, TIMEOUT])
    }

    /// Something that is often against a call: a stray bit, a number of none, a record that is not started, an address
    /// that is taken, and any of them together.
    fn refused(&mut self) {
        let record = any_record(self.random);
        let other = self.some_place();
        let straps = self.straps_of(other);
        let levels = self.random.byte();
        let bus_word = self.bus_word();
        let word = self.random.pick(&[bus_word, pins(levels), pins(levels), reset(straps, levels)]);
        let stray = if self.random.one_in(3) { 1 << self.random.between(8, 12) } else { 0 };
        self.put(record, word | stray);
    }

    fn scene(&mut self) {
        match self.random.below(20) {
            0..=5 => self.live(),
            6 | 7 => self.read(),
            8 => self.start_all(),
            9 | 10 => self.enable(),
            11 => self.reset(),
            12 | 13 => self.reset_to_known(),
            14 => self.babble(),
            15 | 16 => (0..4).for_each(|_| self.refused()),
            17 => {
                let place = self.some_place();
                let number = self.random.pick(&[1, 2, 1, 2, 0, 3, 255]);
                self.name(place, number);
            }
            18 => (0..self.random.between(1, 60)).for_each(|_| self.put_to_all(TICK)),
            _ => self.calls.push(Call::Keep),
        }
    }
}
