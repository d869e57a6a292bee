//! Commands of the host, whole and broken, as the kind in force has them.

use super::{Writer, SHORT_RUNS};
use model::Kind;
use paper::words::{byte, read_all, take, write_all, START, STOP, TICK, TIMEOUT};

/// START, own write byte and register byte.
const BEFORE_DATA: usize = 3;

/// From here on a transfer of a few bytes goes over FFh.
const NEAR_THE_END: u8 = 0xF8;

impl Writer<'_> {
    /// A word of a command, and sometimes something between it and the next: what a command passes over, a name, or a
    /// refused word, which must not end it either.
    pub(super) fn bus(&mut self, word: u16) {
        self.put(word);
        match self.random.below(24) {
            0 | 1 => self.flip_pins(),
            2 | 3 => self.put(TICK),
            4 => self.ticks(&SHORT_RUNS),
            5 => self.refused(),
            6 if self.mixes && self.random.one_in(2) => self.name(),
            _ => {}
        }
    }

    fn bus_all(&mut self, words: &[u16]) {
        words.iter().for_each(|&word| self.bus(word));
    }

    /// The first kind's commands have one byte, the second's as many as the host likes.
    fn count(&mut self, least: usize) -> usize {
        if self.kind() == Kind::First {
            return 1;
        }
        match self.random.below(16) {
            0 => least,
            1..=8 => 1,
            9..=13 => self.random.between(2, 4),
            14 => self.random.between(5, 9),
            _ => self.random.between(10, 20),
        }
    }

    /// Where a command of so many bytes begins.
    fn first_address(&mut self, count: usize) -> u8 {
        if count > 1 && self.random.one_in(4) {
            return self.random.between(NEAR_THE_END.into(), 0xFF) as u8;
        }
        self.address()
    }

    /// The words of a write.
    fn some_write(&mut self) -> Vec<u16> {
        let count = self.count(0);
        let address = self.first_address(count);
        let values: Vec<u8> = (0..count).map(|place| self.written_value(address.wrapping_add(place as u8))).collect();
        write_all(self.own(), address, &values)
    }

    /// The words of a read. Whether its one TAKE is ACKed is nothing to the first kind.
    fn some_read(&mut self) -> Vec<u16> {
        let count = self.count(1);
        let address = self.first_address(count);
        let mut words = read_all(self.own(), address, count);
        if self.kind() == Kind::First && self.random.one_in(2) {
            *words.last_mut().expect("a read has a TAKE") = take(true);
        }
        words
    }

    pub(super) fn write(&mut self) {
        let words = self.some_write();
        self.bus_all(&words);
    }

    pub(super) fn write_value(&mut self, address: u8, value: u8) {
        let words = write_all(self.own(), address, &[value]);
        self.bus_all(&words);
    }

    /// With nothing between its words.
    pub(super) fn quietly(&mut self, address: u8, value: u8) {
        let words = write_all(self.own(), address, &[value]);
        words.into_iter().for_each(|word| self.put(word));
    }

    pub(super) fn read(&mut self) {
        let words = self.some_read();
        self.bus_all(&words);
        if self.random.one_in(2) {
            self.bus(STOP);
        }
    }

    pub(super) fn read_address(&mut self, address: u8) {
        let words = read_all(self.own(), address, 1);
        self.bus_all(&words);
    }

    /// A write or a read cut short, or ended from outside, or with one word dropped, doubled, replaced or put in, and
    /// then mostly a read, which shows whether the command that should have ended did.
    pub(super) fn broken_command(&mut self) {
        let mut words = if self.random.one_in(2) { self.some_write() } else { self.some_read() };
        let address = words[2] as u8;
        let place = self.random.below(words.len());
        let after_a_byte = self.random.between(BEFORE_DATA, words.len());
        match self.random.below(8) {
            0 => drop(words.remove(place)),
            1 => words.insert(place, words[place]),
            2 => words[place] = self.bus_word(),
            3 => words.truncate(place),
            4 => words.insert(place, self.ending()),
            5 => words.insert(place, self.bus_word()),
            _ => words.insert(after_a_byte, self.ending()),
        }
        self.bus_all(&words);
        if !self.random.one_in(4) {
            self.read_address(address);
        }
    }

    /// What ends a command nearly anywhere: a TIMEOUT, a RESET that leaves the address as it is, a misplaced START, STOP or
    /// TAKE.
    fn ending(&mut self) -> u16 {
        let reset = self.reset_word_here();
        let ack = self.random.one_in(2);
        self.random.pick(&[TIMEOUT, TIMEOUT, reset, reset, START, STOP, take(ack)])
    }

    /// A read inside which a device comes or goes, so that what was read before its TAKE is not what the register reads
    /// then: the first byte, or one that an ACK asked for.
    pub(super) fn read_over_a_move(&mut self) {
        let status = self.random.pick(&self.map().statuses);
        let ahead = self.random.below(3);
        let words = read_all(self.own(), status.wrapping_sub(ahead as u8), ahead + 2);
        let (until, from) = words.split_at(words.len() - 2);
        self.bus_all(until);
        self.move_device();
        self.bus_all(from);
    }

    /// Any word that a command takes notice of, among them addresses of other docks.
    pub(super) fn bus_word(&mut self) -> u16 {
        let any = self.random.byte();
        let near = 0x90 + self.random.byte() % 8;
        let own = self.own();
        let taken = take(any & 1 == 1);
        self.random.pick(&[START, STOP, byte(own), byte(own | 1), byte(near), byte(0), byte(any), taken, TIMEOUT])
    }

    /// Bus words in any order.
    pub(super) fn babble(&mut self) {
        for _ in 0..self.random.between(2, 12) {
            let word = self.bus_word();
            self.bus(word);
        }
    }
}
