//! Devices that come and go, and buttons.

use super::{Writer, BOTH, BUTTON, BUTTON_TICKS, PRESENCE, PRESENCE_TICKS, SHORT_RUNS};
use paper::words::{pins, TICK};

impl Writer<'_> {
    pub(super) fn store_levels(&mut self, levels: u8) {
        self.put(pins(levels));
    }

    /// One pin flips, or two, or all change at once.
    pub(super) fn flip_pins(&mut self) {
        let flipped = match self.random.below(4) {
            0 => self.random.byte(),
            1 => 1 << self.random.below(8) | 1 << self.random.below(8),
            _ => 1 << self.random.below(8),
        };
        self.store_levels(self.levels ^ flipped);
    }

    fn in_some_bay(&mut self, bits: u8) -> u8 {
        self.random.pick(&[bits, bits >> 4, bits | bits >> 4])
    }

    /// A device comes or goes and mostly settles; sometimes the button moves with it.
    pub(super) fn move_device(&mut self) {
        let presence = self.random.pick(&PRESENCE);
        let with_button = if self.random.one_in(6) { BUTTON } else { 0 };
        let flipped = self.in_some_bay(presence | with_button);
        self.store_levels(self.levels ^ flipped);
        self.settle(PRESENCE_TICKS);
    }

    /// The button goes down and up again, each time for about long enough.
    pub(super) fn press_button(&mut self) {
        let button = self.in_some_bay(BUTTON);
        self.hold_button(self.levels & !button);
        if !self.random.one_in(4) {
            self.hold_button(self.levels | button);
        }
    }

    /// The button's level changes and mostly settles; sometimes it goes back before that, for a moment.
    fn hold_button(&mut self, levels: u8) {
        let before = self.levels;
        self.store_levels(levels);
        if self.random.one_in(4) {
            self.run_about(BUTTON_TICKS - 1);
            self.store_levels(before);
            self.ticks(&[0, 1, BUTTON_TICKS - 1]);
            self.store_levels(levels);
        }
        self.settle(BUTTON_TICKS);
    }

    /// A device comes or goes, and the button goes down with it, or so much later that both are accepted in one tick, or
    /// the button in the tick before or after.
    pub(super) fn press_about_a_move(&mut self) {
        let bay = self.random.below(2);
        let button = BUTTON >> (4 * bay);
        self.store_levels(self.levels | button);
        self.run(PRESENCE_TICKS);
        if self.random.one_in(2) {
            self.listen(bay);
        }
        let moved = self.moved_device(bay);
        let later = PRESENCE_TICKS - BUTTON_TICKS;
        self.store_levels(moved);
        self.ticks(&[0, later - 1, later, later, later + 1]);
        self.store_levels(moved & !button);
        self.run(PRESENCE_TICKS);
    }

    /// The host asks to be told of devices and of the button, and clears the last press.
    fn listen(&mut self, bay: usize) {
        let control = self.random.pick(&[0x0C, 0x1C, 0x2C]);
        self.write_value(self.map().controls[bay], control);
        self.write_value(self.map().statuses[bay], 0x08);
    }

    /// The levels with a device where there is none, or without the one that is there.
    fn moved_device(&mut self, bay: usize) -> u8 {
        let either = BOTH >> (4 * bay);
        if self.levels & either == either {
            self.levels & !(self.random.pick(&PRESENCE) >> (4 * bay))
        } else {
            self.levels | either
        }
    }

    /// As long as the level takes mostly, in one run or around something else, or a tick more or less.
    fn settle(&mut self, ticks: usize) {
        match self.random.below(8) {
            0 => self.ticks(&SHORT_RUNS),
            1 => {
                self.run(ticks / 2);
                self.flip_pins();
                self.run(ticks - ticks / 2);
            }
            2 => {
                self.run(ticks / 2 - 1);
                self.write();
                self.run(ticks - ticks / 2 + 1);
            }
            3 => self.run_about(ticks),
            _ => self.run(ticks),
        }
    }

    pub(super) fn run_about(&mut self, ticks: usize) {
        self.ticks(&[ticks - 1, ticks, ticks + 1]);
    }

    pub(super) fn ticks(&mut self, lengths: &[usize]) {
        let count = self.random.pick(lengths);
        self.run(count);
    }

    pub(super) fn run(&mut self, count: usize) {
        (0..count).for_each(|_| self.put(TICK));
    }

    pub(super) fn pins_or_tick(&mut self) {
        if self.random.one_in(2) {
            self.put(TICK);
        } else {
            self.flip_pins();
        }
    }
}
