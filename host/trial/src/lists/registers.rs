//! Registers that are written for a purpose: locks and their pulses, and bytes of which only a first write counts.

use super::map::{CAPABILITIES, FEATURES, LETR, SUBSYSTEM};
use super::{Writer, LONG_RUNS};
use model::Kind;

impl Writer<'_> {
    /// LOCK_CTL from 1 to 0, which starts a pulse where the kind in force has one, and now and then once more before it
    /// is over.
    pub(super) fn unlock(&mut self) {
        match self.kind() {
            Kind::First => self.choose_pulse(),
            Kind::Second => self.choose_solenoid(),
        }
        let control = self.random.pick(&self.map().controls);
        for _ in 0..self.random.pick(&[1, 1, 1, 2]) {
            self.write_value(control, 0x80);
            self.write_value(control, 0x00);
            if self.random.one_in(2) {
                let rest = self.pulse_rest();
                self.run(rest);
            }
        }
    }

    /// Any pulse length or the one that is there.
    fn choose_pulse(&mut self) {
        if self.random.one_in(2) {
            let code = self.random.byte() & 3;
            self.write_value(LETR, code);
        }
    }

    /// SFR as it is, or after a RESET another one.
    fn choose_solenoid(&mut self) {
        if self.random.one_in(2) {
            self.reset_into_the_same(self.levels);
            let features = self.features();
            self.write_value(FEATURES, features);
        }
    }

    /// Mostly about as long as the second kind's short pulses are, and seldom as its long ones.
    fn pulse_rest(&mut self) -> usize {
        let features = usize::from(self.dock.reading(FEATURES));
        let solenoid = features >> 1 & 0x0F;
        if self.kind() == Kind::First || solenoid == 0 {
            return self.random.pick(&LONG_RUNS);
        }
        let ticks = if features & 1 == 0 { 5 * solenoid } else { 80 * solenoid };
        let about = [ticks - 1, ticks, ticks + 1];
        if ticks <= 100 || self.random.one_in(8) {
            self.random.pick(&about)
        } else {
            self.random.pick(&LONG_RUNS)
        }
    }

    /// DBCCR is written once or twice and then read: only the first write after a RESET counts.
    pub(super) fn capabilities(&mut self) {
        for _ in 0..self.random.between(1, 2) {
            let any = self.random.byte();
            let value = self.random.pick(&[0x00, 0x01, 0x02, 0x03, 0x10, any]);
            self.write_value(CAPABILITIES, value);
        }
        self.read_address(CAPABILITIES);
    }

    /// A byte of the second kind of which only a first write counts, written twice, and mostly again after a RESET: in
    /// this kind, or with the other one in between.
    pub(super) fn write_twice(&mut self) {
        let [form_factor_0, form_factor_1] = self.form_factors();
        let subsystem = SUBSYSTEM + self.random.below(4) as u8;
        let address = self.random.pick(&[subsystem, subsystem, CAPABILITIES, FEATURES, form_factor_0, form_factor_1]);
        for _ in 0..2 {
            let value = self.written_value(address);
            self.write_value(address, value);
        }
        if self.random.one_in(4) {
            return self.read_address(address);
        }
        if self.random.one_in(3) {
            self.reset();
        }
        self.reset();
        let value = self.written_value(address);
        self.write_value(address, value);
        self.read_address(address);
    }

    /// Bay 1 of the second kind is closed, now and then within a pulse, and then its registers are written.
    pub(super) fn close_bay_1(&mut self) {
        self.reset_into_the_same(self.levels);
        let control = self.map().controls[1];
        if self.random.one_in(2) {
            let features = self.features();
            self.write_value(FEATURES, features | 0x02);
            self.write_value(control, 0x80);
            self.write_value(control, 0x00);
        }
        let count = self.random.pick(&[0x01, 0x11, 0xE1]);
        self.write_value(CAPABILITIES, count);
        let [_, form_factor] = self.form_factors();
        for address in [form_factor, control, self.map().statuses[1]] {
            let value = self.written_value(address);
            self.write_value(address, value);
        }
        self.reset_into_the_same(self.levels);
    }

    /// A bay of the second kind is locked and powered over a device as SFR is first written.
    pub(super) fn power_and_features(&mut self) {
        let device = self.random.pick(&[0x3F, 0xBF, 0xF7, 0xBB]);
        self.reset_into_the_same(device);
        for bay in 0..2 {
            let control = self.random.pick(&[0x81, 0xA1, 0x8D, 0x83]);
            self.write_value(self.map().controls[bay], control);
        }
        let features = self.features();
        self.write_value(FEATURES, features);
    }
}
