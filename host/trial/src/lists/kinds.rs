//! Names of kinds, and the RESETs that put them in force.

use super::map::FEATURES;
use super::Writer;
use crate::Call;
use model::Kind;
use paper::words::{reset, reset_short};

/// The kinds' numbers, and some that are none.
const NUMBERS: [u8; 8] = [1, 2, 1, 2, 2, 0, 3, 255];

impl Writer<'_> {
    /// Here and there, also inside a transfer, and often one that is no kind's.
    pub(super) fn name(&mut self) {
        let number = self.random.pick(&NUMBERS);
        self.name_number(number);
    }

    fn name_number(&mut self, number: u8) {
        // A number that no kind has is refused, and changes nothing.
        let _ = self.dock.name_kind(number);
        self.calls.push(Call::Name(number));
    }

    /// All sixteen straps, levels from empty to anything, and the short pulse or not. Where kinds are mixed one is
    /// mostly named before it, and mostly the second.
    pub(super) fn reset(&mut self) {
        if self.mixes && !self.random.one_in(4) {
            let number = self.random.pick(&[1, 2, 2]);
            self.name_number(number);
        }
        let straps = self.random.byte() & 0x0F;
        let any = self.random.byte();
        let levels = self.random.pick(&[0xFF, 0xBF, 0xFB, 0xBB, 0x7F, 0x3F, any]);
        let word = self.reset_word(straps, levels);
        self.put(word);
        if self.kind() == Kind::Second && self.random.one_in(2) {
            let features = self.features();
            self.write_value(FEATURES, features);
        }
    }

    fn reset_word(&mut self, straps: u8, levels: u8) -> u16 {
        if self.random.one_in(2) {
            reset(straps, levels)
        } else {
            reset_short(straps, levels)
        }
    }

    /// With the address and the levels as they are.
    pub(super) fn reset_word_here(&mut self) -> u16 {
        let address_straps = (self.own() - 0x90) << 1;
        let straps = address_straps | self.random.byte() & 3;
        self.reset_word(straps, self.levels)
    }

    /// A RESET with the address as it is and these levels, into the kind in force.
    pub(super) fn reset_into_the_same(&mut self, levels: u8) {
        let number = match self.kind() {
            Kind::First => 1,
            Kind::Second => 2,
        };
        self.levels = levels;
        self.name_number(number);
        let word = self.reset_word_here();
        self.put(word);
    }

    /// What only lists with names have.
    pub(super) fn scene_of_kinds(&mut self) {
        match self.random.below(8) {
            0 => self.name(),
            1 => self.reset(),
            _ if self.kind() == Kind::First => self.reset(),
            2 | 3 => self.write_twice(),
            4 => self.power_and_features(),
            5 => self.close_bay_1(),
            _ => self.read_over_a_move(),
        }
    }
}
