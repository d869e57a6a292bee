//! Names of kinds, and RESETs, that rules on them differ on: a name that is in force at once, that ends a command, that
//! one RESET uses up, or a number of no kind that leaves a trace.

use crate::image::{Image, DATA, DRIVING, READING, WRITING};
use crate::situations::situations;
use trial::Call;

const RESET: u16 = 6;

situations!(
    Names,
    "names",
    Second: "of the second kind over the first",
    First: "of the first over the second",
    Again: "of the same again",
    NoKind: "of no kind",
    BeforeReset: "before any RESET",
    InWriteOfFirst: "inside a write of the first kind",
    InReadOfFirst: "inside a read of the first kind",
    InWriteOfSecond: "inside a write of the second kind",
    InReadOfSecond: "inside a read of the second kind",
    NoKindInside: "of no kind inside a command",
    IntoSecond: "in force by a RESET, the second for the first",
    IntoFirst: "in force by a RESET, the first for the second",
    SecondStays: "of the second kind that stays over a RESET",
    BackUnused: "taken back before a RESET",
);

impl Names {
    /// A call between these two images.
    pub fn count(&mut self, call: Call, before: Image, after: Image) {
        match call {
            Call::Name(number) => self.name(number, before),
            Call::Word(word) if word >> 13 == RESET => self.reset(before, after),
            Call::Word(_) => {}
        }
    }

    fn name(&mut self, number: u8, before: Image) {
        let named = if before.second_named() { 2 } else { 1 };
        let in_force = if before.is_second() { 2 } else { 1 };
        let is_kind = number == 1 || number == 2;
        self.came(Came::Second, (named, number) == (1, 2));
        self.came(Came::First, (named, number) == (2, 1));
        self.came(Came::Again, named == number);
        self.came(Came::NoKind, !is_kind);
        self.came(Came::BeforeReset, is_kind && !before.has_started());
        self.came(Came::BackUnused, named != in_force && number == in_force);
        let command = before.progress()[0];
        let other = is_kind && number != in_force;
        self.came(Came::InWriteOfFirst, other && command == DATA);
        self.came(Came::InReadOfFirst, other && command == DRIVING);
        self.came(Came::InWriteOfSecond, other && command == WRITING);
        self.came(Came::InReadOfSecond, other && command == READING);
        self.came(Came::NoKindInside, !is_kind && command != 0);
    }

    fn reset(&mut self, before: Image, after: Image) {
        let kinds = (before.is_second(), after.is_second());
        self.came(Came::IntoSecond, kinds == (false, true));
        self.came(Came::IntoFirst, kinds == (true, false));
        self.came(Came::SecondStays, kinds == (true, true));
    }
}
