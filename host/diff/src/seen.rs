//! What the words by steps came to, in either kind.

use crate::buttons::Buttons;
use crate::image::Image;
use crate::names::Names;
use crate::presses::Presses;
use crate::pulses::{self, Pulses};
use crate::reads::Reads;
use crate::second_kind::{self, SecondKind};
use crate::waits::{self, Waits};
use model::Controller;
use std::fmt;
use trial::Call;

const TICK: u16 = 0xA000;
const RESET: u16 = 6;

#[derive(Default)]
pub struct Seen {
    presses: Presses,
    buttons: Buttons,
    pulses: Pulses,
    waits: Waits,
    names: Names,
    reads: Reads,
    second_kind: SecondKind,
    /// Since the last RESET.
    letr_written: bool,
}

/// Whether the image is one of a state that the paper has words lead to.
pub fn is_reached(image: &[u8]) -> bool {
    let image = Image(image);
    if image.is_second() {
        second_kind::are_in_place(image)
    } else {
        waits::are_in_place(image)
    }
}

impl Seen {
    /// A call between these two images; the model is after it.
    pub fn count(&mut self, call: Call, before: &[u8], after: &[u8], dock: &Controller) {
        let (before, after) = (Image(before), Image(after));
        self.names.count(call, before, after);
        if let Call::Word(word) = call {
            self.reads.count(word, before, after);
            if before.is_second() {
                self.second_kind.count(word, before, after, dock);
            } else {
                self.count_in_first(word, before, after);
            }
        }
    }

    fn count_in_first(&mut self, word: u16, before: Image, after: Image) {
        self.letr_written = word >> 13 != RESET && (self.letr_written || pulses::writes_letr(word, before));
        if word == TICK {
            self.presses.count(before, after);
        }
        self.buttons.count(word, before, after);
        self.pulses.count(word, before, after, self.letr_written);
        self.waits.count(word, before, after);
    }

    /// Situations that never came.
    pub fn missing(&self) -> Vec<String> {
        let of_first = [self.presses.missing(), self.buttons.missing(), self.pulses.missing(), self.waits.missing()];
        [of_first.concat(), self.names.missing(), self.reads.missing(), self.second_kind.missing()].concat()
    }
}

impl std::ops::AddAssign for Seen {
    fn add_assign(&mut self, more: Seen) {
        self.presses += more.presses;
        self.buttons += more.buttons;
        self.pulses += more.pulses;
        self.waits += more.waits;
        self.names += more.names;
        self.reads += more.reads;
        self.second_kind += more.second_kind;
    }
}

impl fmt::Display for Seen {
    fn fmt(&self, f: &mut fmt::Formatter) -> fmt::Result {
        writeln!(f, "{}\n{}\n{}\n{}", self.presses, self.buttons, self.pulses, self.waits)?;
        write!(f, "{}\n{}\n{}", self.names, self.reads, self.second_kind)
    }
}
