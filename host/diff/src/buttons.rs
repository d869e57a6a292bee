//! Levels of the removal button that rules on its five ticks differ on. The lists must come to each of these:
//!
//! - A level accepted in its fifth tick. A rule of four ticks has it before, one of six or of ten, or one that asks for
//!   a tick more than it says, has it later. Down and up count apart, since a rule may be quick with one of them only.
//! - A level that goes back after four ticks. A rule of four has accepted it, and a count that no sample clears stays.
//! - A first press accepted while a presence change that began no later still counts, by which a device comes or goes.
//!   A rule with one length for all inputs, five or ten, has the device come or go before the press or with it, and
//!   then sets REMREQ_STS where the paper doesn't, or doesn't where it does.

use crate::image::{Bay, Image, BUTTON, PRESENCE, REMREQ_STS};
use crate::situations::situations;

const TICKS: u8 = 5;

const TICK: u16 = 0xA000;
const PINS: u16 = 4;

situations!(
    Buttons,
    "buttons",
    Down: "down after five ticks",
    Up: "up after five ticks",
    NotDown: "not down after four",
    NotUp: "not up after four",
    BeforeArrival: "first pressed ahead of a device that comes",
    BeforeRemoval: "first pressed ahead of one that goes",
);

impl Buttons {
    /// A word between these two images.
    pub fn count(&mut self, word: u16, before: Image, after: Image) {
        for (was, is) in before.bays().into_iter().zip(after.bays()) {
            if was.count(BUTTON) == TICKS - 1 && is.count(BUTTON) == 0 {
                self.count_in_bay(word, was, is);
            }
        }
    }

    /// The button's fifth tick, or a sample that is back.
    fn count_in_bay(&mut self, word: u16, was: Bay, is: Bay) {
        let down = !was.is_low(BUTTON);
        let back = word >> 13 == PINS;
        self.came(Came::NotDown, back && down);
        self.came(Came::NotUp, back && !down);
        if word != TICK {
            return;
        }
        self.came(Came::Down, down);
        self.came(Came::Up, !down);
        let ahead = down && !was.has(REMREQ_STS) && is.has_contact() != has_contact_sooner(is);
        self.came(Came::BeforeArrival, ahead && !is.has_contact());
        self.came(Came::BeforeRemoval, ahead && is.has_contact());
    }
}

/// As it would be if presence took no longer than the button.
fn has_contact_sooner(bay: Bay) -> bool {
    PRESENCE.iter().any(|&input| bay.is_low(input) != (bay.count(input) >= TICKS))
}
