//! Counts of the first kind's wait, and what happens to them, that rules on it differ on. The lists must come to each of these:
//!
//! - A count is begun by an arrival and by the enable. A write that asks for a state as well begins none, and neither
//!   does a device that nobody is to hear of.
//! - It runs out, also while the other bay's goes on; a press falls into its last tick, or a removal does.
//! - It is ended by a removal, by the enable cleared, by a request, by closing and by RESET. A write that clears the
//!   enable and asks as well is no example of either.
//! - It goes on through a press, a change of one presence bit, a device that is gone for a moment, REMREQ_EN, the
//!   enable again, a request for nothing, a write of BSTR, and 42h raised, lowered and at 0.
//!
//! And in every state that they come to, a count runs exactly where the paper has it.

use crate::image::{Bay, Image, DATA, DEVSTSCHG_EN, EMPTY, PRESENCE, REMREQ_EN, REMREQ_STS};
use crate::situations::situations;
use std::cmp::Ordering;

const CAPABILITIES: u8 = 0x0C;
const STATUSES: [u8; 2] = [0x10, 0x18];
const CONTROLS: [u8; 2] = [0x14, 0x1C];
const WAIT_REGISTER: u8 = 0x42;

const TOLD: u8 = 0x04;
const TOLD_OF_BUTTON: u8 = 0x08;

const STOP: u16 = 0x2000;
const TICK: u16 = 0xA000;
const PINS: u16 = 4;
const RESET: u16 = 6;

situations!(
    Waits,
    "waits",
    ByArrival: "begun by an arrival",
    ByEnable: "begun by the enable",
    Asked: "not begun for a request",
    Unheard: "not begun unheard of",
    RunOut: "run out",
    BesideAnother: "run out beside another",
    LastPress: "run out with a press",
    LastRemoval: "removed in the last tick",
    Removed: "removed",
    Cleared: "cleared",
    Requested: "requested",
    Closed: "closed",
    Reset: "RESET",
    Press: "pressed through",
    OneBit: "through one presence bit",
    Bounce: "through a bounce",
    RemreqEnable: "through REMREQ_EN",
    EnableAgain: "through the enable again",
    NoRequest: "through a request for nothing",
    Status: "through BSTR",
    Raised: "through 42h raised",
    Lowered: "through 42h lowered",
    Emptied: "through 42h at 0",
);

/// What the paper says of all states that words lead to: a count runs in Empty alone, over a device and with the enable
/// set, and there one always runs.
pub fn are_in_place(image: Image) -> bool {
    image.bays().into_iter().all(|bay| {
        let waits = bay.state() == EMPTY && bay.has_contact() && bay.has(DEVSTSCHG_EN);
        waits == (bay.wait() > 0)
    })
}

impl Waits {
    /// A word between these two images.
    pub fn count(&mut self, word: u16, before: Image, after: Image) {
        for bay in 0..2 {
            let (was, is) = (before.bay(bay), after.bay(bay));
            if word == TICK {
                self.tick(before.wait_time(), was, is);
                let beside = before.bay(1 - bay).wait() > 1;
                self.came(Came::BesideAnother, beside && was.wait() == 1 && is.has_contact());
            }
            if let ([DATA, register, value], STOP) = (before.progress(), word) {
                self.write(bay, register, value, before.wait_time(), was, is);
            }
            let back = PRESENCE.iter().any(|&input| was.count(input) > is.count(input));
            self.came(Came::Bounce, word >> 13 == PINS && was.wait() > 0 && back);
            self.came(Came::Reset, word >> 13 == RESET && was.wait() > 0);
        }
    }

    fn tick(&mut self, wait_time: u16, was: Bay, is: Bay) {
        let arrives = !was.has_contact() && is.has_contact();
        let told = was.has(DEVSTSCHG_EN);
        self.came(Came::ByArrival, arrives && told && wait_time > 0);
        self.came(Came::Unheard, arrives && !told && wait_time > 0);
        let pressed = !was.has(REMREQ_STS) && is.has(REMREQ_STS);
        match (was.wait(), is.has_contact()) {
            (0, _) => {}
            (1, true) => {
                self.came(Came::RunOut, true);
                self.came(Came::LastPress, pressed && was.has(REMREQ_EN));
            }
            (1, false) => self.came(Came::LastRemoval, true),
            (_, true) => {
                self.came(Came::Press, pressed);
                self.came(Came::OneBit, PRESENCE.iter().any(|&input| was.is_low(input) != is.is_low(input)));
            }
            (_, false) => self.came(Came::Removed, true),
        }
    }

    /// The write that the image before has whole but for its STOP.
    fn write(&mut self, bay: usize, register: u8, value: u8, wait_time: u16, was: Bay, is: Bay) {
        if register == CONTROLS[bay] {
            self.write_control(value, wait_time, was, is);
        }
        if was.wait() == 0 {
            return;
        }
        self.came(Came::Status, register == STATUSES[bay]);
        self.came(Came::Closed, register == CAPABILITIES && is.wait() == 0);
        if register == WAIT_REGISTER {
            let order = u16::from(value).cmp(&wait_time);
            self.came(Came::Raised, order == Ordering::Greater);
            self.came(Came::Lowered, order == Ordering::Less && value > 0);
            self.came(Came::Emptied, order == Ordering::Less && value == 0);
        }
    }

    fn write_control(&mut self, value: u8, wait_time: u16, was: Bay, is: Bay) {
        let request = value >> 4 & 7;
        let asks = (1..=4).contains(&request);
        let told = value & TOLD != 0;
        if was.wait() == 0 {
            let rises = told && !was.has(DEVSTSCHG_EN);
            let empty = was.has_contact() && was.state() == EMPTY;
            self.came(Came::ByEnable, is.wait() > 0);
            self.came(Came::Asked, asks && rises && empty && wait_time > 0);
            return;
        }
        let goes_on = told && !asks;
        self.came(Came::Requested, told && asks);
        self.came(Came::Cleared, !told && !asks);
        self.came(Came::EnableAgain, goes_on);
        self.came(Came::NoRequest, goes_on && request > 4);
        self.came(Came::RemreqEnable, goes_on && value & TOLD_OF_BUTTON != 0 && !was.has(REMREQ_EN));
    }
}
