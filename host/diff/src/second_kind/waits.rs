//! Waits of devices that nobody sees yet: how they begin and end, and what they go on through.

use super::{Write, CAPABILITIES, CONTROLS, FEATURES, PINS, RESET, STATUSES, TICK};
use crate::image::{Bay, Image, BUTTON, DEVSTSCHG_EN, EMPTY, PRESENCE, PWR_CTL, REMREQ_EN, REMREQ_STS};
use crate::situations::situations;

/// ITO 1, in ticks.
const SHORTEST: u16 = 80;

const TOLD: u8 = 0x04;
const TOLD_OF_BUTTON: u8 = 0x08;
const POWER: u8 = 0x81;

situations!(
    Waits,
    "waits of the second kind",
    Told: "begun and told of",
    Untold: "begun untold of",
    Longer: "begun that are longer than the shortest",
    NoTimeout: "not begun for want of ITO",
    OverTold: "over and told of",
    OverUntold: "over untold of",
    BesideAnother: "over beside another",
    LastPress: "over with a press",
    LastRemoval: "removed in the last tick",
    Removed: "removed",
    Reset: "RESET",
    Closed: "closed",
    Press: "pressed in",
    OneBit: "through one presence bit",
    Bounce: "through a bounce",
    Enabled: "through the enable set",
    Disabled: "through the enable cleared",
    Requested: "through a request",
    Powered: "through a wish for power",
    RemreqEnable: "through REMREQ_EN",
    Status: "through BSTR",
    Features: "through FCh written again",
);

/// What the paper says of all states that words lead to: a wait runs over a device and in Empty alone, without power; and
/// where the host is told of devices, one that is still in Empty waits.
pub fn are_in_place(image: Image) -> bool {
    image.bays().into_iter().all(|bay| {
        let unseen = bay.state() == EMPTY && bay.has_contact();
        let waits = bay.wait() > 0;
        (!waits || unseen && !bay.has(PWR_CTL)) && (waits || !(unseen && bay.has(DEVSTSCHG_EN)))
    })
}

impl Waits {
    pub fn count(&mut self, word: u16, before: Image, after: Image) {
        for bay in 0..2 {
            let (was, is) = (before.bay(bay), after.bay(bay));
            if word == TICK {
                self.tick(before.features(), was, is);
                let beside = before.bay(1 - bay).wait() > 1;
                self.came(Came::BesideAnother, beside && was.wait() == 1 && is.has_contact());
            }
            if was.wait() == 0 {
                continue;
            }
            if let Some(write) = super::written(word, before, after) {
                self.write(bay, write, was, is);
            }
            let back = PRESENCE.iter().any(|&input| was.count(input) > is.count(input));
            self.came(Came::Bounce, word >> 13 == PINS && back);
            self.came(Came::Reset, word >> 13 == RESET);
        }
    }

    fn tick(&mut self, features: u8, was: Bay, is: Bay) {
        let told = was.has(DEVSTSCHG_EN);
        let arrives = !was.has_contact() && is.has_contact();
        self.came(Came::NoTimeout, arrives && features >> 5 == 0);
        match (was.wait(), is.has_contact()) {
            (0, _) => {
                self.came(Came::Told, is.wait() > 0 && told);
                self.came(Came::Untold, is.wait() > 0 && !told);
                self.came(Came::Longer, is.wait() > SHORTEST);
            }
            (1, true) => {
                self.came(Came::OverTold, told);
                self.came(Came::OverUntold, !told);
                let pressed = !was.has(REMREQ_STS) && is.has(REMREQ_STS);
                self.came(Came::LastPress, told && was.has(REMREQ_EN) && pressed);
            }
            (1, false) => self.came(Came::LastRemoval, true),
            (_, true) => {
                self.came(Came::Press, !was.is_low(BUTTON) && is.is_low(BUTTON));
                self.came(Came::OneBit, PRESENCE.iter().any(|&input| was.is_low(input) != is.is_low(input)));
            }
            (_, false) => self.came(Came::Removed, true),
        }
    }

    fn write(&mut self, bay: usize, Write { register, value }: Write, was: Bay, is: Bay) {
        self.came(Came::Status, register == STATUSES[bay]);
        self.came(Came::Features, register == FEATURES);
        self.came(Came::Closed, register == CAPABILITIES && is.wait() == 0);
        if register == CONTROLS[bay] {
            let told = value & TOLD != 0;
            self.came(Came::Enabled, told && !was.has(DEVSTSCHG_EN));
            self.came(Came::Disabled, !told && was.has(DEVSTSCHG_EN));
            self.came(Came::Requested, (1..=4).contains(&(value >> 4 & 7)));
            self.came(Came::Powered, value & POWER == POWER);
            self.came(Came::RemreqEnable, value & TOLD_OF_BUTTON != 0 && !was.has(REMREQ_EN));
        }
    }
}
