//! Registers: bytes of which only a first write counts, what closes bay 1, and what the security lock shows.

use super::{Write, CAPABILITIES, CONTROLS, FEATURES, FORM_FACTORS, PINS, RESET, STATUSES, SUBSYSTEM};
use crate::image::{Image, LOCK_CTL, PWR_CTL};
use crate::situations::situations;

situations!(
    Registers,
    "registers of the second kind",
    Subsystem: "08h-0Bh written",
    SubsystemZero: "08h-0Bh first written 0",
    SubsystemAgain: "08h-0Bh written again",
    SubsystemAnew: "08h-0Bh written over what a RESET kept",
    Capabilities: "0Ch written",
    CapabilitiesAgain: "0Ch written again",
    CountAboveTwo: "0Ch with a count above 2",
    Secured: "0Ch with SECLOCK",
    Closing: "0Ch that closes bay 1 over a device",
    BesideCapabilities: "0Dh-0Fh written",
    ClosedControl: "18h written with bay 1 closed",
    ClosedStatus: "20h written with bay 1 closed",
    FormFactor: "15h or 21h written",
    FormFactorBits: "15h or 21h with other bits",
    FormFactorAgain: "15h or 21h written again",
    FormFactorClosed: "21h unwritten, with bay 1 closed",
    FormFactorKept: "15h or 21h kept over a RESET",
    Features: "FCh written",
    FeaturesZero: "FCh first written 0",
    FeaturesAgain: "FCh written again",
    FeaturesWithPower: "FCh written with power on",
    FeaturesWithLock: "FCh written with a lock and no power",
    BesideFeatures: "FDh-FFh written",
    LockShown: "nSL low and shown",
    LockHidden: "nSL low and not shown",
);

impl Registers {
    pub fn count(&mut self, word: u16, before: Image, after: Image) {
        if let Some(write) = super::written(word, before, after) {
            self.once(write, before);
            self.written(write, before);
        }
        let kept = (0..2).any(|bay| before.form_factor_written(bay));
        self.came(Came::FormFactorKept, word >> 13 == RESET && kept);
        let locked = word >> 13 == PINS && after.bays().iter().any(|bay| bay.is_locked());
        self.came(Came::LockShown, locked && after.secured());
        self.came(Came::LockHidden, locked && !after.secured());
    }

    /// A byte that takes one write.
    fn once(&mut self, Write { register, value }: Write, before: Image) {
        match register {
            SUBSYSTEM..=0x0B => {
                let byte = usize::from(register - SUBSYSTEM);
                let (first, old) = (!before.subsystem_written(byte), before.subsystem(byte));
                self.came(Came::Subsystem, first && value != 0);
                self.came(Came::SubsystemZero, first && value == 0);
                self.came(Came::SubsystemAnew, first && old != 0 && old != value);
                self.came(Came::SubsystemAgain, !first && old != value);
            }
            CAPABILITIES => {
                let first = !before.capabilities_written();
                self.came(Came::Capabilities, first);
                self.came(Came::CapabilitiesAgain, !first);
                self.came(Came::CountAboveTwo, first && value & 0x0F > 2);
                self.came(Came::Secured, first && value & 0x10 != 0);
                self.came(Came::Closing, first && value & 0x0F == 1 && before.bay(1).has_contact());
            }
            FEATURES => self.features(value, before),
            _ => {}
        }
    }

    fn features(&mut self, value: u8, before: Image) {
        let first = !before.features_written();
        let powered = before.bays().iter().any(|bay| bay.has(PWR_CTL));
        let locked = before.bays().iter().any(|bay| bay.has(LOCK_CTL) && !bay.has(PWR_CTL));
        self.came(Came::Features, first && value != 0);
        self.came(Came::FeaturesZero, first && value == 0);
        self.came(Came::FeaturesAgain, !first && value != before.features());
        self.came(Came::FeaturesWithPower, first && powered);
        self.came(Came::FeaturesWithLock, first && locked);
    }

    fn written(&mut self, Write { register, value }: Write, before: Image) {
        self.came(Came::BesideCapabilities, (0x0D..=0x0F).contains(&register));
        self.came(Came::BesideFeatures, register > FEATURES);
        self.came(Came::ClosedControl, before.bay1_closed() && register == CONTROLS[1]);
        self.came(Came::ClosedStatus, before.bay1_closed() && register == STATUSES[1]);
        if let Some(bay) = FORM_FACTORS.iter().position(|&address| address == register) {
            let closed = bay == 1 && before.bay1_closed();
            let first = !before.form_factor_written(bay);
            self.came(Came::FormFactor, first && !closed);
            self.came(Came::FormFactorBits, first && !closed && value > 7);
            self.came(Came::FormFactorAgain, !first && !closed);
            self.came(Came::FormFactorClosed, first && closed);
        }
    }
}
