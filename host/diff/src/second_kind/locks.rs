//! Locks, their pulses, and lamps.

use super::{Write, CAPABILITIES, CONTROLS, RESET, TICK};
use crate::image::{Bay, Image, DEVSTSCHG_EN, EMPTY, INSERTED, LOCK_CTL, REMOVAL_REQUESTED};
use crate::situations::situations;

/// A pulse has two bytes from here on.
const LONGER_THAN_A_BYTE: u16 = 256;

const LOCK: u8 = 0x80;
const SOL: u8 = 0x1E;
const SPD: u8 = 0x01;

situations!(
    Locks,
    "locks and lamps of the second kind",
    LevelLocked: "locked without SOL",
    LevelUnlocked: "unlocked without SOL",
    ShortPulse: "unlocked with SPD 0",
    LongPulse: "unlocked with SPD 1",
    TwoBytes: "unlocked for more ticks than a byte has",
    Restarted: "unlocked again within the pulse",
    LockedWithin: "locked within the pulse",
    ZeroOverZero: "left unlocked",
    RunOut: "with the pulse over",
    Reset: "RESET within the pulse",
    Closed: "closed within the pulse",
    InsertedOut: "Inserted as the lamp goes out",
    InsertedOn: "Inserted as the lamp comes on",
    InsertedSecondOut: "Inserted in the phase's second half as the lamp goes out",
    InsertedSecondOn: "Inserted as the phase begins anew",
    RequestedFlashes: "Removal Requested as the lamp changes",
    WaitingFlashes: "waiting and told of as the lamp changes",
    WaitingDark: "waiting untold of as a lamp would change",
);

impl Locks {
    pub fn count(&mut self, word: u16, before: Image, after: Image) {
        for bay in 0..2 {
            let (was, is) = (before.bay(bay), after.bay(bay));
            let running = was.pulse() > 0;
            if let Some(write) = super::written(word, before, after) {
                self.came(Came::Closed, running && write.register == CAPABILITIES && is.pulse() == 0);
                if write.register == CONTROLS[bay] && !(bay == 1 && before.bay1_closed()) {
                    self.write(write, before.features(), was, is);
                }
            }
            self.came(Came::RunOut, word == TICK && was.pulse() == 1);
            self.came(Came::Reset, word >> 13 == RESET && running);
            if word == TICK && after.phase() % 50 == 0 {
                self.lamp(after.phase(), is);
            }
        }
    }

    fn write(&mut self, Write { value, .. }: Write, features: u8, was: Bay, is: Bay) {
        let running = was.pulse() > 0;
        let solenoid = features & SOL != 0;
        match (was.has(LOCK_CTL), value & LOCK != 0) {
            (false, true) => {
                self.came(Came::LevelLocked, !solenoid);
                self.came(Came::LockedWithin, running);
            }
            (true, false) => {
                self.came(Came::LevelUnlocked, !solenoid);
                self.came(Came::ShortPulse, solenoid && features & SPD == 0);
                self.came(Came::LongPulse, solenoid && features & SPD != 0);
                self.came(Came::TwoBytes, is.pulse() >= LONGER_THAN_A_BYTE);
                self.came(Came::Restarted, running);
            }
            (false, false) => self.came(Came::ZeroOverZero, solenoid),
            (true, true) => {}
        }
    }

    /// The phase has come to 0, 50, 100 or 150.
    fn lamp(&mut self, phase: u8, is: Bay) {
        let waits = is.state() == EMPTY && is.wait() > 0;
        self.came(Came::InsertedOut, is.state() == INSERTED && phase == 50);
        self.came(Came::InsertedOn, is.state() == INSERTED && phase == 100);
        self.came(Came::InsertedSecondOut, is.state() == INSERTED && phase == 150);
        self.came(Came::InsertedSecondOn, is.state() == INSERTED && phase == 0);
        self.came(Came::RequestedFlashes, is.state() == REMOVAL_REQUESTED);
        self.came(Came::WaitingFlashes, waits && is.has(DEVSTSCHG_EN));
        self.came(Came::WaitingDark, waits && !is.has(DEVSTSCHG_EN));
    }
}
