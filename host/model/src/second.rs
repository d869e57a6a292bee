//! The second kind: the registers of document 03, of which some take one write only, and what SFR makes of a bay.

use crate::bay::{Bay, Rules};
use crate::controller::{BayAddresses, Start, DBCCR};
use crate::Controller;

const SUBSYSTEM: u8 = 0x08;
const LAST_OF_SUBSYSTEM: u8 = 0x0B;
const SFR: u8 = 0xFC;

const BAYS: BayAddresses = BayAddresses { status: [0x14, 0x20], control: [0x10, 0x18] };

/// BAY_FF is the byte after BSTR.
const FORM_FACTOR: [u8; 2] = [BAYS.status[0] + 1, BAYS.status[1] + 1];

const BAY_COUNT_BITS: u8 = 0x0F;
const MOST_BAYS: u8 = 2;
const FORM_FACTOR_BITS: u8 = 0x07;

/// 50 ms and 800 ms, in ticks.
const SHORT: u16 = 5;
const LONG: u16 = 80;

/// Lamps flash once in a second, lit for its first half.
const SECOND: u8 = 100;
const LIT_PHASES: u8 = 50;

/// A byte that takes its first write and no other.
#[derive(Clone, Copy, Default, PartialEq, Eq, Debug)]
pub(crate) struct Once {
    pub(crate) value: u8,
    pub(crate) written: bool,
}

impl Once {
    /// Says whether this was the first.
    fn write(&mut self, value: u8) -> bool {
        let first = !self.written;
        if first {
            *self = Once { value, written: true };
        }
        first
    }

    /// With its value, and open to a write again.
    fn reopened(self) -> Once {
        Once { written: false, ..self }
    }
}

/// The registers that only this kind has, but for those of a bay. They are there in the first kind too, unseen.
#[derive(Clone, Copy, Default, PartialEq, Eq, Debug)]
pub(crate) struct Registers {
    pub(crate) subsystem: [Once; 4],
    pub(crate) features: Once,
    pub(crate) form_factors: [Once; 2],
}

impl Registers {
    /// What a RESET into either kind leaves. The form factor of a bay is written once in the controller's life.
    pub(crate) fn reset(&self) -> Registers {
        Registers {
            subsystem: self.subsystem.map(Once::reopened),
            features: Once::default(),
            form_factors: self.form_factors,
        }
    }
}

/// The part has no strap for its lock and no LETR.
pub fn start() -> Start {
    Start { lock: false, lock_time: 0, bay_count: MOST_BAYS }
}

/// SFR: bits 7-5 ITO, the wait; 4-1 SOL, the pulse; 0 SPD, the pulse's unit.
pub fn rules(dock: &Controller) -> Rules {
    let features = dock.second.features.value;
    let insertion_timeout = u16::from(features >> 5);
    let solenoid = u16::from(features >> 1 & 0x0F);
    let unit = if features & 1 == 0 { SHORT } else { LONG };
    Rules {
        wait: LONG * insertion_timeout,
        wait_hides: true,
        pulse: unit * solenoid,
        pulse_high: true,
        lit: dock.phase % SECOND < LIT_PHASES,
        shows_security_lock: dock.security_lock,
    }
}

pub fn reading(dock: &Controller, address: u8) -> u8 {
    let form_factor = open_form_factor(dock, address).map(|bay| dock.second.form_factors[bay].value);
    match address {
        0x00 => 0x60,
        0x01 => 0x12,
        0x04 => 0x01,
        SUBSYSTEM..=LAST_OF_SUBSYSTEM => dock.second.subsystem[usize::from(address - SUBSYSTEM)].value,
        DBCCR => dock.capabilities(),
        SFR => dock.second.features.value,
        _ => form_factor.unwrap_or_else(|| dock.bay_reading(&BAYS, address)),
    }
}

pub fn write(dock: &mut Controller, address: u8, value: u8) {
    match address {
        SUBSYSTEM..=LAST_OF_SUBSYSTEM => {
            dock.second.subsystem[usize::from(address - SUBSYSTEM)].write(value);
        }
        DBCCR => dock.write_capabilities(value, MOST_BAYS.min(value & BAY_COUNT_BITS)),
        SFR => write_features(dock, value),
        _ => write_of_bay(dock, address, value),
    }
}

/// The first write also lets both locks go, and power with them.
fn write_features(dock: &mut Controller, value: u8) {
    if dock.second.features.write(value) {
        dock.bays.iter_mut().for_each(Bay::unlock);
    }
}

fn write_of_bay(dock: &mut Controller, address: u8, value: u8) {
    match open_form_factor(dock, address) {
        Some(bay) => {
            dock.second.form_factors[bay].write(value & FORM_FACTOR_BITS);
        }
        None => dock.write_bay(&BAYS, address, value),
    }
}

/// The open bay whose BAY_FF is at this address. The form factor of a closed bay is neither read nor written.
fn open_form_factor(dock: &Controller, address: u8) -> Option<usize> {
    (0..dock.open_bays().len()).find(|&bay| FORM_FACTOR[bay] == address)
}
