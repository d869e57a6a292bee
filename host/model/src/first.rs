//! The first kind: the registers of document 01, its lock modes by strap, and 42h's wait.

use crate::bay::Rules;
use crate::controller::{BayAddresses, Start, DBCCR};
use crate::Controller;

const LETR: u8 = 0x40;
const WAIT: u8 = 0x42;

const BAYS: BayAddresses = BayAddresses { status: [0x10, 0x18], control: [0x14, 0x1C] };

const BAY_COUNT_BITS: u8 = 0x03;
const LETR_BITS: u8 = 0x03;

/// LETR's four pulse lengths, in ticks.
const PULSE_TICKS: [u16; 4] = [12, 50, 100, 200];

/// The straps below the two address bits.
const LOCK_DEF: u8 = 2;
const LOCK_MODE: u8 = 1;

/// Lamps flash with this many lit phases out of 200.
const LIT_PHASES: u8 = 100;

/// LETR starts at 500 ms, and at 120 ms in a dock that was built on the short pulse.
pub fn start(straps: u8, short_pulse: bool) -> Start {
    Start {
        lock: straps & (LOCK_DEF | LOCK_MODE) == LOCK_DEF,
        lock_time: if short_pulse { 0 } else { 1 },
        bay_count: 0,
    }
}

/// A device that waits is seen; only its bay is Inserted later.
pub fn rules(dock: &Controller) -> Rules {
    let pulses = dock.straps & LOCK_MODE != 0;
    Rules {
        wait: dock.wait_time.into(),
        wait_hides: false,
        pulse: if pulses { PULSE_TICKS[usize::from(dock.lock_time)] } else { 0 },
        pulse_high: false,
        lit: dock.phase < LIT_PHASES,
        shows_security_lock: true,
    }
}

pub fn reading(dock: &Controller, address: u8) -> u8 {
    match address {
        0x00 => 0x55,
        0x01 => 0x10,
        0x04 => 0x01,
        DBCCR => dock.capabilities(),
        LETR => dock.lock_time,
        WAIT => dock.wait_time,
        _ => dock.bay_reading(&BAYS, address),
    }
}

pub fn write(dock: &mut Controller, address: u8, value: u8) {
    match address {
        DBCCR => dock.write_capabilities(value, value & BAY_COUNT_BITS),
        LETR => dock.lock_time = value & LETR_BITS,
        WAIT => dock.wait_time = value,
        _ => dock.write_bay(&BAYS, address, value),
    }
}
