//! Where each kind has its registers, and bytes for them that lead somewhere.

use super::Writer;
use model::Kind;

/// Every address that means something in either kind, and neighbours that do not.
pub const ADDRESSES: [u8; 29] = [
    0x00, 0x01, 0x04, 0x08, 0x09, 0x0A, 0x0B, 0x0C, 0x10, 0x14, 0x15, 0x18, 0x1C, 0x20, 0x21, 0x40, 0x42, 0xFC, 0x02,
    0x0D, 0x11, 0x1D, 0x22, 0x39, 0x41, 0x43, 0x90, 0xFD, 0xFF,
];

pub(super) const CAPABILITIES: u8 = 0x0C;

/// The first kind's.
pub(super) const LETR: u8 = 0x40;
pub(super) const WAIT: u8 = 0x42;

/// The second kind's; the subsystem has four bytes.
pub(super) const SUBSYSTEM: u8 = 0x08;
const LAST_OF_SUBSYSTEM: u8 = 0x0B;
pub(super) const FEATURES: u8 = 0xFC;

/// BCER and BSTR of either bay, where most of the behaviour is.
pub(super) struct Map {
    pub(super) controls: [u8; 2],
    pub(super) statuses: [u8; 2],
}

const FIRST: Map = Map { controls: [0x14, 0x1C], statuses: [0x10, 0x18] };
const SECOND: Map = Map { controls: [0x10, 0x18], statuses: [0x14, 0x20] };

/// Control bytes that lead somewhere: enables on, each request, power with and without its lock.
const USEFUL_CONTROLS: [u8; 16] =
    [0x04, 0x08, 0x0C, 0x0E, 0x10, 0x18, 0x20, 0x28, 0x2C, 0x30, 0x40, 0x42, 0x81, 0xAD, 0x80, 0x00];

impl Writer<'_> {
    /// Of the kind in force.
    pub(super) fn map(&self) -> &'static Map {
        match self.kind() {
            Kind::First => &FIRST,
            Kind::Second => &SECOND,
        }
    }

    /// BAY_FF of either bay.
    pub(super) fn form_factors(&self) -> [u8; 2] {
        SECOND.statuses.map(|status| status + 1)
    }

    pub(super) fn address(&mut self) -> u8 {
        match self.random.below(8) {
            0..=3 => self.random.pick(&self.map().controls),
            4 | 5 => self.random.pick(&self.map().statuses),
            6 => self.random.pick(&ADDRESSES),
            _ => self.random.byte(),
        }
    }

    /// A byte for this register, as the kind in force has it.
    pub(super) fn written_value(&mut self, address: u8) -> u8 {
        let any = self.random.byte();
        let map = self.map();
        if map.controls.contains(&address) && !self.random.one_in(4) {
            return self.random.pick(&USEFUL_CONTROLS);
        }
        if map.statuses.contains(&address) {
            return self.random.pick(&[0x04, 0x08, 0x0C, 0x00, 0xF3, any]);
        }
        match (self.kind(), address) {
            // A count of 1 shuts half of the dock until the next RESET, so it comes less often than chance has it.
            (Kind::First, CAPABILITIES) if any & 3 == 1 && !self.random.one_in(3) => any ^ 1,
            (Kind::Second, CAPABILITIES) if !self.random.one_in(16) => any | 2,
            (Kind::First, WAIT) => self.wait_time(),
            (Kind::Second, FEATURES) => self.features(),
            // The first write counts also where it is 0.
            (Kind::Second, SUBSYSTEM..=LAST_OF_SUBSYSTEM) if self.random.one_in(4) => 0,
            _ => any,
        }
    }

    /// 42h, mostly short, so that counts run out.
    pub(super) fn wait_time(&mut self) -> u8 {
        let any = self.random.byte();
        match self.random.below(16) {
            0 => self.random.pick(&[any, any, 254, 255]),
            1 | 2 => self.random.between(13, 40) as u8,
            3 | 4 => 0,
            _ => self.random.between(1, 12) as u8,
        }
    }

    /// SFR: ITO, SOL and SPD, the first two mostly small, so that waits and pulses come to their end.
    pub(super) fn features(&mut self) -> u8 {
        let any = self.random.byte();
        let timeout = self.random.pick(&[0, 1, 1, 1, 2, any >> 5]);
        let solenoid = self.random.pick(&[0, 1, 1, 2, 3, any >> 1 & 0x0F]);
        timeout << 5 | solenoid << 1 | u8::from(self.random.one_in(3))
    }
}
