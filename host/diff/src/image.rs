//! An image taken apart, as far as the situations go by it.

/// Where things stand in an image.
const KIND: usize = 2;
const NAMED: usize = 3;
const CAPABILITIES_WRITTEN: usize = 4;
const SECLOCK: usize = 5;
const SUBSYSTEM_WRITTEN: usize = 6;
const FORM_FACTORS_WRITTEN: usize = 10;
const FEATURES_WRITTEN: usize = 12;
const BAY_COUNT: usize = 42;
const LOCK_TIME: usize = 43;
const WAIT_TIME: usize = 44;
const PHASE: usize = 45;
const SUBSYSTEM: usize = 46;
const FEATURES: usize = 52;
const PROGRESS: usize = 71;

/// Where a bay's flags and its numbers begin.
const BAYS: [(usize, usize); 2] = [(13, 53), (27, 62)];

/// Which they are.
const ACCEPTED: usize = 3;
const N_SL: usize = 6;
pub const REMREQ_STS: usize = 7;
pub const LOCK_CTL: usize = 9;
pub const REMREQ_EN: usize = 10;
pub const DEVSTSCHG_EN: usize = 11;
pub const PWR_CTL: usize = 13;
const STATE: usize = 3;
const PULSE: usize = 5;
const WAIT: usize = 7;

/// Among the accepted levels and among the debounce counts, with which the numbers begin.
pub const PRESENCE: [usize; 2] = [0, 1];
pub const BUTTON: usize = 2;

pub const EMPTY: u8 = 0;
pub const INSERTED: u8 = 1;
pub const REMOVAL_REQUESTED: u8 = 3;

const ONE_BAY: u8 = 1;

/// The progress of a command: its number and its two bytes.
pub const REGISTER: u8 = 3;
pub const DATA: u8 = 4;
pub const DRIVING: u8 = 6;
pub const WRITING: u8 = 7;
pub const READING: u8 = 8;

#[derive(Clone, Copy)]
pub struct Image<'a>(pub &'a [u8]);

impl<'a> Image<'a> {
    pub fn is_second(self) -> bool {
        self.0[KIND] == 1
    }

    pub fn second_named(self) -> bool {
        self.0[NAMED] == 1
    }

    pub fn has_started(self) -> bool {
        self.0[1] == 1
    }

    pub fn capabilities_written(self) -> bool {
        self.0[CAPABILITIES_WRITTEN] == 1
    }

    pub fn secured(self) -> bool {
        self.0[SECLOCK] == 1
    }

    /// Of byte 0 to 3 of the subsystem.
    pub fn subsystem(self, byte: usize) -> u8 {
        self.0[SUBSYSTEM + byte]
    }

    pub fn subsystem_written(self, byte: usize) -> bool {
        self.0[SUBSYSTEM_WRITTEN + byte] == 1
    }

    pub fn form_factor_written(self, bay: usize) -> bool {
        self.0[FORM_FACTORS_WRITTEN + bay] == 1
    }

    pub fn features(self) -> u8 {
        self.0[FEATURES]
    }

    pub fn features_written(self) -> bool {
        self.0[FEATURES_WRITTEN] == 1
    }

    pub fn bay1_closed(self) -> bool {
        self.0[BAY_COUNT] == ONE_BAY
    }

    pub fn lock_time(self) -> u8 {
        self.0[LOCK_TIME]
    }

    pub fn wait_time(self) -> u16 {
        self.0[WAIT_TIME].into()
    }

    pub fn phase(self) -> u8 {
        self.0[PHASE]
    }

    pub fn progress(self) -> [u8; 3] {
        [self.0[PROGRESS], self.0[PROGRESS + 1], self.0[PROGRESS + 2]]
    }

    pub fn bay(self, bay: usize) -> Bay<'a> {
        let (flags, numbers) = BAYS[bay];
        Bay { flags: &self.0[flags..], numbers: &self.0[numbers..] }
    }

    pub fn bays(self) -> [Bay<'a>; 2] {
        [self.bay(0), self.bay(1)]
    }
}

/// A bay in an image.
#[derive(Clone, Copy)]
pub struct Bay<'a> {
    flags: &'a [u8],
    numbers: &'a [u8],
}

impl Bay<'_> {
    pub fn has(self, flag: usize) -> bool {
        self.flags[flag] == 1
    }

    /// Whether this input is accepted as low.
    pub fn is_low(self, input: usize) -> bool {
        self.flags[ACCEPTED + input] == 0
    }

    /// Whether a device is accepted, be it seen or not.
    pub fn has_contact(self) -> bool {
        PRESENCE.iter().any(|&input| self.is_low(input))
    }

    pub fn is_locked(self) -> bool {
        self.flags[N_SL] == 0
    }

    /// The debounce count of an input.
    pub fn count(self, input: usize) -> u8 {
        self.numbers[input]
    }

    pub fn state(self) -> u8 {
        self.numbers[STATE]
    }

    pub fn pulse(self) -> u16 {
        u16::from_be_bytes([self.numbers[PULSE], self.numbers[PULSE + 1]])
    }

    pub fn wait(self) -> u16 {
        u16::from_be_bytes([self.numbers[WAIT], self.numbers[WAIT + 1]])
    }
}
