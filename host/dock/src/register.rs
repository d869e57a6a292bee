//! The registers of a bay, by name.

use crate::Unnamed;
use core::fmt;

/// One of the two bays.
#[derive(Clone, Copy, PartialEq, Eq, Debug)]
pub enum Bay {
    Zero,
    One,
}

impl fmt::Display for Bay {
    fn fmt(&self, f: &mut fmt::Formatter) -> fmt::Result {
        f.write_str(match self {
            Bay::Zero => "0",
            Bay::One => "1",
        })
    }
}

/// Register addresses of the first kind.
pub struct Register;

impl Register {
    pub const CAPABILITIES: u8 = 0x0C;
    pub const LOCK_TIME: u8 = 0x40;
    /// For so many ticks a device that the host hears of waits in Empty before it is Inserted.
    pub const WAIT_TIME: u8 = 0x42;

    pub fn status(bay: Bay) -> u8 {
        match bay {
            Bay::Zero => 0x10,
            Bay::One => 0x18,
        }
    }

    pub fn control(bay: Bay) -> u8 {
        match bay {
            Bay::Zero => 0x14,
            Bay::One => 0x1C,
        }
    }
}

/// Register addresses of the second kind. Its writes and reads may go on from one address to the next, FFh to 00h.
pub struct SecondRegister;

impl SecondRegister {
    /// Subsystem vendor and subsystem, two bytes each, the low one first; each byte is written once after each RESET.
    pub const SUBSYSTEM: u8 = 0x08;
    /// Written once after each RESET.
    pub const CAPABILITIES: u8 = 0x0C;
    /// SFR: bits 7-5 the insertion time-out, 4-1 the lock pulse, 0 its unit; written once after each RESET.
    pub const FEATURES: u8 = 0xFC;

    pub fn status(bay: Bay) -> u8 {
        match bay {
            Bay::Zero => 0x14,
            Bay::One => 0x20,
        }
    }

    pub fn control(bay: Bay) -> u8 {
        match bay {
            Bay::Zero => 0x10,
            Bay::One => 0x18,
        }
    }

    /// BAY_FF, the byte after the status: written once in the controller's life.
    pub fn form_factor(bay: Bay) -> u8 {
        SecondRegister::status(bay) + 1
    }
}

#[derive(Clone, Copy, PartialEq, Eq, Debug)]
pub enum BayState {
    Empty,
    Inserted,
    Enabled,
    RemovalRequested,
    RemovalAllowed,
}

impl TryFrom<u8> for BayState {
    type Error = Unnamed;

    /// The data sheet reserves the numbers above 4.
    fn try_from(number: u8) -> Result<BayState, Unnamed> {
        Ok(match number {
            0 => BayState::Empty,
            1 => BayState::Inserted,
            2 => BayState::Enabled,
            3 => BayState::RemovalRequested,
            4 => BayState::RemovalAllowed,
            _ => return Err(Unnamed { what: "bay state", number: u32::from(number) }),
        })
    }
}

impl fmt::Display for BayState {
    fn fmt(&self, f: &mut fmt::Formatter) -> fmt::Result {
        f.write_str(match self {
            BayState::Empty => "Empty",
            BayState::Inserted => "Inserted",
            BayState::Enabled => "Enabled",
            BayState::RemovalRequested => "Removal Requested",
            BayState::RemovalAllowed => "Removal Allowed",
        })
    }
}

/// A reading of a bay's status register, whose bits both kinds have in the same places.
///
/// ```
/// use dock::{BayState, Status};
///
/// let status = Status::try_from(0x39)?;
/// assert_eq!(status.state(), BayState::RemovalRequested);
/// assert!(status.removal_requested() && status.has_usb());
/// assert!(Status::try_from(0x50).is_err());
/// # Ok::<(), dock::Unnamed>(())
/// ```
#[derive(Clone, Copy, PartialEq, Eq, Debug)]
pub struct Status {
    bits: u8,
    state: BayState,
}

impl TryFrom<u8> for Status {
    type Error = Unnamed;

    fn try_from(bits: u8) -> Result<Status, Unnamed> {
        Ok(Status { bits, state: BayState::try_from(bits >> 4 & 7)? })
    }
}

impl Status {
    pub fn bits(self) -> u8 {
        self.bits
    }

    pub fn state(self) -> BayState {
        self.state
    }

    pub fn security_lock(self) -> bool {
        self.bits & 0x80 != 0
    }

    /// REMREQ_STS: the button was pressed with a device in the bay, and nobody has cleared it since.
    pub fn removal_requested(self) -> bool {
        self.bits & 0x08 != 0
    }

    pub fn status_changed(self) -> bool {
        self.bits & 0x04 != 0
    }

    pub fn has_1394(self) -> bool {
        self.bits & 0x02 != 0
    }

    pub fn has_usb(self) -> bool {
        self.bits & 0x01 != 0
    }
}

impl fmt::Display for Status {
    fn fmt(&self, f: &mut fmt::Formatter) -> fmt::Result {
        write!(f, "{:02X}h, {}", self.bits, self.state)?;
        let named = [
            (self.security_lock(), "security lock engaged"),
            (self.removal_requested(), "removal button pressed"),
            (self.status_changed(), "device status changed"),
            (self.has_1394(), "1394 device present"),
            (self.has_usb(), "USB device present"),
        ];
        for (_, name) in named.iter().filter(|(set, _)| *set) {
            write!(f, ", {}", name)?;
        }
        Ok(())
    }
}
