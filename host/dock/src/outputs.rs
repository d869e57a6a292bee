//! The nine outputs.

use crate::{Bay, Unnamed};
use core::fmt;

const ALL: u16 = 0x1FF;

/// The nine outputs. A lock output is the level of the lock pin.
///
/// ```
/// use dock::{Bay, Outputs};
///
/// let outputs = Outputs::try_from(0x140)?;
/// assert!(outputs.power(Bay::Zero) && outputs.green(Bay::Zero));
/// assert_eq!(outputs.to_string(), "power 0, green 0");
/// assert!(Outputs::try_from(0x200).is_err());
/// # Ok::<(), dock::Unnamed>(())
/// ```
#[derive(Clone, Copy, PartialEq, Eq, Debug)]
pub struct Outputs(u16);

impl Outputs {
    /// Bit 8 to 0: power, lock pin, green and yellow of bay 0, the same of bay 1, interrupt.
    pub fn bits(self) -> u16 {
        self.0
    }

    fn of_bay(self, bay: Bay, bit: u16) -> bool {
        let place = match bay {
            Bay::Zero => 5,
            Bay::One => 1,
        };
        self.0 >> place & bit != 0
    }

    pub fn power(self, bay: Bay) -> bool {
        self.of_bay(bay, 8)
    }

    pub fn lock(self, bay: Bay) -> bool {
        self.of_bay(bay, 4)
    }

    pub fn green(self, bay: Bay) -> bool {
        self.of_bay(bay, 2)
    }

    pub fn yellow(self, bay: Bay) -> bool {
        self.of_bay(bay, 1)
    }

    pub fn interrupt(self) -> bool {
        self.0 & 1 != 0
    }
}

impl TryFrom<u16> for Outputs {
    type Error = Unnamed;

    fn try_from(bits: u16) -> Result<Outputs, Unnamed> {
        if bits & !ALL != 0 {
            return Err(Unnamed { what: "set of outputs", number: u32::from(bits) });
        }
        Ok(Outputs(bits))
    }
}

impl fmt::Display for Outputs {
    fn fmt(&self, f: &mut fmt::Formatter) -> fmt::Result {
        if self.0 == 0 {
            return f.write_str("all off");
        }
        let mut between = "";
        for bay in [Bay::Zero, Bay::One] {
            let named = [
                (self.power(bay), "power"),
                (self.lock(bay), "lock"),
                (self.green(bay), "green"),
                (self.yellow(bay), "yellow"),
            ];
            for (_, name) in named.iter().filter(|(set, _)| *set) {
                write!(f, "{}{} {}", between, name, bay)?;
                between = ", ";
            }
        }
        if self.interrupt() {
            write!(f, "{}interrupt", between)?;
        }
        Ok(())
    }
}
