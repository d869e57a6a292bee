//! The two kinds of controller.

use crate::Unnamed;
use core::fmt;

/// Whose registers, transfers and lock modes a controller has.
///
/// ```
/// use dock::Kind;
///
/// assert_eq!(Kind::try_from(2), Ok(Kind::Second));
/// assert_eq!(u8::from(Kind::First), 1);
/// assert!(Kind::try_from(0).is_err());
/// ```
#[derive(Clone, Copy, PartialEq, Eq, Debug)]
pub enum Kind {
    /// The DBC98C51, which a fresh controller is; its addresses are [`Register`](crate::Register)'s.
    First = 1,
    /// The CDP1020 of older backplanes; its addresses are [`SecondRegister`](crate::SecondRegister)'s.
    Second = 2,
}

impl Kind {
    /// By a flag of an image.
    pub(crate) fn by_flag(second: u8) -> Kind {
        if second == 1 {
            Kind::Second
        } else {
            Kind::First
        }
    }
}

impl From<Kind> for u8 {
    fn from(kind: Kind) -> u8 {
        kind as u8
    }
}

impl TryFrom<u8> for Kind {
    type Error = Unnamed;

    fn try_from(number: u8) -> Result<Kind, Unnamed> {
        Ok(match number {
            1 => Kind::First,
            2 => Kind::Second,
            _ => return Err(Unnamed { what: "kind of controller", number: u32::from(number) }),
        })
    }
}

impl fmt::Display for Kind {
    fn fmt(&self, f: &mut fmt::Formatter) -> fmt::Result {
        f.write_str(match self {
            Kind::First => "DBC98C51",
            Kind::Second => "CDP1020",
        })
    }
}
