//! The two controller kinds, and the call that names one.

use crate::{Controller, Refusal};

/// Whose registers, bus commands and lock modes are served.
#[derive(Clone, Copy, PartialEq, Eq, Debug)]
pub enum Kind {
    First,
    Second,
}

impl Kind {
    fn of_number(number: u8) -> Option<Kind> {
        match number {
            1 => Some(Kind::First),
            2 => Some(Kind::Second),
            _ => None,
        }
    }
}

impl Controller {
    /// The kind in force.
    pub fn kind(&self) -> Kind {
        self.kind
    }

    /// Names the kind that the next RESET puts in force. It is no event: nothing else changes, and it is taken before
    /// the first RESET too.
    pub fn name_kind(&mut self, number: u8) -> Result<(), Refusal> {
        self.named = Kind::of_number(number).ok_or(Refusal::NoSuchKind)?;
        Ok(())
    }
}
