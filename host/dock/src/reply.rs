//! What the host sees on the bus.

use crate::Unnamed;
use core::fmt;

/// What the host sees on the bus after one word.
#[derive(Clone, Copy, PartialEq, Eq, Debug)]
pub enum Reply {
    None,
    Ack,
    NoAck,
    /// The dock drives this byte.
    Driven(u8),
    /// Nobody drives, so the host clocks in FFh.
    NotDriven,
}

impl TryFrom<(u8, u8)> for Reply {
    type Error = Unnamed;

    /// The reply's number and the byte that a record has beside it.
    fn try_from((number, byte): (u8, u8)) -> Result<Reply, Unnamed> {
        Ok(match (number, byte) {
            (0, 0) => Reply::None,
            (1, 0) => Reply::Ack,
            (2, 0) => Reply::NoAck,
            (3, value) => Reply::Driven(value),
            (4, 0xFF) => Reply::NotDriven,
            _ => return Err(Unnamed { what: "reply and byte", number: u32::from(number) << 8 | u32::from(byte) }),
        })
    }
}

impl fmt::Display for Reply {
    fn fmt(&self, f: &mut fmt::Formatter) -> fmt::Result {
        match self {
            Reply::None => f.write_str("-"),
            Reply::Ack => f.write_str("acknowledged"),
            Reply::NoAck => f.write_str("not acknowledged"),
            Reply::Driven(value) => write!(f, "drives {:02X}h", value),
            Reply::NotDriven => f.write_str("drives nothing"),
        }
    }
}
