//! Why a call can be refused.

use self::Reason::*;

/// Why a call can be refused, in the order of the numbers; the same number has three reasons.
#[derive(Clone, Copy, PartialEq, Eq, PartialOrd, Ord, Debug)]
pub enum Reason {
    Length,
    Unfit,
    OneAddress,
    TwoReads,
    StrayBit,
    Absent,
    NotStarted,
    TakenAddress,
}

pub const REASONS: [Reason; 8] = [Length, Unfit, OneAddress, TwoReads, StrayBit, Absent, NotStarted, TakenAddress];

impl Reason {
    pub fn number(self) -> u64 {
        match self {
            Length => 9,
            Unfit | OneAddress | TwoReads => 1,
            StrayBit => 2,
            Absent => 10,
            NotStarted => 3,
            TakenAddress => 11,
        }
    }

    /// The reasons of later refusals that can hold as well. A RESET has no bit that must be 0, and is never refused
    /// with 3.
    pub fn later(self) -> &'static [Reason] {
        match self {
            Length => &REASONS[1..],
            Unfit | OneAddress | TwoReads => &REASONS[4..],
            StrayBit => &[Absent, NotStarted],
            Absent => &[NotStarted, TakenAddress],
            NotStarted | TakenAddress => &[],
        }
    }

    pub fn name(self) -> &'static str {
        match self {
            Length => "another length",
            Unfit => "an unfit record",
            OneAddress => "one address twice",
            TwoReads => "two open reads",
            StrayBit => "a stray bit",
            Absent => "an absent record",
            NotStarted => "none started",
            TakenAddress => "a taken address",
        }
    }
}
