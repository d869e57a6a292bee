//! What tells the request's rules apart: the situations that a run must have come to.

use self::Situation::*;
use crate::reasons::{Reason, REASONS};
use model::CHASSIS_RECORDS;
use std::fmt;

const BYTE: u16 = 2;
const TAKE: u16 = 3;

/// What a call came to. Places are counted from 0, kinds of events are the word's.
#[derive(Clone, Copy, PartialEq, Eq, PartialOrd, Ord, Debug)]
pub enum Situation {
    /// Refused for this reason, with no other.
    Refused(Reason),
    /// Refused for the first reason, though the second holds as well.
    Before(Reason, Reason),
    /// PINS for a record that is not started, beside one that is.
    PinsNotStarted,
    /// Which number of no record was refused: the list's own length, one whose low byte or low half is a record's.
    AbsentByLength,
    AbsentByLowByte,
    AbsentByLowHalf,
    AbsentByAll,
    /// An event of this kind, accepted by a list of so many.
    Accepted(u16, usize),
    /// .. by a list in which both kinds are in force.
    Mixed(u16),
    /// .. by a list in which one was passed over.
    PassedOver(u16),
    /// .. for all, beside a number that no list has.
    NumberNotLookedAt(u16),
    /// PINS and RESET at this place, beside a started neighbour.
    Pins(usize),
    Reset(usize),
    /// A RESET to the address that the record has.
    SameAddress(usize),
    /// A RESET to the address that a neighbour's straps have, which is not started.
    AddressOfNotStarted,
    ShortPulse,
    LongPulse,
    /// Accepted although two have one address, or a read open, of which one does not count.
    TwinNotStarted,
    ReaderNotStarted,
    ReadOfOtherKind,
    /// A BYTE among several that are started: ACKed at this place alone, at several, at none.
    Acked(usize),
    AckedBySeveral,
    NotAcked,
    /// A TAKE among several: driven at this place by a controller of this kind, ACKed by the host or not; by none.
    Driven(usize, u8, bool),
    NotDriven,
    /// So many records with something driven in one answer.
    Outputs(usize),
    OutputsAllDifferent,
    /// Something driven by a record that a PINS or a RESET did not name.
    OutputsOfAnother,
    /// Nothing driven by a record that is not started and would drive something if it were.
    OutputsNotStarted,
}

/// All that must have come.
pub fn all() -> Vec<Situation> {
    let mut all: Vec<_> = REASONS.iter().map(|&reason| Refused(reason)).collect();
    all.extend(REASONS.iter().flat_map(|&first| first.later().iter().map(move |&later| Before(first, later))));
    all.extend([PinsNotStarted, AbsentByLength, AbsentByLowByte, AbsentByLowHalf, AbsentByAll]);
    all.extend((0..8).flat_map(|kind| (1..=CHASSIS_RECORDS).map(move |count| Accepted(kind, count))));
    all.extend((0..8).map(Mixed));
    all.extend([0, 1, BYTE, TAKE, 5, 7].into_iter().flat_map(|kind| [PassedOver(kind), NumberNotLookedAt(kind)]));
    for place in 0..CHASSIS_RECORDS {
        all.extend([Pins(place), Reset(place), SameAddress(place), Acked(place)]);
        all.extend([(1, false), (1, true), (2, false), (2, true)].map(|(kind, ack)| Driven(place, kind, ack)));
    }
    all.extend([AddressOfNotStarted, ShortPulse, LongPulse, TwinNotStarted, ReaderNotStarted, ReadOfOtherKind]);
    all.extend([AckedBySeveral, NotAcked, NotDriven, OutputsAllDifferent, OutputsOfAnother, OutputsNotStarted]);
    all.extend((1..=CHASSIS_RECORDS).map(Outputs));
    all
}

impl fmt::Display for Situation {
    fn fmt(&self, f: &mut fmt::Formatter) -> fmt::Result {
        match self {
            Refused(reason) => write!(f, "refused with {} for {} alone", reason.number(), reason.name()),
            Before(first, later) => write!(f, "{} for {} before {}", first.number(), first.name(), later.name()),
            other => write!(f, "{:?}", other),
        }
    }
}
