//! Why a call gave nothing.

use crate::Version;
use core::fmt;

/// Why a call or a word was refused, with the paper's numbers.
#[derive(Clone, Copy, PartialEq, Eq, Debug)]
pub enum Refusal {
    UnfitState = 1,
    StrayBit = 2,
    NotStarted = 3,
    ShortAnswers = 4,
    TooManyWords = 5,
    WideStraps = 6,
    QueueFull = 7,
    QueueEmpty = 8,
    ChassisLength = 9,
    AbsentRecord = 10,
    TakenAddress = 11,
    NoSuchKind = 14,
}

impl TryFrom<u16> for Refusal {
    type Error = Unnamed;

    /// 0 is no refusal, so it is no number of one either.
    fn try_from(number: u16) -> Result<Refusal, Unnamed> {
        Ok(match number {
            1 => Refusal::UnfitState,
            2 => Refusal::StrayBit,
            3 => Refusal::NotStarted,
            4 => Refusal::ShortAnswers,
            5 => Refusal::TooManyWords,
            6 => Refusal::WideStraps,
            7 => Refusal::QueueFull,
            8 => Refusal::QueueEmpty,
            9 => Refusal::ChassisLength,
            10 => Refusal::AbsentRecord,
            11 => Refusal::TakenAddress,
            14 => Refusal::NoSuchKind,
            _ => return Err(Unnamed { what: "refusal", number: u32::from(number) }),
        })
    }
}

impl fmt::Display for Refusal {
    fn fmt(&self, f: &mut fmt::Formatter) -> fmt::Result {
        f.write_str(match self {
            Refusal::UnfitState => "the bytes are no image of a fit state",
            Refusal::StrayBit => "a bit that must be 0 is set",
            Refusal::NotStarted => "no RESET has come yet",
            Refusal::ShortAnswers => "fewer than four record bytes for each word, or fewer places than samples",
            Refusal::TooManyWords => "more than 16,384 words or samples",
            Refusal::WideStraps => "straps above 15",
            Refusal::QueueFull => "128 words wait already",
            Refusal::QueueEmpty => "no word waits",
            Refusal::ChassisLength => "a chassis of none or of more than four controllers",
            Refusal::AbsentRecord => "PINS or RESET for a controller that is not there",
            Refusal::TakenAddress => "a RESET to the address of another controller",
            Refusal::NoSuchKind => "a number that no kind of controller has",
        })
    }
}

/// A number that this version of the crate has no name for. It is told as it came and never taken for another.
#[derive(Clone, Copy, PartialEq, Eq, Debug)]
pub struct Unnamed {
    pub what: &'static str,
    pub number: u32,
}

impl fmt::Display for Unnamed {
    fn fmt(&self, f: &mut fmt::Formatter) -> fmt::Result {
        write!(f, "a {} with the unknown number {:X}h", self.what, self.number)
    }
}

/// Why a call gave nothing.
#[derive(Clone, Copy, PartialEq, Eq, Debug)]
pub enum Error {
    /// The library refused the call or the word, and changed nothing.
    Refused(Refusal),
    /// The library answered with a number that this crate doesn't name, so what it did can't be told. One with the
    /// first number that this crate was written for never does.
    Unnamed(Unnamed),
    /// The library that was linked has another first number than the one that this crate was written for. Nothing was
    /// asked of it but that.
    OtherLibrary(Version),
}

impl From<Refusal> for Error {
    fn from(refusal: Refusal) -> Error {
        Error::Refused(refusal)
    }
}

impl From<Unnamed> for Error {
    fn from(unnamed: Unnamed) -> Error {
        Error::Unnamed(unnamed)
    }
}

impl fmt::Display for Error {
    fn fmt(&self, f: &mut fmt::Formatter) -> fmt::Result {
        match self {
            Error::Refused(refusal) => write!(f, "refused: {}", refusal),
            Error::Unnamed(unnamed) => write!(f, "the library answered {}", unnamed),
            Error::OtherLibrary(version) => write!(f, "the linked library has version {}", version),
        }
    }
}

#[cfg(feature = "error")]
impl core::error::Error for Refusal {}

#[cfg(feature = "error")]
impl core::error::Error for Unnamed {}

#[cfg(feature = "error")]
impl core::error::Error for Error {}
