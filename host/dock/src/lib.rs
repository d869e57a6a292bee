//! The proved controller of the two-bay dock, held by a program. No std, no allocation.
//!
//! A [`Dock`] is a controller as the [`STATE_BYTES`] bytes of its state. It takes one event at a time, or a batch of
//! words into bytes lent; its bytes can be kept and put back, and any bytes at all may come back.
//!
//! ```
//! use dock::{Bay, Dock, Event, Reply};
//!
//! let mut dock = Dock::new()?;
//! dock.event(Event::Reset { straps: 0, levels: 0xBF, short_pulse: false })?; // a USB device in bay 0
//! let step = dock.event(Event::Start)?;
//! assert_eq!(step.reply, Reply::None);
//! let step = dock.event(Event::Byte(0x90))?; // the dock's own address
//! assert_eq!(step.reply, Reply::Ack);
//! assert!(!step.outputs.power(Bay::Zero));
//! # Ok::<(), dock::Error>(())
//! ```
//!
//! It is a controller of the first [`Kind`], the DBC98C51, or of the second, the CDP1020 of older backplanes:
//! [`Dock::name_kind`] says which, from the next RESET on. A whole history in one call ([`replay`]) is of the first.
//!
//! Where a processor has no bus cell, a [`Wire`] makes the bus events of samples of the two lines. Words that come while
//! the main loop is busy wait in a [`Queue`]. One to four controllers on one bus are a [`Chassis`].
//!
//! Any words, any numbers, any bytes and slices of any length are taken: a call returns, and what it cannot do it
//! refuses and changes nothing. No call panics. A number that this version has no name for is an error.
//!
//! The feature `error`, which is on by default, makes the errors implement `core::error::Error` and needs a compiler
//! from 1.81 on; without it 1.63 is enough.
#![no_std]
#![deny(unsafe_code)]

mod answer;
mod chassis;
mod error;
mod event;
pub mod ffi;
mod held;
mod kind;
mod outputs;
mod queue;
mod register;
mod reply;
mod version;
mod wire;

pub use answer::{records, ChassisStep, Record, Step};
pub use chassis::Chassis;
pub use error::{Error, Refusal, Unnamed};
pub use event::{read, write, Event};
pub use held::Dock;
pub use kind::Kind;
pub use outputs::Outputs;
pub use queue::Queue;
pub use register::{Bay, BayState, Register, SecondRegister, Status};
pub use reply::Reply;
pub use version::{check_library, version, Version, WRITTEN_FOR};
pub use wire::Wire;

use answer::{numbers, value};

/// The bytes of a state's image.
pub const STATE_BYTES: usize = 74;

/// The most words of one call; a longer list is refused with [`Refusal::TooManyWords`].
pub const MOST_WORDS: usize = 16_384;

/// The bytes of one record.
pub const RECORD_BYTES: usize = 4;

/// The bytes of the image of a wire cell's state.
pub const WIRE_BYTES: usize = 7;

/// The most samples of one call; a longer list is refused with [`Refusal::TooManyWords`].
pub const MOST_SAMPLES: usize = 16_384;

/// The bytes of the image of a queue.
pub const QUEUE_BYTES: usize = 261;

/// The most words that wait; one more is refused with [`Refusal::QueueFull`].
pub const QUEUE_WORDS: usize = 128;

/// The most controllers in a chassis; a list of more, or of none, is refused with [`Refusal::ChassisLength`].
pub const CHASSIS_RECORDS: usize = 4;

/// The lines in a sample.
pub const SDAT: u8 = 1;
pub const SCLK: u8 = 2;

/// A whole history in one call: the words from a fresh controller, which is of the first kind, with records as [`Dock::batch`] writes them.
///
/// ```
/// let mut records = [0; 8];
/// assert_eq!(dock::replay(&[0xC0BF, 0x0000], &mut records)?, 2);
/// assert_eq!(dock::replay(&[0xC0BF, 0x0000], &mut records[1..]), Err(dock::Refusal::ShortAnswers.into()));
/// # Ok::<(), dock::Error>(())
/// ```
pub fn replay(words: &[u16], records: &mut [u8]) -> Result<usize, Error> {
    Ok(value(ffi::replay(words, records))?.into())
}

/// The word of the event with this kind and these two numbers; see the header for which kind has which.
/// Refused with [`Refusal::StrayBit`] where no event has them, and with [`Refusal::WideStraps`] above 15.
pub fn pack(kind: u8, first: u16, second: u8) -> Result<u16, Error> {
    value(ffi::pack(kind, first, second))
}

/// The two numbers of a word's event, whose kind is bits 15-13 of the word; refused with [`Refusal::StrayBit`].
pub fn unpack(word: u16) -> Result<(u16, u8), Error> {
    numbers(ffi::unpack(word))
}
