//! A plain controller of the two-bay dock, written from documents 01, 02 and 03 alone.
//!
//! It shares nothing with the proved library but the paper: no code, no table, no definition. Where the two
//! disagree, one of them has misread the paper, and the differential test beside this crate says on which words.
//!
//! ```
//! use model::Controller;
//!
//! let mut dock = Controller::new();
//! dock.step(0xC0BF); // RESET with a USB device in bay 0
//! for word in [0x0000, 0x4090, 0x4014, 0x4004, 0x2000] {
//!     dock.step(word); // a whole write: START, address, register, data, STOP
//! }
//! assert_eq!(dock.reading(0x10), 0x15); // Inserted, status changed, USB present
//! ```

mod answer;
mod batch;
mod bay;
mod bus;
mod chassis;
mod controller;
mod event;
mod first;
mod image;
mod kind;
pub mod numbers;
mod queue;
mod second;
#[cfg(test)]
mod unreached;
mod wire;

pub use answer::{Answer, Refusal, Reply, RECORD_BYTES};
pub use batch::MOST_WORDS;
pub use chassis::{Chassis, ChassisAnswer, CHASSIS_RECORDS};
pub use controller::Controller;
pub use event::{pack, unpack, Event};
pub use image::{is_image, STATE_BYTES};
pub use kind::Kind;
pub use queue::{is_queue_image, Queue, QUEUE_BYTES, QUEUE_WORDS};
pub use wire::{Wire, MOST_SAMPLES, WIRE_BYTES};
