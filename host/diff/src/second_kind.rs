//! Situations of the second kind, by what they are about. Each is counted where that kind is in force before the word.

mod locks;
mod registers;
mod transfers;
mod waits;

use crate::image::{Image, REGISTER, WRITING};
use locks::Locks;
use model::Controller;
use registers::Registers;
use std::fmt;
use transfers::Transfers;
use waits::Waits;

pub use waits::are_in_place;

const CONTROLS: [u8; 2] = [0x10, 0x18];
const STATUSES: [u8; 2] = [0x14, 0x20];
const FORM_FACTORS: [u8; 2] = [0x15, 0x21];
const SUBSYSTEM: u8 = 0x08;
const CAPABILITIES: u8 = 0x0C;
const FEATURES: u8 = 0xFC;

const START: u16 = 0x0000;
const STOP: u16 = 0x2000;
const TICK: u16 = 0xA000;
const TIMEOUT: u16 = 0xE000;

/// A word's kind.
const BYTE: u16 = 2;
const TAKE: u16 = 3;
const PINS: u16 = 4;
const RESET: u16 = 6;

/// A data byte that was written at once, and where.
#[derive(Clone, Copy)]
struct Write {
    register: u8,
    value: u8,
}

/// The write that this word was, if it was one.
fn written(word: u16, before: Image, after: Image) -> Option<Write> {
    match (before.progress(), after.progress()) {
        ([REGISTER | WRITING, register, _], [WRITING, ..]) if word >> 13 == BYTE => {
            Some(Write { register, value: word as u8 })
        }
        _ => None,
    }
}

#[derive(Default)]
pub struct SecondKind {
    transfers: Transfers,
    registers: Registers,
    waits: Waits,
    locks: Locks,
}

impl SecondKind {
    /// A word between these two images; the model is after it.
    pub fn count(&mut self, word: u16, before: Image, after: Image, dock: &Controller) {
        self.transfers.count(word, before, after, dock);
        self.waits.count(word, before, after);
        self.locks.count(word, before, after);
        self.registers.count(word, before, after);
    }

    pub fn missing(&self) -> Vec<String> {
        let parts = [self.transfers.missing(), self.registers.missing(), self.waits.missing(), self.locks.missing()];
        parts.concat()
    }
}

impl std::ops::AddAssign for SecondKind {
    fn add_assign(&mut self, more: SecondKind) {
        self.transfers += more.transfers;
        self.registers += more.registers;
        self.waits += more.waits;
        self.locks += more.locks;
    }
}

impl fmt::Display for SecondKind {
    fn fmt(&self, f: &mut fmt::Formatter) -> fmt::Result {
        write!(f, "{}\n{}\n{}\n{}", self.transfers, self.registers, self.waits, self.locks)
    }
}
