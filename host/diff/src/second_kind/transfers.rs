//! Transfers: how they go on, where the number goes over FFh, which byte is sent, and what breaks them off.

use super::{BYTE, RESET, START, STOP, TAKE, TIMEOUT};
use crate::image::{Image, READING, REGISTER, WRITING};
use crate::situations::situations;
use model::Controller;

situations!(
    Transfers,
    "transfers of the second kind",
    NoBytes: "written without a byte",
    FirstByte: "written with a byte",
    FurtherByte: "written on",
    WritesOverFf: "written over FFh",
    Stopped: "written to their STOP",
    WriteStart: "written and broken off by START",
    WriteTake: "written and broken off by TAKE",
    WriteTimeout: "written and broken off by TIMEOUT",
    WriteReset: "written and broken off by RESET",
    Acked: "read on by ACK",
    ReadsOverFf: "read over FFh",
    Nacked: "read to their NACK",
    ReadStart: "read and broken off by START",
    ReadStop: "read and broken off by STOP",
    ReadByte: "read and broken off by BYTE",
    ReadTimeout: "read and broken off by TIMEOUT",
    ReadReset: "read and broken off by RESET",
    Changed: "with a byte that has changed since it was read",
    BareRead: "begun with the own read byte",
    WriteByteAgain: "with the own write byte after the second START",
);

/// A transfer after its first START, and after its second.
const OPENED: u8 = 1;
const AGAIN: u8 = 5;

impl Transfers {
    pub fn count(&mut self, word: u16, before: Image, after: Image, dock: &Controller) {
        let own = dock.write_address();
        match before.progress() {
            [OPENED, ..] => self.came(Came::BareRead, word == BYTE << 13 | u16::from(own | 1)),
            [AGAIN, ..] => self.came(Came::WriteByteAgain, word == BYTE << 13 | u16::from(own)),
            [REGISTER, ..] => self.came(Came::NoBytes, word == STOP),
            [WRITING, ..] => self.writing(word),
            [READING, register, value] => {
                self.reading(word, register);
                self.came(Came::Changed, word >> 13 == TAKE && dock.reading(register) != value);
            }
            _ => {}
        }
        if let Some(write) = super::written(word, before, after) {
            let further = before.progress()[0] == WRITING;
            self.came(Came::FirstByte, !further);
            self.came(Came::FurtherByte, further);
            self.came(Came::WritesOverFf, write.register == 0xFF);
        }
    }

    fn writing(&mut self, word: u16) {
        self.came(Came::Stopped, word == STOP);
        self.came(Came::WriteStart, word == START);
        self.came(Came::WriteTake, is_take(word));
        self.came(Came::WriteTimeout, word == TIMEOUT);
        self.came(Came::WriteReset, word >> 13 == RESET);
    }

    fn reading(&mut self, word: u16, register: u8) {
        let acked = word == TAKE << 13 | 1;
        self.came(Came::Acked, acked);
        self.came(Came::ReadsOverFf, acked && register == 0xFF);
        self.came(Came::Nacked, word == TAKE << 13);
        self.came(Came::ReadStart, word == START);
        self.came(Came::ReadStop, word == STOP);
        self.came(Came::ReadByte, word >> 8 == BYTE << 5);
        self.came(Came::ReadTimeout, word == TIMEOUT);
        self.came(Came::ReadReset, word >> 13 == RESET);
    }
}

fn is_take(word: u16) -> bool {
    word & !1 == TAKE << 13
}
