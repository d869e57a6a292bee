//! The bus command in progress. Two forms exist, a write and a read, which begin alike in both kinds. The first kind's
//! are of one byte, and a write is done at its STOP; the second's are as long as the host likes, and each byte is done
//! at once.

use crate::{Controller, Kind, Reply};

/// How far the host has come in a command; `Idle` where none is open.
#[derive(Clone, Copy, PartialEq, Eq, Debug)]
pub enum Command {
    Idle,
    /// START; the own write byte must follow.
    Opened,
    /// The own write byte; a register byte must follow.
    Addressed,
    /// A register byte; a data byte makes it a write, a second START a read.
    Register(u8),
    /// The second START of a read; the own read byte must follow.
    Restarted(u8),
    /// First kind: a whole write but for its STOP.
    Data {
        register: u8,
        value: u8,
    },
    /// First kind: the own read byte has come and the value is fixed; a TAKE must follow.
    Driving(u8),
    /// Second kind: a data byte was written, and the next one goes to this register.
    Writing(u8),
    /// Second kind: the value was read at this register, and the next TAKE gives it.
    Reading {
        register: u8,
        value: u8,
    },
}

impl Command {
    /// A START opens a command, makes a read of a register byte, or is misplaced and ends what was open.
    fn start(self) -> Command {
        match self {
            Command::Idle => Command::Opened,
            Command::Register(register) => Command::Restarted(register),
            _ => Command::Idle,
        }
    }

    /// Whether a controller of this kind can have come so far.
    pub fn is_of(self, kind: Kind) -> bool {
        match self {
            Command::Data { .. } | Command::Driving(_) => kind == Kind::First,
            Command::Writing(_) | Command::Reading { .. } => kind == Kind::Second,
            _ => true,
        }
    }
}

/// The address byte for writing at SMB_A 0.
const BASE_ADDRESS: u8 = 0x90;

impl Controller {
    /// The own address byte for writing; the one for reading is one more.
    pub fn write_address(&self) -> u8 {
        BASE_ADDRESS + 2 * (self.straps >> 2)
    }

    /// A place in a command of the other kind counts as none.
    fn open_command(&self) -> Command {
        if self.command.is_of(self.kind) {
            self.command
        } else {
            Command::Idle
        }
    }

    /// The byte that an open read holds: fixed at the own read byte or, in the second kind, at a TAKE that the host
    /// ACKed, for the next TAKE. A controller that has had no RESET has no read open.
    pub fn held_byte(&self) -> Option<u8> {
        match self.open_command() {
            Command::Driving(value) | Command::Reading { value, .. } if self.started => Some(value),
            _ => None,
        }
    }

    pub(crate) fn start(&mut self) {
        self.command = self.open_command().start();
    }

    pub(crate) fn stop(&mut self) {
        if let Command::Data { register, value } = self.open_command() {
            self.write(register, value);
        }
        self.command = Command::Idle;
    }

    /// A byte goes on with the command or ends it, and is acknowledged exactly in the first case.
    pub(crate) fn byte(&mut self, value: u8) -> Reply {
        self.command = match self.open_command() {
            Command::Opened if value == self.write_address() => Command::Addressed,
            Command::Addressed => Command::Register(value),
            Command::Register(register) | Command::Writing(register) => self.data(register, value),
            Command::Restarted(register) if value == self.write_address() + 1 => self.drive(register),
            _ => Command::Idle,
        };
        if self.command == Command::Idle {
            Reply::NoAck
        } else {
            Reply::Ack
        }
    }

    /// A data byte waits for its STOP, or is written at once and leaves the next register to another.
    fn data(&mut self, register: u8, value: u8) -> Command {
        match self.kind {
            Kind::First => Command::Data { register, value },
            Kind::Second => {
                self.write(register, value);
                Command::Writing(register.wrapping_add(1))
            }
        }
    }

    /// The value is fixed here; what the pins do before the TAKE no longer matters.
    fn drive(&self, register: u8) -> Command {
        let value = self.reading(register);
        match self.kind {
            Kind::First => Command::Driving(value),
            Kind::Second => Command::Reading { register, value },
        }
    }

    /// A TAKE gives the byte that was fixed before it. Only a read of the second kind goes on, where the host asks for
    /// more by its ACK.
    pub(crate) fn take(&mut self, ack: bool) -> Reply {
        let (reply, next) = match self.open_command() {
            Command::Driving(value) => (Reply::Driven(value), Command::Idle),
            Command::Reading { register, value } if ack => (Reply::Driven(value), self.drive(register.wrapping_add(1))),
            Command::Reading { value, .. } => (Reply::Driven(value), Command::Idle),
            _ => (Reply::NotDriven, Command::Idle),
        };
        self.command = next;
        reply
    }
}
