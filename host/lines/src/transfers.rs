//! What the host does, and what must have come of it.

use crate::host::Host;
use model::Kind;

/// How long levels last, in samples, from a bus as fast as the dock can take to a slow one.
const PACES: [usize; 5] = [1, 2, 4, 10, 40];

/// The most samples that the dock takes at a time.
const MOST_BATCH: usize = 4;

/// .. and for how many samples a slow one pulls SCLK low while it works.
const MOST_SLOWNESS: usize = 60;

/// Registers that show what was written: in the first kind any byte of 42h; in the second 08h to 0Bh, once.
const WAIT_TIME: u8 = 0x42;
const SUBSYSTEM: u8 = 0x08;
const SUBSYSTEM_BYTES: usize = 4;

const FIRST_KIND: u8 = 1;
const SECOND_KIND: u8 = 2;

/// Addresses of nobody here.
const OTHERS: [u8; 4] = [0x00, 0x12, 0xA0, 0xD2];

#[derive(Default)]
pub struct Counts {
    pub transfers: usize,
    pub sent: usize,
    pub received: usize,
    pub second_kind: usize,
    pub given_up: usize,
    pub slow: usize,
}

pub struct Transfers {
    pub host: Host,
    pub counts: Counts,
}

impl Transfers {
    pub fn new(host: Host) -> Transfers {
        Transfers { host, counts: Counts::default() }
    }

    fn below(&mut self, limit: usize) -> usize {
        self.host.bus.random.below(limit)
    }

    fn one_in(&mut self, chances: usize) -> bool {
        self.host.bus.random.one_in(chances)
    }

    fn byte(&mut self) -> u8 {
        self.host.bus.random.byte()
    }

    fn own(&self) -> u8 {
        self.host.bus.board.own_address()
    }

    fn kind(&self) -> Kind {
        self.host.bus.board.kind()
    }

    pub fn one(&mut self) -> Result<(), String> {
        if self.counts.transfers == 0 || self.one_in(30) {
            self.restart()?;
        }
        self.choose_pace();
        match self.below(40) {
            0 => self.given_up()?,
            1 => self.host.damage()?,
            2..=4 => self.other()?,
            5..=7 => self.half_byte()?,
            8..=12 => self.shown()?,
            13..=24 => self.write()?,
            _ => self.read()?,
        }
        self.finish()
    }

    /// A slow dock pulls SCLK low at once, so it takes each sample as it comes.
    fn choose_pace(&mut self) {
        let pace = self.host.bus.random.pick(&PACES);
        if self.one_in(4) {
            let slowness = 1 + self.below(MOST_SLOWNESS);
            self.host.set_pace(pace, 1, slowness);
            self.counts.slow += 1;
        } else {
            let batch = 1 + self.below(MOST_BATCH);
            self.host.set_pace(pace, batch, 0);
        }
    }

    fn finish(&mut self) -> Result<(), String> {
        let (sent, received) = self.host.finish()?;
        self.counts.transfers += 1;
        self.counts.second_kind += usize::from(self.kind() == Kind::Second);
        self.counts.sent += sent;
        self.counts.received += received;
        Ok(())
    }

    /// Into either kind. In the second, the bytes that are written once are written in one transfer.
    fn restart(&mut self) -> Result<(), String> {
        let kind = if self.one_in(2) { FIRST_KIND } else { SECOND_KIND };
        let (straps, levels) = (self.byte() & 0x0F, self.byte());
        self.host.bus.board.restart(kind, straps, levels)?;
        if self.kind() == Kind::Second {
            let values: [u8; SUBSYSTEM_BYTES] = [self.byte(), self.byte(), self.byte(), self.byte()];
            self.write_all(SUBSYSTEM, &values)?;
            self.finish()?;
            (SUBSYSTEM..).zip(values).try_for_each(|(register, value)| self.must_read(register, value))?;
        }
        Ok(())
    }

    fn must_read(&self, register: u8, value: u8) -> Result<(), String> {
        match self.host.bus.board.reading(register)? {
            read if read == value => Ok(()),
            read => Err(format!("{:02X}h was written to register {:02X}h, which reads {:02X}h", value, register, read)),
        }
    }

    fn write_all(&mut self, register: u8, values: &[u8]) -> Result<(), String> {
        self.host.start()?;
        self.host.send(self.own())?;
        self.host.send(register)?;
        for &value in values {
            self.host.send(value)?;
        }
        self.host.stop()
    }

    /// One that shows at once.
    fn shown(&mut self) -> Result<(), String> {
        let value = self.byte();
        self.write_all(WAIT_TIME, &[value])?;
        let shown = if self.kind() == Kind::First { value } else { 0 };
        self.must_read(WAIT_TIME, shown)
    }

    /// Of any register, with any number of bytes; in the first kind, more than one makes it no command.
    fn write(&mut self) -> Result<(), String> {
        let register = self.register();
        let count = if self.one_in(4) { self.below(5) } else { 1 };
        let values: Vec<u8> = (0..count).map(|_| self.byte()).collect();
        self.write_all(register, &values)
    }

    /// Mostly one that is there.
    fn register(&mut self) -> u8 {
        const THERE: [u8; 13] = [0x00, 0x04, 0x08, 0x0C, 0x10, 0x14, 0x18, 0x1C, 0x20, 0x40, 0x42, 0xFC, 0xFE];
        if self.one_in(4) {
            self.byte()
        } else {
            self.host.bus.random.pick(&THERE)
        }
    }

    /// Up to the own read byte.
    fn open_read(&mut self) -> Result<(), String> {
        let register = self.register();
        self.host.start()?;
        self.host.send(self.own())?;
        self.host.send(register)?;
        self.host.start()?;
        self.host.bus.board.expect_read(register);
        self.host.send(self.own() | 1).map(|_| ())
    }

    /// Of some bytes, the last of which is not acknowledged; sometimes the host clocks in more after it, or goes on with
    /// a START.
    fn read(&mut self) -> Result<(), String> {
        self.open_read()?;
        let count = if self.one_in(2) { 1 } else { 1 + self.below(6) };
        (1..=count).try_for_each(|taken| self.host.receive(taken < count))?;
        if self.one_in(10) {
            self.host.receive(false)?;
        }
        if self.one_in(10) {
            self.host.start()?;
            self.host.send(self.own())?;
        }
        self.host.stop()
    }

    /// To somebody else: nobody acknowledges and nobody drives.
    fn other(&mut self) -> Result<(), String> {
        let address = self.host.bus.random.pick(&OTHERS) | u8::from(self.one_in(2));
        self.host.start()?;
        let mut seen = self.host.send(address)?;
        for _ in 0..self.below(3) {
            if address & 1 == 1 {
                self.host.receive(true)?;
            } else {
                let value = self.byte();
                seen |= self.host.send(value)?;
            }
        }
        self.host.stop()?;
        if seen {
            return Err(format!("address {:02X}h was acknowledged", address));
        }
        Ok(())
    }

    /// A few bits in the place of a byte, dropped by a START or a STOP.
    fn half_byte(&mut self) -> Result<(), String> {
        let (value, count) = (self.byte(), 1 + self.below(6));
        self.host.start()?;
        if self.one_in(2) {
            self.host.send(self.own())?;
        }
        self.host.send_bits(value, count)?;
        if self.one_in(2) {
            self.host.start()?;
            self.host.send(self.own())?;
        }
        self.host.stop()
    }

    /// Anywhere in a write or in a read, also in a byte that the dock drives.
    fn given_up(&mut self) -> Result<(), String> {
        if self.one_in(2) {
            self.host.start()?;
            self.host.send(self.own())?;
            let (value, count) = (self.byte(), self.below(8));
            self.host.send_bits(value, count)?;
        } else {
            self.open_read()?;
            let count = self.below(9);
            self.host.receive_bits(count)?;
        }
        self.counts.given_up += 1;
        self.host.give_up()
    }
}
