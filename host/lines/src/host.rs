//! A host that drives the lines sample by sample, with levels of any length.

use crate::board::Said;
use crate::bus::Bus;
use paper::words::{byte, take, START, STOP, TIMEOUT};

/// Samples for which the lines are high between transfers, at the least.
const IDLE: usize = 8;

pub struct Host {
    pub bus: Bus,
    /// How long a level of SCLK lasts at most, beyond what the dock needs.
    pace: usize,
    /// What the host saw in this transfer: ACKs of its bytes, and the bytes that it clocked in.
    acks: Vec<bool>,
    bytes: Vec<u8>,
}

impl Host {
    pub fn new(bus: Bus) -> Host {
        Host { bus, pace: 1, acks: Vec::new(), bytes: Vec::new() }
    }

    /// The next transfer's: how fast the host is, how many samples the dock takes at a time, and how slow it is.
    pub fn set_pace(&mut self, pace: usize, batch: usize, slowness: usize) {
        self.pace = pace;
        self.bus.board.batch = batch;
        self.bus.board.slowness = slowness;
    }

    fn wait(&mut self, samples: usize) -> Result<(), String> {
        (0..samples).try_for_each(|_| self.bus.pass())
    }

    /// The dock sees a fall when its samples are taken, and has SDAT set a sample before the rise.
    fn stay_low(&mut self) -> Result<(), String> {
        let least = self.bus.board.batch + 1;
        let samples = self.bus.random.between(least, least + self.pace);
        self.wait(samples)
    }

    fn stay_high(&mut self) -> Result<(), String> {
        let samples = self.bus.random.between(1, self.pace);
        self.wait(samples)
    }

    /// Lets SCLK go, and waits for as long as another holds it. Ends with the first high sample.
    fn raise_clock(&mut self) -> Result<(), String> {
        self.bus.pull_clock(false);
        self.bus.pass()?;
        while !self.bus.clock() {
            self.bus.pass()?;
        }
        Ok(())
    }

    /// From a low SCLK to a low SCLK. SDAT is set after the fall; its level under the high SCLK is given.
    fn clock(&mut self, bit: bool) -> Result<bool, String> {
        self.bus.pull_data(!bit);
        self.stay_low()?;
        self.raise_clock()?;
        let seen = self.bus.data();
        self.stay_high()?;
        self.bus.pull_clock(true);
        self.bus.pass()?;
        Ok(seen)
    }

    /// From idle lines, or within a transfer from a low SCLK; ends with a low SCLK.
    pub fn start(&mut self) -> Result<(), String> {
        if !self.bus.clock() {
            self.bus.pull_data(false);
            self.stay_low()?;
            self.raise_clock()?;
            self.stay_high()?;
        }
        self.bus.board.expect(START);
        self.bus.end_data(true);
        self.stay_high()?;
        self.bus.pull_clock(true);
        self.bus.pass()
    }

    pub fn stop(&mut self) -> Result<(), String> {
        self.bus.pull_data(true);
        self.stay_low()?;
        self.raise_clock()?;
        self.stay_high()?;
        self.bus.board.expect(STOP);
        self.bus.end_data(false);
        self.idle()
    }

    /// Both lines high for a while.
    pub fn idle(&mut self) -> Result<(), String> {
        let samples = self.bus.random.between(IDLE, IDLE + self.pace);
        self.wait(samples)
    }

    pub fn send_bits(&mut self, value: u8, count: usize) -> Result<(), String> {
        (0..count).try_for_each(|place| self.clock(value << place & 0x80 != 0).map(|_| ()))
    }

    /// Whether it was acknowledged.
    pub fn send(&mut self, value: u8) -> Result<bool, String> {
        self.bus.board.expect(byte(value));
        self.send_bits(value, 8)?;
        let ack = !self.clock(true)?;
        self.acks.push(ack);
        Ok(ack)
    }

    pub fn receive_bits(&mut self, count: usize) -> Result<u8, String> {
        (0..count).try_fold(0, |value, _| Ok(value << 1 | u8::from(self.clock(true)?)))
    }

    pub fn receive(&mut self, ack: bool) -> Result<(), String> {
        self.bus.board.expect(take(ack));
        let value = self.receive_bits(8)?;
        if self.clock(!ack)? == ack {
            return Err("the dock pulls SDAT in the host's own ninth clock".to_string());
        }
        self.bytes.push(value);
        Ok(())
    }

    /// SCLK, which is low, is held by another until the dock has given up; the host lets go of both lines.
    pub fn give_up(&mut self) -> Result<(), String> {
        self.bus.board.expect(TIMEOUT);
        self.bus.hold_too_long();
        self.bus.pull_data(false);
        self.raise_clock()?;
        self.idle()
    }

    /// Damage to what the driver holds, on idle lines.
    pub fn damage(&mut self) -> Result<(), String> {
        self.bus.board.damage();
        self.idle()
    }

    /// What host and dock take the transfer for. The bytes that it had, sent and clocked in.
    pub fn finish(&mut self) -> Result<(usize, usize), String> {
        let said = self.bus.board.finish()?;
        let (acks, bytes) = (std::mem::take(&mut self.acks), std::mem::take(&mut self.bytes));
        check(&said, &acks, &bytes)?;
        Ok((acks.len(), bytes.len()))
    }
}

/// A byte that was decided is not read to its end where the host gives up; one that no register decided is FFh.
fn check(said: &Said, acks: &[bool], bytes: &[u8]) -> Result<(), String> {
    if said.acks != acks {
        return Err(format!("the host saw the ACKs {:?}, the core said {:?}", acks, said.acks));
    }
    if said.driven != bytes {
        return Err(format!("the host read {:02X?}, the core said {:02X?}", bytes, said.driven));
    }
    let read = said.readings.iter().copied().chain(std::iter::repeat(0xFF)).take(bytes.len());
    if !read.clone().eq(bytes.iter().copied()) {
        return Err(format!("the host read {:02X?}, the registers {:02X?}", bytes, read.collect::<Vec<_>>()));
    }
    Ok(())
}
