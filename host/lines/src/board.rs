//! The dock's side of the lines: samples to the driver, its words to the core, and what the core says kept for the host to
//! be held against. The model is given the same words.

use crate::driver::Driver;
use dock::{ffi, Record, Reply, SCLK, SDAT, STATE_BYTES};
use model::{unpack, Controller, Event, Kind};
use paper::words::{pins, reset, TICK, TIMEOUT};
use std::collections::VecDeque;
use trial::Random;

/// A tick or a change of pins comes once in so many samples, far more often than in a dock.
const CHANCES_OF_OTHERS: usize = 400;

/// What the core said within a transfer, for the host to be held against.
#[derive(Default)]
pub struct Said {
    /// To each BYTE.
    pub acks: Vec<bool>,
    /// At each TAKE.
    pub driven: Vec<u8>,
    /// What the register read when the byte for the next TAKE was decided.
    pub readings: Vec<u8>,
}

pub struct Board {
    driver: Driver,
    state: [u8; STATE_BYTES],
    model: Controller,
    pulls: bool,
    /// The samples that came, given to the driver so many at a time.
    samples: Vec<u8>,
    pub batch: usize,
    /// A slow processor pulls SCLK low from its fall on, until it has taken so many samples more and set SDAT.
    pub slowness: usize,
    /// For how many samples it still does.
    busy: usize,
    was_high: bool,
    /// The words that the host's doings mean, not yet heard.
    meant: VecDeque<u16>,
    /// The register that a read of the host's has come to.
    reads: Option<u8>,
    pub said: Said,
}

/// The answer's value; the library is asked for nothing that it refuses.
fn value(answer: u32) -> Result<u16, String> {
    match answer >> 16 {
        0 => Ok(answer as u16),
        refusal => Err(format!("refused with {}", refusal)),
    }
}

impl Board {
    pub fn new() -> Result<Board, String> {
        let mut state = [0; STATE_BYTES];
        value(ffi::begin(&mut state))?;
        Ok(Board {
            driver: Driver::new(),
            state,
            model: Controller::new(),
            pulls: false,
            samples: Vec::new(),
            batch: 1,
            slowness: 0,
            busy: 0,
            was_high: false,
            meant: VecDeque::new(),
            reads: None,
            said: Said::default(),
        })
    }

    /// Between transfers.
    pub fn restart(&mut self, kind: u8, straps: u8, levels: u8) -> Result<(), String> {
        value(ffi::name_kind(&mut self.state, kind))?;
        self.model.name_kind(kind).map_err(|refusal| format!("{:?}", refusal))?;
        self.step(reset(straps, levels)).map(|_| ())
    }

    pub fn own_address(&self) -> u8 {
        self.model.write_address()
    }

    pub fn kind(&self) -> Kind {
        self.model.kind()
    }

    pub fn reading(&self, register: u8) -> Result<u8, String> {
        Ok(value(ffi::reading(&self.state, register))? as u8)
    }

    pub fn pulls_data(&self) -> bool {
        self.pulls
    }

    pub fn pulls_clock(&self) -> bool {
        self.busy > 0
    }

    /// The host is about to do what means this word.
    pub fn expect(&mut self, word: u16) {
        self.meant.push_back(word);
    }

    /// The host is about to read from this register on.
    pub fn expect_read(&mut self, register: u8) {
        self.reads = Some(register);
    }

    /// A flipped bit in RAM, by which the bytes are no image: the driver starts anew and ends what was open.
    pub fn damage(&mut self) {
        self.driver.damage(0);
        self.expect(TIMEOUT);
    }

    /// One sample; the six bits that mean nothing are by lot. Whether SDAT was moved.
    pub fn sample(&mut self, random: &mut Random, clock: bool, data: bool) -> Result<bool, String> {
        let lines = if clock { SCLK } else { 0 } | if data { SDAT } else { 0 };
        self.samples.push(random.byte() & !(SCLK | SDAT) | lines);
        if self.is_late(clock) || self.samples.len() < self.batch {
            return Ok(false);
        }
        if random.one_in(CHANCES_OF_OTHERS) {
            let word = if random.one_in(2) { TICK } else { pins(random.byte()) };
            self.step(word)?;
        }
        self.listen()?;
        let pulled = std::mem::replace(&mut self.pulls, self.driver.pulls(&self.state));
        Ok(pulled != self.pulls)
    }

    /// SDAT is set a sample before SCLK is let go.
    fn is_late(&mut self, clock: bool) -> bool {
        if std::mem::replace(&mut self.was_high, clock) && !clock && self.slowness > 0 {
            self.busy = self.slowness + 2;
        }
        self.busy = self.busy.saturating_sub(1);
        self.busy > 1
    }

    /// What a firmware does when samples have come.
    fn listen(&mut self) -> Result<(), String> {
        let samples = std::mem::take(&mut self.samples);
        for word in self.driver.listen(&samples) {
            if self.meant.pop_front() != Some(word) {
                return Err(format!("the wire cell gave {:04X}h, which is not what the host did", word));
            }
            let record = self.step(word)?;
            self.driver.heed(word, record);
            self.keep(word, record)?;
        }
        Ok(())
    }

    /// To the core and to the model.
    fn step(&mut self, word: u16) -> Result<u32, String> {
        let record = ffi::step(&mut self.state, word);
        let model = self.model.step(word);
        if record != model.bits() || self.state != self.model.image() {
            return Err(format!(
                "word {:04X}h: the core answers {:08X}h, the model {:08X}h",
                word,
                record,
                model.bits()
            ));
        }
        Ok(record)
    }

    fn keep(&mut self, word: u16, record: u32) -> Result<(), String> {
        let record = Record::try_from(record).map_err(|unnamed| unnamed.to_string())?;
        match (unpack(word), record.reply) {
            (Some(Event::Byte(value)), reply) => {
                self.said.acks.push(reply == Reply::Ack);
                if reply == Reply::Ack && value == self.own_address() | 1 {
                    self.decide(0)?;
                }
            }
            (Some(Event::Take { ack }), Reply::Driven(byte)) => {
                self.said.driven.push(byte);
                if ack && self.kind() == Kind::Second {
                    self.decide(1)?;
                }
            }
            (Some(Event::Take { .. }), _) => self.said.driven.push(0xFF),
            _ => (),
        }
        Ok(())
    }

    /// The byte of the next TAKE is decided now: the register so many after the last.
    fn decide(&mut self, after: u8) -> Result<(), String> {
        if let Some(last) = self.reads {
            let register = last.wrapping_add(after);
            self.said.readings.push(self.reading(register)?);
            self.reads = Some(register);
        }
        Ok(())
    }

    /// Ends a transfer: all that the host did was heard. Gives what the core said meanwhile.
    pub fn finish(&mut self) -> Result<Said, String> {
        if let Some(word) = self.meant.front() {
            return Err(format!("the wire cell never gave {:04X}h", word));
        }
        if self.pulls {
            return Err("SDAT is still pulled".to_string());
        }
        self.reads = None;
        Ok(std::mem::take(&mut self.said))
    }
}
