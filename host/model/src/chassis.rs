//! One to four controllers on one bus, request 9 (document 02).
//!
//! What happens on the bus, a TIMEOUT and a TICK come to every controller that is started, as on a wire that they
//! share; pins and the RESET line are each controller's own.

use crate::{unpack, Controller, Event, Refusal, Reply, STATE_BYTES};

/// The most records that a list may have.
pub const CHASSIS_RECORDS: usize = 4;

/// The answer of a list to one event word.
#[derive(Clone, Copy, PartialEq, Eq, Debug)]
pub struct ChassisAnswer {
    pub refusal: Option<Refusal>,
    pub reply: Reply,
    pub outputs: [u16; CHASSIS_RECORDS],
}

impl ChassisAnswer {
    pub fn refused(refusal: Refusal) -> ChassisAnswer {
        ChassisAnswer { refusal: Some(refusal), reply: Reply::None, outputs: [0; CHASSIS_RECORDS] }
    }

    /// Refusal 4 bits, reply 3, byte 8 and a zero bit; then each set of outputs as three hexadecimal digits.
    pub fn bits(&self) -> u64 {
        let refusal = self.refusal.map_or(0, |refusal| refusal as u64);
        let reply = u64::from(self.reply.number());
        let byte = u64::from(self.reply.byte());
        self.outputs.iter().fold(refusal << 12 | reply << 9 | byte << 1, |bits, &set| bits << 12 | u64::from(set))
    }
}

/// A list of any length, of records that are controllers where they are fit.
#[derive(Clone, PartialEq, Eq, Debug)]
pub struct Chassis {
    records: Vec<Option<Controller>>,
}

impl Chassis {
    pub fn new(records: Vec<Option<Controller>>) -> Chassis {
        Chassis { records }
    }

    /// The list whose images these are, one after the other; none where the last is cut.
    pub fn from_images(bytes: &[u8]) -> Option<Chassis> {
        let images = bytes.chunks_exact(STATE_BYTES);
        let is_whole = images.remainder().is_empty();
        is_whole.then(|| Chassis::new(images.map(Controller::from_image).collect()))
    }

    pub fn records(&self) -> &[Option<Controller>] {
        &self.records
    }

    pub fn records_mut(&mut self) -> &mut [Option<Controller>] {
        &mut self.records
    }

    /// One event word; PINS and RESET are for the record of this number. A refused word changes nothing.
    pub fn step(&mut self, record: u64, word: u16) -> ChassisAnswer {
        match self.event(record, word) {
            Ok(event) => {
                let reply = self.take_event(record, event, word);
                ChassisAnswer { refusal: None, reply, outputs: self.outputs() }
            }
            Err(refusal) => ChassisAnswer::refused(refusal),
        }
    }

    /// The word's event, where nothing is against it. The first refusal that applies is the one given.
    fn event(&self, record: u64, word: u16) -> Result<Event, Refusal> {
        if self.records.is_empty() || self.records.len() > CHASSIS_RECORDS {
            return Err(Refusal::ChassisLength);
        }
        if self.records.iter().any(Option::is_none) || self.share_an_address() || self.open_reads() > 1 {
            return Err(Refusal::UnfitState);
        }
        let event = unpack(word).ok_or(Refusal::StrayBit)?;
        match event {
            Event::Pins(_) if !self.named(record)?.started => Err(Refusal::NotStarted),
            Event::Pins(_) => Ok(event),
            Event::Reset { straps, .. } => {
                self.named(record)?;
                let address = Controller { straps, ..Controller::new() }.write_address();
                self.address_is_free(record, address).then_some(event).ok_or(Refusal::TakenAddress)
            }
            _ if self.started().count() == 0 => Err(Refusal::NotStarted),
            _ => Ok(event),
        }
    }

    fn started(&self) -> impl Iterator<Item = &Controller> {
        self.records.iter().flatten().filter(|dock| dock.started)
    }

    fn share_an_address(&self) -> bool {
        let with = |address| self.started().filter(|dock| dock.write_address() == address).count();
        self.started().any(|dock| with(dock.write_address()) > 1)
    }

    fn open_reads(&self) -> usize {
        self.started().filter(|dock| dock.held_byte().is_some()).count()
    }

    fn named(&self, record: u64) -> Result<&Controller, Refusal> {
        let place = usize::try_from(record).map_err(|_| Refusal::AbsentRecord)?;
        self.records.get(place).and_then(Option::as_ref).ok_or(Refusal::AbsentRecord)
    }

    /// Whether no started neighbour of the record has it.
    fn address_is_free(&self, record: u64, address: u8) -> bool {
        let has_it = |dock: &Controller| dock.started && dock.write_address() == address;
        (0..).zip(&self.records).all(|(number, dock)| number == record || !dock.iter().any(has_it))
    }

    /// The reply of the bus: low where anyone pulls it low, so an ACK wins over none, and a byte that is driven over
    /// the ones of an idle line.
    fn take_event(&mut self, record: u64, event: Event, word: u16) -> Reply {
        let is_for_one = matches!(event, Event::Pins(_) | Event::Reset { .. });
        let mut reply = match event {
            Event::Byte(_) => Reply::NoAck,
            Event::Take { .. } => Reply::NotDriven,
            _ => Reply::None,
        };
        for (number, dock) in (0..).zip(self.records.iter_mut().flatten()) {
            if is_for_one && number != record || !is_for_one && !dock.started {
                continue;
            }
            let its = dock.step(word).reply;
            if matches!(its, Reply::Ack | Reply::Driven(_)) {
                reply = its;
            }
        }
        reply
    }

    /// Of every record, whomever the event was for.
    fn outputs(&self) -> [u16; CHASSIS_RECORDS] {
        let mut outputs = [0; CHASSIS_RECORDS];
        for (set, dock) in outputs.iter_mut().zip(self.records.iter().flatten()) {
            *set = dock.outputs();
        }
        outputs
    }
}
