//! The controller: its state, one event at a time, and what both kinds have in common.

use crate::bay::{Bay, Rules};
use crate::bus::Command;
use crate::second::Registers;
use crate::{first, second, unpack, Answer, Event, Kind, Refusal, Reply};

const PHASES: u8 = 200;

/// Where both kinds have DBCCR, and its bit above the bay count.
pub(crate) const DBCCR: u8 = 0x0C;
const SECLOCK: u8 = 0x10;

/// Where a kind has the registers of the two bays.
pub(crate) struct BayAddresses {
    pub(crate) status: [u8; 2],
    pub(crate) control: [u8; 2],
}

/// What differs by kind in a RESET: LOCK_CTL of both bays, LETR and the bay count.
pub(crate) struct Start {
    pub(crate) lock: bool,
    pub(crate) lock_time: u8,
    pub(crate) bay_count: u8,
}

/// The whole controller. A fresh one waits for its first RESET. Its fields are those of the paper and no others, so
/// that it can be in every state that the paper calls fit, also in one that no list of words leads to.
#[derive(Clone, PartialEq, Eq, Debug)]
pub struct Controller {
    pub(crate) started: bool,
    /// The kind in force, and the one that the next RESET puts in force.
    pub(crate) kind: Kind,
    pub(crate) named: Kind,
    pub(crate) straps: u8,
    pub(crate) command: Command,
    pub(crate) security_lock: bool,
    pub(crate) bay_count: u8,
    pub(crate) capabilities_written: bool,
    pub(crate) lock_time: u8,
    pub(crate) wait_time: u8,
    pub(crate) second: Registers,
    pub(crate) phase: u8,
    pub(crate) bays: [Bay; 2],
}

impl Default for Controller {
    fn default() -> Self {
        Controller::new()
    }
}

impl Controller {
    pub fn new() -> Controller {
        Controller {
            started: false,
            kind: Kind::First,
            named: Kind::First,
            straps: 0,
            command: Command::Idle,
            security_lock: false,
            bay_count: 0,
            capabilities_written: false,
            lock_time: 0,
            wait_time: 0,
            second: Registers::default(),
            phase: 0,
            bays: [Bay::empty(), Bay::empty()],
        }
    }

    /// One event word. A refused word changes nothing.
    pub fn step(&mut self, word: u16) -> Answer {
        let (refusal, reply) = match unpack(word) {
            None => (Some(Refusal::StrayBit), Reply::None),
            Some(event) if !self.started && !matches!(event, Event::Reset { .. }) => {
                (Some(Refusal::NotStarted), Reply::None)
            }
            Some(event) => (None, self.take_event(event)),
        };
        Answer { refusal, reply, outputs: self.outputs() }
    }

    fn take_event(&mut self, event: Event) -> Reply {
        match event {
            Event::Start => self.start(),
            Event::Stop => self.stop(),
            Event::Byte(value) => return self.byte(value),
            Event::Take { ack } => return self.take(ack),
            Event::Pins(levels) => self.pins(levels),
            Event::Tick => self.tick(),
            Event::Reset { straps, levels, short_pulse } => *self = self.reset(straps, levels, short_pulse),
            Event::Timeout => self.command = Command::Idle,
        }
        Reply::None
    }

    /// The named kind comes into force, and the name stays for the RESETs after this one.
    fn reset(&self, straps: u8, levels: u8, short_pulse: bool) -> Controller {
        let start = match self.named {
            Kind::First => first::start(straps, short_pulse),
            Kind::Second => second::start(),
        };
        Controller {
            started: true,
            kind: self.named,
            named: self.named,
            straps,
            bay_count: start.bay_count,
            lock_time: start.lock_time,
            second: self.second.reset(),
            bays: [Bay::reset(levels >> 4, start.lock), Bay::reset(levels & 0x0F, start.lock)],
            ..Controller::new()
        }
    }

    /// What the kind in force makes of a bay.
    fn rules(&self) -> Rules {
        match self.kind {
            Kind::First => first::rules(self),
            Kind::Second => second::rules(self),
        }
    }

    fn bay1_closed(&self) -> bool {
        self.bay_count == 1
    }

    pub(crate) fn open_bays(&self) -> &[Bay] {
        let open = if self.bay1_closed() { 1 } else { 2 };
        &self.bays[..open]
    }

    fn open_bays_mut(&mut self) -> &mut [Bay] {
        let open = if self.bay1_closed() { 1 } else { 2 };
        &mut self.bays[..open]
    }

    fn pins(&mut self, levels: u8) {
        let by_bay = [levels >> 4, levels & 0x0F];
        for (bay, levels) in self.open_bays_mut().iter_mut().zip(by_bay) {
            bay.pins(levels);
        }
    }

    fn tick(&mut self) {
        let rules = self.rules();
        self.open_bays_mut().iter_mut().for_each(|bay| bay.tick(rules));
        self.phase = (self.phase + 1) % PHASES;
    }

    /// The levels as last sampled, bay 0's above bay 1's.
    pub fn levels(&self) -> u8 {
        self.bays[0].levels << 4 | self.bays[1].levels
    }

    /// What a register reads; before the first RESET, 0.
    pub fn reading(&self, address: u8) -> u8 {
        if !self.started {
            return 0;
        }
        match self.kind {
            Kind::First => first::reading(self, address),
            Kind::Second => second::reading(self, address),
        }
    }

    /// DBCCR.
    pub(crate) fn capabilities(&self) -> u8 {
        let security_lock = if self.security_lock { SECLOCK } else { 0 };
        security_lock | self.bay_count
    }

    pub(crate) fn bay_reading(&self, at: &BayAddresses, address: u8) -> u8 {
        for (index, bay) in self.open_bays().iter().enumerate() {
            if address == at.status[index] {
                return bay.status(self.rules());
            }
            if address == at.control[index] {
                return bay.control();
            }
        }
        0
    }

    pub(crate) fn write(&mut self, address: u8, value: u8) {
        match self.kind {
            Kind::First => first::write(self, address, value),
            Kind::Second => second::write(self, address, value),
        }
    }

    /// Only the first write after a RESET counts, whatever it writes; how it tells the bay count is the kind's.
    pub(crate) fn write_capabilities(&mut self, value: u8, bay_count: u8) {
        if self.capabilities_written {
            return;
        }
        self.capabilities_written = true;
        self.security_lock = value & SECLOCK != 0;
        self.bay_count = bay_count;
        if self.bay1_closed() {
            self.bays[1] = Bay::empty();
        }
    }

    pub(crate) fn write_bay(&mut self, at: &BayAddresses, address: u8, value: u8) {
        let rules = self.rules();
        for (index, bay) in self.open_bays_mut().iter_mut().enumerate() {
            if address == at.status[index] {
                bay.write_status(value);
            }
            if address == at.control[index] {
                bay.write_control(value, rules);
            }
        }
    }

    /// The nine outputs, bit 8 to 0; before the first RESET, 0.
    pub fn outputs(&self) -> u16 {
        if !self.started {
            return 0;
        }
        let rules = self.rules();
        let mut outputs = 0;
        for (bay, place) in self.open_bays().iter().zip([5, 1]) {
            outputs |= bay.outputs(rules) << place;
            outputs |= u16::from(bay.interrupts());
        }
        outputs
    }
}
