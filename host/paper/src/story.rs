//! What the papers say of a controller that is told its kind: calls in their order, and between them what is then seen.

use crate::words::TICK;
use crate::{hex, record, shown, UNTOUCHED};

/// A controller's calls on a state of its own, with answers as the C interface has them: the refusal number times
/// 65,536 plus the value.
pub struct StateCalls<S> {
    pub name: &'static str,
    pub fresh: fn() -> S,
    pub name_kind: fn(&mut S, u8) -> u32,
    pub batch: fn(&mut S, &[u16], &mut [u8]) -> u32,
    pub reading: fn(&S, u8) -> u32,
    pub outputs: fn(&S) -> u32,
}

pub enum Step {
    /// The call that names a kind, with this number, and the refusal number that it answers.
    Name { number: u8, refusal: u32 },
    /// A batch of words, which is not refused.
    Words(Vec<u16>),
    /// The records of the last words so far, as many as stand here.
    Records(Vec<[u8; 4]>),
    /// A register's reading now.
    Reads(u8, u8),
    /// The nine outputs now.
    Outputs(u16),
}

/// From a fresh controller, step by step.
pub struct Story {
    pub name: String,
    pub steps: Vec<Step>,
}

/// The replies of BYTE and TAKE.
const ACK: u32 = 1;
const NO_ACK: u32 = 2;
const DRIVEN: u32 = 3;
const NOT_DRIVEN: u32 = 4;

/// How a story is written down.
impl Story {
    pub(crate) fn new(name: impl Into<String>) -> Story {
        Story { name: name.into(), steps: Vec::new() }
    }

    fn with(mut self, step: Step) -> Story {
        self.steps.push(step);
        self
    }

    pub(crate) fn names(self, number: u8) -> Story {
        self.with(Step::Name { number, refusal: 0 })
    }

    pub(crate) fn names_none(self, number: u8) -> Story {
        self.with(Step::Name { number, refusal: 14 })
    }

    pub(crate) fn words(self, words: &[u16]) -> Story {
        self.with(Step::Words(words.to_vec()))
    }

    pub(crate) fn reads(self, address: u8, value: u8) -> Story {
        self.with(Step::Reads(address, value))
    }

    /// From this address on, FFh to 00h.
    pub(crate) fn reads_from(self, address: u8, values: &[u8]) -> Story {
        let addresses = (0..=u8::MAX).map(|place| address.wrapping_add(place));
        addresses.zip(values).fold(self, |story, (address, &value)| story.reads(address, value))
    }

    /// All 256 registers, of which those that don't stand here read 0.
    pub(crate) fn reads_only(self, registers: &[(u8, u8)]) -> Story {
        let value = |address| registers.iter().find(|register| register.0 == address).map_or(0, |register| register.1);
        (0..=0xFF).fold(self, |story, address| story.reads(address, value(address)))
    }

    pub(crate) fn outputs(self, outputs: u16) -> Story {
        self.with(Step::Outputs(outputs))
    }

    pub(crate) fn records(self, records: Vec<[u8; 4]>) -> Story {
        self.with(Step::Records(records))
    }

    /// So many ticks, with these outputs after each.
    pub(crate) fn ticking(self, count: usize, outputs: u32) -> Story {
        self.words(&vec![TICK; count]).records(vec![record(0, 0, 0, outputs); count])
    }

    /// The last word's reply; the outputs are what they are.
    fn replies(self, reply: u32, byte: u8, outputs: u32) -> Story {
        self.records(vec![record(0, reply, byte, outputs)])
    }

    pub(crate) fn acked(self, outputs: u32) -> Story {
        self.replies(ACK, 0, outputs)
    }

    pub(crate) fn not_acked(self, outputs: u32) -> Story {
        self.replies(NO_ACK, 0, outputs)
    }

    pub(crate) fn gives(self, byte: u8, outputs: u32) -> Story {
        self.replies(DRIVEN, byte, outputs)
    }

    pub(crate) fn gives_nothing(self, outputs: u32) -> Story {
        self.replies(NOT_DRIVEN, 0xFF, outputs)
    }
}

/// How it is asked.
impl Story {
    /// Takes a fresh controller through all of it; the error tells where it answered something else than the paper.
    pub fn holds<S>(&self, controller: &StateCalls<S>) -> Result<(), String> {
        let mut state = (controller.fresh)();
        let mut records = Vec::new();
        for (place, step) in self.steps.iter().enumerate() {
            let (asked, answered, paper) = step.ask(controller, &mut state, &mut records);
            if answered != paper {
                let story = format!("{}, step {}: {}", self.name, place + 1, asked);
                return Err(format!("{}\n  {}: {}\n  paper: {}\n", story, controller.name, answered, paper));
            }
        }
        Ok(())
    }
}

impl Step {
    /// The question in words, the controller's answer, the paper's. The records are all there were so far.
    fn ask<S>(&self, calls: &StateCalls<S>, state: &mut S, records: &mut Vec<u8>) -> (String, String, String) {
        match self {
            Step::Name { number, refusal } => {
                let answer = (calls.name_kind)(state, *number);
                (format!("kind {} named", number), hex(answer), hex(refusal << 16))
            }
            Step::Words(words) => {
                let mut bytes = vec![UNTOUCHED; 4 * words.len()];
                let answer = (calls.batch)(state, words, &mut bytes);
                records.extend(bytes);
                ("a batch".to_string(), hex(answer), hex(words.len() as u32))
            }
            Step::Records(last) => {
                let of_last = &records[records.len().saturating_sub(4 * last.len())..];
                ("the last records".to_string(), shown(of_last), shown(&last.concat()))
            }
            Step::Reads(address, value) => {
                let answer = (calls.reading)(state, *address);
                (format!("{:02X}h reads", address), hex(answer), hex(u32::from(*value)))
            }
            Step::Outputs(bits) => {
                let answer = (calls.outputs)(state);
                ("the outputs".to_string(), hex(answer), hex(u32::from(*bits)))
            }
        }
    }
}
