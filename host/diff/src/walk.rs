//! A list of calls through one held state: begun, given the words and the names by and by, with questions and refused
//! calls between.

use crate::compare::Mismatch;
use crate::seen::{self, Seen};
use crate::sides::LIBRARY;
use trial::{held, hex, lists, Call, Held, Random, Room, TOO_MANY};

/// How the words are given: one at a time, or in batches that are cut anywhere and at names.
#[derive(Clone, Copy, Debug)]
pub enum Way {
    Steps,
    Batches,
}

#[derive(Default)]
pub struct Counts {
    pub steps: usize,
    pub batched: usize,
    pub readings: usize,
    pub outputs: usize,
    pub held_bytes: usize,
    pub refused: usize,
    pub names: usize,
    pub seen: Seen,
}

impl std::ops::AddAssign for Counts {
    fn add_assign(&mut self, more: Counts) {
        self.steps += more.steps;
        self.batched += more.batched;
        self.readings += more.readings;
        self.outputs += more.outputs;
        self.held_bytes += more.held_bytes;
        self.refused += more.refused;
        self.names += more.names;
        self.seen += more.seen;
    }
}

const TICK: u16 = 0xA000;

/// The same list, way and seed walk alike. Tells the call at which the walk was.
pub fn walk(list: &[Call], way: Way, seed: u64) -> Result<Counts, Mismatch> {
    let mut walk = Walk { random: Random::new(seed, way as u64), counts: Counts::default() };
    let mut given = 0;
    walk.all(list, way, &mut given).map(|()| walk.counts).map_err(|mismatch| Mismatch {
        position: Some(given),
        asked: mismatch.asked,
        side: LIBRARY.name,
        answer: mismatch.library,
        model: mismatch.model,
    })
}

/// Of library and model, which agree on the state: it is one that the paper has words lead to.
fn is_reached(call: Call, image: &[u8]) -> Result<(), held::Mismatch> {
    if seen::is_reached(image) {
        return Ok(());
    }
    let asked = format!("{}, a state that no words lead to", call);
    Err(held::Mismatch { asked, library: hex(image), model: "the same".to_string() })
}

struct Walk {
    random: Random,
    counts: Counts,
}

impl Walk {
    fn all(&mut self, list: &[Call], way: Way, given: &mut usize) -> Result<(), held::Mismatch> {
        let mut held = Held::begun()?;
        self.questions(&mut held)?;
        while *given < list.len() {
            *given += match (way, list[*given]) {
                (Way::Batches, Call::Word(_)) => self.batch(&mut held, &Call::until_name(&list[*given..]))?,
                (_, call) => self.call(&mut held, call)?,
            };
            if self.random.one_in(16) {
                self.questions(&mut held)?;
            }
            if self.random.one_in(256) {
                self.refused_calls(&mut held)?;
            }
        }
        self.refused_calls(&mut held)?;
        self.questions(&mut held)
    }

    fn call(&mut self, held: &mut Held, call: Call) -> Result<usize, held::Mismatch> {
        match call {
            Call::Word(_) => self.counts.steps += 1,
            Call::Name(_) => self.counts.names += 1,
        }
        let before = held.bytes().to_vec();
        held.call(call)?;
        if let Some(dock) = held.model() {
            self.counts.seen.count(call, &before, held.bytes(), dock);
        }
        is_reached(call, held.bytes())?;
        self.held_byte(held)?;
        Ok(1)
    }

    /// A batch of some of the words, of none or of all. It may be refused for its room or its length, and then another
    /// is tried.
    fn batch(&mut self, held: &mut Held, words: &[u16]) -> Result<usize, held::Mismatch> {
        let length = match self.random.below(8) {
            0 => self.random.between(0, 1),
            1..=3 => self.random.between(0, 8),
            4..=6 => self.random.between(1, 100),
            _ => words.len(),
        };
        let room = match self.random.below(8) {
            0 => Room::Short(self.random.between(1, 4)),
            1 => Room::Spare(self.random.between(1, 70)),
            _ => Room::Exact,
        };
        let count = held.batch(&words[..length.min(words.len())], room)?;
        self.counts.batched += count;
        self.held_byte(held)?;
        Ok(count)
    }

    /// What an open read holds: after every call, so that a byte that is held too long or not long enough is seen.
    fn held_byte(&mut self, held: &mut Held) -> Result<(), held::Mismatch> {
        self.counts.held_bytes += 1;
        held.held_byte()
    }

    /// The outputs and a register, and now and then all 256.
    fn questions(&mut self, held: &mut Held) -> Result<(), held::Mismatch> {
        self.counts.outputs += 1;
        held.outputs()?;
        if self.random.one_in(32) {
            self.counts.readings += 256;
            return (0..=u8::MAX).try_for_each(|address| held.reading(address));
        }
        self.counts.readings += 1;
        held.reading(self.random.pick(&lists::ADDRESSES))
    }

    /// Calls that must be refused and leave everything as it was: batches that can't be done, and every call on a state
    /// that has lost or gained bytes.
    fn refused_calls(&mut self, held: &mut Held) -> Result<(), held::Mismatch> {
        self.counts.refused += 3;
        held.batch(&[TICK; 3], Room::Short(self.random.between(1, 12)))?;
        held.batch(&TOO_MANY, Room::Exact)?;
        held.batch(&TOO_MANY, Room::Short(usize::MAX))?;
        let shorter = self.random.between(0, held.bytes().len() - 1);
        let longer = self.random.between(1, 64);
        self.every_call(&held.bytes()[..shorter])?;
        self.every_call(&[held.bytes(), &vec![0; longer]].concat())
    }

    fn every_call(&mut self, state: &[u8]) -> Result<(), held::Mismatch> {
        self.counts.refused += 10;
        let mut held = Held::of_bytes(state);
        held.begin()?;
        held.name_kind(2)?;
        held.name_kind(3)?;
        held.step(TICK)?;
        held.batch(&[TICK; 2], Room::Exact)?;
        held.batch(&[TICK; 2], Room::Short(1))?;
        held.batch(&TOO_MANY, Room::Short(usize::MAX))?;
        held.reading(0x10)?;
        held.held_byte()?;
        held.outputs()
    }
}
