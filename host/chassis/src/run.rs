//! What is tried, and how much of it.

use crate::calls::{self, Call};
use crate::counts::Counts;
use crate::follow::{follow, tell};
use crate::lists::{self, Pool};
use dock::{ffi, STATE_BYTES};
use model::{Chassis, CHASSIS_RECORDS};
use trial::Random;

/// From so many calls on, a run fails that didn't come to everything.
const ENOUGH: usize = 500_000;

/// After so many lists, every other length is tried once more.
const THOROUGH: usize = 2_000;

pub struct Run {
    random: Random,
    counts: Counts,
    pool: Pool,
}

impl Run {
    pub fn new(seed: u64) -> Run {
        Run { random: Random::new(seed, 0), counts: Counts::default(), pool: Pool::default() }
    }

    pub fn counts(&self) -> &Counts {
        &self.counts
    }

    pub fn everything(&mut self, calls: usize) -> Result<(), String> {
        self.generated(calls)?;
        self.every_word()?;
        let missing = self.counts.missing();
        if calls < ENOUGH || missing.is_empty() {
            return Ok(());
        }
        Err(format!("there was no {}\n", missing.join(", no ")))
    }

    fn generated(&mut self, calls: usize) -> Result<(), String> {
        let mut list = self.begun();
        while self.counts.calls < calls {
            let onward = calls::list(&mut self.random, model_of(&list));
            list = self.calls(&list, &onward)?;
            self.pool.keep(&mut self.random, &list);
            self.counts.lists += 1;
            if self.counts.lists % THOROUGH == 0 {
                self.every_length()?;
            }
            list = self.next_list(list)?;
        }
        Ok(())
    }

    /// Each on the same list, of both kinds and with one that is not started, and for any record.
    fn every_word(&mut self) -> Result<(), String> {
        let [first, second] = [(0, 0xC0BF), (2, 0xC8FB)].map(|(record, word)| Call::Step { record, word });
        let list = self.calls(&begun(3), &[Call::Name { place: 2, number: 2 }, first, second])?;
        for word in 0..=u16::MAX {
            let record = calls::any_record(&mut self.random);
            self.calls(&list, &[Call::Step { record, word }])?;
        }
        Ok(())
    }

    /// With whole records in them as far as they go, and all that could be against a call.
    fn every_length(&mut self) -> Result<(), String> {
        for length in 0..=lists::LONGEST {
            let list = lists::of_length(&mut self.random, &self.pool, length);
            if !lists::is_of_right_length(&list) {
                self.against(&list)?;
            }
        }
        Ok(())
    }

    /// What the calls leave.
    fn calls(&mut self, before: &[u8], calls: &[Call]) -> Result<Vec<u8>, String> {
        follow(before, calls, &mut self.counts).map_err(|mismatch| tell(before, calls, &mismatch))
    }

    /// One to four fresh records.
    fn begun(&mut self) -> Vec<u8> {
        begun(self.random.between(1, CHASSIS_RECORDS))
    }

    /// What the next calls begin with: the list as it is, a begun one, or one that is made up. What is refused for
    /// itself is given calls that change nothing, and then left.
    fn next_list(&mut self, list: Vec<u8>) -> Result<Vec<u8>, String> {
        match self.random.below(8) {
            0..=3 => return Ok(list),
            4 => return Ok(self.begun()),
            _ => {}
        }
        let made_up = lists::made_up(&mut self.random, &self.pool);
        self.counts.made_up += 1;
        self.against(&made_up)?;
        // A copy is asked by a word that is refused with 2 where nothing is against the list.
        if ffi::chassis_step(&mut made_up.clone(), 0, 0x0001) >> 60 == 2 {
            return Ok(made_up);
        }
        Ok(self.begun())
    }

    fn against(&mut self, list: &[u8]) -> Result<(), String> {
        let against = calls::against(&mut self.random, model_of(list));
        self.calls(list, &against).map(|_| ())
    }
}

fn begun(count: usize) -> Vec<u8> {
    let mut list = vec![0; STATE_BYTES * count];
    list.chunks_exact_mut(STATE_BYTES).for_each(|image| {
        ffi::begin(image);
    });
    list
}

/// Of the whole records alone, where the last is cut.
fn model_of(list: &[u8]) -> Chassis {
    let whole = list.len() - list.len() % STATE_BYTES;
    Chassis::from_images(&list[..whole]).expect("these are whole images")
}
