//! What is tried, and how much of it.

use crate::calls::{self, Call};
use crate::counts::Counts;
use crate::follow::{follow, tell};
use crate::images;
use dock::QUEUE_BYTES;
use model::Queue;
use trial::{pattern, Random};

/// From so many calls on, a run fails that didn't come to everything.
const ENOUGH: usize = 1_000_000;

/// How often a long alternation goes round the ring, and how many words wait in it meanwhile.
const ROUNDS: usize = 1_000;
const WAITING: [usize; 3] = [0, 60, 127];

/// After so many lists, everything that must be refused is tried once more.
const THOROUGH: usize = 200;

pub struct Run {
    random: Random,
    counts: Counts,
}

impl Run {
    pub fn new(seed: u64) -> Run {
        Run { random: Random::new(seed, 0), counts: Counts::default() }
    }

    pub fn counts(&self) -> &Counts {
        &self.counts
    }

    pub fn everything(&mut self, calls: usize) -> Result<(), String> {
        self.every_start_and_count()?;
        self.long_alternations()?;
        self.generated(calls)?;
        match self.counts.missing() {
            Some(name) if calls >= ENOUGH => Err(format!("there were no {}\n", name)),
            _ => Ok(()),
        }
    }

    fn every_start_and_count(&mut self) -> Result<(), String> {
        for (start, count) in images::fit_numbers() {
            let bytes = images::image(&mut self.random, start, count);
            self.counts.damaged += 1;
            let word = self.random.word();
            self.list(&bytes, &[Call::Put(word)])?;
            self.list(&bytes, &[Call::Take])?;
        }
        Ok(())
    }

    /// Each on one queue from its beginning to its end.
    fn long_alternations(&mut self) -> Result<(), String> {
        for waiting in WAITING {
            let begun = self.begun()?;
            let list = calls::alternation(&mut self.random, waiting, ROUNDS);
            self.list(&begun, &list)?;
        }
        Ok(())
    }

    fn generated(&mut self, calls: usize) -> Result<(), String> {
        let mut bytes = self.begun()?;
        while self.counts.calls < calls {
            if self.counts.lists % THOROUGH == 0 {
                self.all_refused()?;
            }
            let waiting = Queue::from_image(&bytes).map_or(0, |queue| queue.count());
            let list = calls::list(&mut self.random, waiting);
            self.counts.lists += 1;
            bytes = self.list(&bytes, &list)?;
            bytes = self.next_queue(bytes)?;
        }
        Ok(())
    }

    /// What the list leaves.
    fn list(&mut self, before: &[u8], list: &[Call]) -> Result<Vec<u8>, String> {
        follow(before, list, &mut self.counts).map_err(|mismatch| tell(before, list, &mismatch))
    }

    /// A queue begun where something else was before.
    fn begun(&mut self) -> Result<Vec<u8>, String> {
        self.list(&pattern(QUEUE_BYTES), &[Call::Begin])
    }

    /// What the next list begins with: the queue as it is, a begun one, a damaged one or one that is made up. What is
    /// refused is begun anew.
    fn next_queue(&mut self, bytes: Vec<u8>) -> Result<Vec<u8>, String> {
        let damaged = match self.random.below(8) {
            0..=3 => return Ok(bytes),
            4 => return self.begun(),
            5 => images::flipped(&mut self.random, &bytes),
            _ => images::made_up(&mut self.random),
        };
        self.counts.damaged += 1;
        if Queue::from_image(&damaged).is_some() {
            return Ok(damaged);
        }
        self.refused(&damaged)?;
        self.list(&damaged, &[Call::Begin])
    }

    fn all_refused(&mut self) -> Result<(), String> {
        for bytes in images::refused(&mut self.random) {
            self.counts.damaged += 1;
            self.refused(&bytes)?;
        }
        Ok(())
    }

    /// With calls that leave the bytes as they are; a begin is refused where the length is another one.
    fn refused(&mut self, bytes: &[u8]) -> Result<(), String> {
        let word = self.random.word();
        let mut list = vec![Call::Put(word), Call::Take, Call::Keep, Call::Take, Call::Put(word)];
        if bytes.len() != QUEUE_BYTES {
            list.push(Call::Begin);
        }
        self.list(bytes, &list).map(|_| ())
    }
}
