//! What a run came to.

use crate::alone::{refusal, Told};
use crate::seen;
use crate::situations::{self, Situation};
use std::collections::BTreeMap;
use std::fmt;

#[derive(Default)]
pub struct Counts {
    pub lists: usize,
    pub calls: usize,
    pub names: usize,
    pub kept: usize,
    pub made_up: usize,
    accepted: usize,
    /// By the number of the refusal.
    refused: BTreeMap<u64, usize>,
    seen: BTreeMap<Situation, usize>,
}

impl Counts {
    pub fn count(&mut self, told: &Told) {
        self.calls += 1;
        match refusal(told.answer) {
            0 => self.accepted += 1,
            number => *self.refused.entry(number).or_default() += 1,
        }
        for situation in seen::of(told) {
            *self.seen.entry(situation).or_default() += 1;
        }
    }

    /// How often it came to each of the situations.
    fn situations(&self) -> impl Iterator<Item = (Situation, usize)> + '_ {
        situations::all().into_iter().map(|situation| (situation, self.seen.get(&situation).copied().unwrap_or(0)))
    }

    pub fn missing(&self) -> Vec<String> {
        self.situations().filter(|&(_, count)| count == 0).map(|(situation, _)| situation.to_string()).collect()
    }
}

impl fmt::Display for Counts {
    fn fmt(&self, f: &mut fmt::Formatter) -> fmt::Result {
        let refused: Vec<_> = self.refused.iter().map(|(number, count)| format!("{} with {}", count, number)).collect();
        let Counts { lists, made_up, names, kept, accepted, .. } = self;
        writeln!(f, "{} generated lists, {} made up, {} names, {} kept", lists, made_up, names, kept)?;
        writeln!(f, "{} calls accepted, refused {}", accepted, refused.join(", "))?;
        if let Some((situation, least)) = self.situations().min_by_key(|&(_, count)| count) {
            writeln!(f, "{} situations, each at least {} times ({})", self.situations().count(), least, situation)?;
        }
        write!(f, "chassis: {} calls, 0 mismatches", self.calls)
    }
}
