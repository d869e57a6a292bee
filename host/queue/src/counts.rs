//! What a run came to.

use crate::calls::Call;
use std::fmt;

#[derive(Default)]
pub struct Counts {
    pub lists: usize,
    pub calls: usize,
    puts: usize,
    full: usize,
    takes: usize,
    empty: usize,
    unfit: usize,
    pub rounds: usize,
    kept: usize,
    pub damaged: usize,
}

impl Counts {
    pub fn count(&mut self, call: Call, answer: u32) {
        self.calls += usize::from(call != Call::Keep);
        let of_answer = match (call, answer >> 16) {
            (_, 1) => &mut self.unfit,
            (_, 7) => &mut self.full,
            (_, 8) => &mut self.empty,
            (Call::Put(_), _) => &mut self.puts,
            (Call::Take, _) => &mut self.takes,
            (Call::Keep, _) => &mut self.kept,
            (Call::Begin, _) => return,
        };
        *of_answer += 1;
    }

    /// What must have come, each by its name.
    fn names(&self) -> [(&'static str, usize); 8] {
        [
            ("accepted puts", self.puts),
            ("puts refused with 7", self.full),
            ("accepted takes", self.takes),
            ("takes refused with 8", self.empty),
            ("calls refused with 1", self.unfit),
            ("times round the ring", self.rounds),
            ("queues kept and taken back", self.kept),
            ("damaged images", self.damaged),
        ]
    }

    pub fn missing(&self) -> Option<&'static str> {
        self.names().into_iter().find(|&(_, count)| count == 0).map(|(name, _)| name)
    }
}

impl fmt::Display for Counts {
    fn fmt(&self, f: &mut fmt::Formatter) -> fmt::Result {
        let named = self.names().map(|(name, count)| format!("{} {}", count, name));
        writeln!(f, "{} generated lists, {}", self.lists, named.join(", "))?;
        write!(f, "queue: {} calls, 0 mismatches", self.calls)
    }
}
