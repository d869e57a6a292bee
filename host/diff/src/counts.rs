//! How much was compared.

use crate::walk;
use std::fmt;

#[derive(Default)]
pub struct Counts {
    pub examples: usize,
    pub stories: usize,
    pub lists: usize,
    pub words: usize,
    pub held: walk::Counts,
    pub packs: usize,
    pub unpacks: usize,
}

impl fmt::Display for Counts {
    fn fmt(&self, f: &mut fmt::Formatter) -> fmt::Result {
        let held = &self.held;
        write!(f, "{} examples, {} stories, ", self.examples, self.stories)?;
        write!(f, "{} lists, {} words, ", self.lists, self.words)?;
        write!(f, "on a held state {} by steps and {} in batches, ", held.steps, held.batched)?;
        write!(f, "{} readings, {} outputs, {} held bytes, ", held.readings, held.outputs, held.held_bytes)?;
        write!(f, "{} refused calls, ", held.refused)?;
        write!(f, "{} names, ", held.names)?;
        write!(f, "{} packs, {} unpacks", self.packs, self.unpacks)
    }
}
