//! What was tried, and what became of it, as a table.

use std::fmt;

#[derive(Clone, Copy, Default)]
pub struct Counts {
    pub tried: usize,
    pub no_image: usize,
    pub unfit: usize,
    pub accepted: usize,
    /// Words, or puts and takes, that accepted ones were given.
    pub after: usize,
}

impl std::ops::AddAssign for Counts {
    fn add_assign(&mut self, more: Counts) {
        self.tried += more.tried;
        self.no_image += more.no_image;
        self.unfit += more.unfit;
        self.accepted += more.accepted;
        self.after += more.after;
    }
}

impl fmt::Display for Counts {
    fn fmt(&self, f: &mut fmt::Formatter) -> fmt::Result {
        let Counts { tried, no_image, unfit, accepted, after } = self;
        write!(f, "{:>9} {:>9} {:>9} {:>9} {:>11}", tried, no_image, unfit, accepted, after)
    }
}

/// A row for each part, and one for all.
#[derive(Default)]
pub struct Table {
    /// Of the row that is to come.
    pub part: Counts,
    total: Counts,
}

impl Table {
    pub fn head(what: &str, after: &str) {
        println!("{:<28} {:>9} {:>9} {:>9} {:>9} {:>11}", what, "tried", "no image", "unfit", "accepted", after);
    }

    pub fn row(&mut self, name: &str) {
        println!("{:<28} {}", name, self.part);
        self.total += self.part;
        self.part = Counts::default();
    }

    pub fn end(&self) {
        println!("{:<28} {}", "all", self.total);
    }
}
