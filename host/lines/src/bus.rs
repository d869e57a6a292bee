//! Two open-drain lines: each is low where anyone pulls it. Time goes by in samples.

use crate::board::Board;
use trial::Random;

/// SCLK is held by somebody else, in one of so many of its falls, and mostly for a short while.
const CHANCES_OF_STRETCH: usize = 60;
const CHANCES_OF_LONG_STRETCH: usize = 40;
const SHORT_STRETCH: usize = 60;
const LONG_STRETCH: usize = 17_000;

/// Held so long, SCLK is low for more than 35 ms.
const TOO_LONG: usize = 17_600;

#[derive(Clone, Copy, PartialEq, Eq)]
struct Levels {
    clock: bool,
    data: bool,
}

pub struct Bus {
    pub board: Board,
    pub random: Random,
    /// What the host pulls low.
    host_clock: bool,
    host_data: bool,
    /// For how many samples somebody else pulls SCLK low.
    stretched: usize,
    last: Levels,
    /// The host is about to move SDAT under a high SCLK.
    ends: bool,
    /// The dock moved SDAT after the last sample.
    moved: bool,
    pub samples: usize,
    pub stretches: usize,
}

impl Bus {
    pub fn new(board: Board, random: Random) -> Bus {
        let last = Levels { clock: true, data: true };
        let [host_clock, host_data, ends, moved] = [false; 4];
        let [stretched, samples, stretches] = [0; 3];
        Bus { board, random, host_clock, host_data, stretched, last, ends, moved, samples, stretches }
    }

    /// As the last sample had it.
    pub fn clock(&self) -> bool {
        self.last.clock
    }

    pub fn data(&self) -> bool {
        self.last.data
    }

    /// The host pulls a line low or lets it go.
    pub fn pull_clock(&mut self, low: bool) {
        self.host_clock = low;
    }

    pub fn pull_data(&mut self, low: bool) {
        self.host_data = low;
    }

    /// .. under a high SCLK: a START or a STOP.
    pub fn end_data(&mut self, low: bool) {
        self.ends = true;
        self.host_data = low;
    }

    /// Somebody holds SCLK, which is low, until the dock has given up on it.
    pub fn hold_too_long(&mut self) {
        self.stretched = TOO_LONG;
    }

    /// Until one sample more is taken.
    pub fn pass(&mut self) -> Result<(), String> {
        let levels = Levels {
            clock: !self.host_clock && self.stretched == 0 && !self.board.pulls_clock(),
            data: !self.host_data && !self.board.pulls_data(),
        };
        self.stretched = self.stretched.saturating_sub(1);
        self.watch(levels)?;
        if self.last.clock && !levels.clock {
            self.stretch();
        }
        self.last = levels;
        self.samples += 1;
        self.moved = self.board.sample(&mut self.random, levels.clock, levels.data)?;
        if self.moved && levels.clock {
            return Err("the dock moved SDAT under a high SCLK".to_string());
        }
        Ok(())
    }

    /// Whatever the lines show as a START or a STOP, to the dock or to the host, is the host's own.
    fn watch(&mut self, now: Levels) -> Result<(), String> {
        if self.moved && now.clock {
            return Err("the dock moved SDAT as SCLK rose".to_string());
        }
        let shows_end = self.last.clock && now.clock && self.last.data != now.data;
        if std::mem::take(&mut self.ends) != shows_end {
            return Err(format!("SDAT {} under a high SCLK", if shows_end { "moved" } else { "did not move" }));
        }
        Ok(())
    }

    /// A long one ends well below 35 ms, whatever the host adds to it.
    fn stretch(&mut self) {
        if self.random.one_in(CHANCES_OF_STRETCH) {
            let longest = if self.random.one_in(CHANCES_OF_LONG_STRETCH) { LONG_STRETCH } else { SHORT_STRETCH };
            self.stretched = self.random.between(1, longest);
            self.stretches += 1;
        }
    }
}
