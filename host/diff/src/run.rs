//! What is asked, in order.

use crate::compare::{self, Mismatch, Question};
use crate::counts::Counts;
use crate::seen::Seen;
use crate::sides::{HELD, LIBRARY, LIBRARY_BY_STEPS, LIBRARY_IN_BATCHES, MODEL, MODEL_IN_BATCHES, PLAIN};
use crate::tell::{self, call_agrees, Failure};
use crate::walk::{self, Way};
use model::{Controller, MOST_WORDS};
use paper::{Step, Story};
use trial::{lists, Call, Random, Room};

/// What dock_version answers: 5.3, accepted.
const VERSION: u32 = 0x0503;

/// Kinds that pack is asked for: the eight and two that do not exist.
const KINDS: u8 = 10;

/// First numbers that pack is asked for with every second: all that an event has, and as many again.
const FIRSTS: u16 = 1024;

/// Second numbers that pack is asked for with every first.
const SECONDS: [u8; 2] = [0x00, 0xBF];

/// From so many generated words on, each situation must have come.
const TELLING: usize = 1_000_000;

/// Up to here a list is short enough for the C controller to be asked all 256 addresses, each from the whole list.
const SHORT_LIST: usize = 40;

pub struct Run {
    seed: u64,
    random: Random,
    pub counts: Counts,
}

impl Run {
    pub fn new(seed: u64) -> Run {
        Run { seed, random: Random::new(seed, 0), counts: Counts::default() }
    }

    pub fn everything(&mut self, words: usize) -> Result<(), Failure> {
        self.version()?;
        self.paper_examples()?;
        self.paper_stories()?;
        self.all_packs()?;
        self.all_single_words()?;
        self.limits()?;
        self.generated(words)
    }

    fn version(&mut self) -> Result<(), Failure> {
        match dock::ffi::version() {
            VERSION => Ok(()),
            other => Err(Failure(format!("mismatch: dock_version answers {:08X}h\n", other))),
        }
    }

    /// Against the paper's own numbers, and then every answer against the model's.
    fn paper_examples(&mut self) -> Result<(), Failure> {
        for example in paper::examples() {
            self.counts.examples += 1;
            for side in [LIBRARY, HELD, MODEL, PLAIN] {
                example.holds(&side).map_err(|told| Failure(format!("mismatch: the paper's example {}", told)))?;
            }
            self.list(&Call::list(&example.words))?;
        }
        Ok(())
    }

    /// What document 03 says of the second kind, likewise.
    fn paper_stories(&mut self) -> Result<(), Failure> {
        for story in paper::stories() {
            self.counts.stories += 1;
            let told = story.holds(&LIBRARY_IN_BATCHES).and(story.holds(&LIBRARY_BY_STEPS));
            told.and(story.holds(&MODEL_IN_BATCHES))
                .map_err(|told| Failure(format!("mismatch: the paper's story {}", told)))?;
            self.list(&calls_of(&story))?;
        }
        Ok(())
    }

    fn all_packs(&mut self) -> Result<(), Failure> {
        for word in 0..=u16::MAX {
            self.counts.unpacks += 1;
            call_agrees(compare::unpack(word), || format!("dock_unpack({:04X}h)", word))?;
        }
        for kind in 0..KINDS {
            for first in 0..FIRSTS {
                (0..=u8::MAX).try_for_each(|second| self.pack(kind, first, second))?;
            }
            for first in FIRSTS..=u16::MAX {
                SECONDS.iter().try_for_each(|&second| self.pack(kind, first, second))?;
            }
        }
        Ok(())
    }

    fn pack(&mut self, kind: u8, first: u16, second: u8) -> Result<(), Failure> {
        self.counts.packs += 1;
        call_agrees(compare::pack(kind, first, second), || format!("dock_pack({}, {}, {})", kind, first, second))
    }

    /// Every word first of all, and every word right after a RESET into either kind; and every name.
    fn all_single_words(&mut self) -> Result<(), Failure> {
        let reset = Call::Word(0xC0BF);
        for word in (0..=u16::MAX).map(Call::Word) {
            for list in [&[word][..], &[reset, word]] {
                self.replay(list, Room::Exact)?;
                self.walk(list, Way::Steps)?;
            }
            self.walk(&[Call::Name(2), reset, word], Way::Steps)?;
        }
        for name in (0..=u8::MAX).map(Call::Name) {
            self.walk(&[name, reset, name, reset], Way::Steps)?;
        }
        Ok(())
    }

    /// The longest batch and one more, no words and one, with every kind of room.
    fn limits(&mut self) -> Result<(), Failure> {
        for length in [0, 1, 2, 3, MOST_WORDS - 1, MOST_WORDS, MOST_WORDS + 1, MOST_WORDS + 2] {
            let list = Call::list(&lists::list(&mut self.random, length));
            for missing in 1..=4 {
                self.replay(&list, Room::Short(missing))?;
                self.replay(&list, Room::Spare(missing))?;
            }
            self.replay(&list, Room::Short(usize::MAX))?;
            self.replay(&list, Room::Exact)?;
            self.walks(&list)?;
        }
        Ok(())
    }

    /// Half of the lists are of the first kind alone, and half have names.
    fn generated(&mut self, words: usize) -> Result<(), Failure> {
        let enough = self.counts.words + words;
        self.counts.held.seen = Seen::default();
        while self.counts.words < enough {
            self.random = Random::new(self.seed, self.counts.lists as u64 + 1);
            let length = lists::length(&mut self.random);
            let list = if self.random.one_in(2) {
                Call::list(&lists::list(&mut self.random, length))
            } else {
                lists::mixed(&mut self.random, length)
            };
            self.list(&list)?;
        }
        self.rules_told_apart(words)
    }

    fn rules_told_apart(&self, words: usize) -> Result<(), Failure> {
        let missing = self.counts.held.seen.missing();
        if words < TELLING || missing.is_empty() {
            return Ok(());
        }
        let told = missing.join("; ");
        Err(Failure(format!(
            "seed {}: the lists can't tell one rule from another: none came of: {}\n",
            self.seed, told
        )))
    }

    /// All that is asked of one list. A replay and the C controller are given its words alone.
    fn list(&mut self, list: &[Call]) -> Result<(), Failure> {
        let room = self.room();
        self.replay(list, room)?;
        self.walks(list)?;
        if list.len() <= MOST_WORDS {
            self.c_controller(&Call::words(list))?;
        }
        Ok(())
    }

    fn walks(&mut self, list: &[Call]) -> Result<(), Failure> {
        self.walk(list, Way::Steps)?;
        self.walk(list, Way::Batches)
    }

    /// The C controller answers each question from the whole list, so longer lists get fewer.
    fn c_controller(&mut self, words: &[u16]) -> Result<(), Failure> {
        let after = Controller::after(words);
        if words.len() <= SHORT_LIST && self.random.one_in(16) {
            return (0..=u8::MAX).try_for_each(|address| self.c_reading(words, address, &after));
        }
        if words.len() <= 10 * SHORT_LIST || self.random.one_in(4) {
            let address = self.random.pick(&lists::ADDRESSES);
            self.c_reading(words, address, &after)?;
            self.agrees(compare::outputs(words, &after), Question::Outputs, words)?;
        }
        Ok(())
    }

    fn c_reading(&self, words: &[u16], address: u8, after: &Controller) -> Result<(), Failure> {
        self.agrees(compare::reading(words, address, after), Question::Reading(address), words)
    }

    fn room(&mut self) -> Room {
        match self.random.below(16) {
            0 => Room::Short(self.random.between(1, 4)),
            1..=3 => Room::Spare(self.random.between(1, 70)),
            _ => Room::Exact,
        }
    }

    fn replay(&mut self, list: &[Call], room: Room) -> Result<(), Failure> {
        self.counts.lists += 1;
        match compare::replay(&Call::words(list), room) {
            Ok(records) => {
                self.counts.words += records;
                Ok(())
            }
            Err(mismatch) => Err(tell::failure(self.seed, &self.counts, mismatch, Question::Replay(room), list)),
        }
    }

    fn walk(&mut self, list: &[Call], way: Way) -> Result<(), Failure> {
        let seed = self.random.word().into();
        match walk::walk(list, way, seed) {
            Ok(counts) => {
                self.counts.held += counts;
                Ok(())
            }
            Err(mismatch) => Err(tell::failure(self.seed, &self.counts, mismatch, Question::Walk(way, seed), list)),
        }
    }

    fn agrees(&self, mismatch: Option<Mismatch>, question: Question, words: &[u16]) -> Result<(), Failure> {
        match mismatch {
            None => Ok(()),
            Some(mismatch) => Err(tell::failure(self.seed, &self.counts, mismatch, question, &Call::list(words))),
        }
    }
}

/// The story's words and names, without what is asked between them.
fn calls_of(story: &Story) -> Vec<Call> {
    let of_step = |step: &Step| match step {
        Step::Name { number, .. } => vec![Call::Name(*number)],
        Step::Words(words) => Call::list(words),
        Step::Records(_) | Step::Reads(..) | Step::Outputs(_) => Vec::new(),
    };
    story.steps.iter().flat_map(of_step).collect()
}
