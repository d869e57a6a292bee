//! What is tried, and how much of it.

use crate::held::{Held, Mismatch};
use crate::streams;
use dock::{MOST_SAMPLES, WIRE_BYTES};
use std::fmt;
use trial::{hex, shrink, Random};

/// From so many samples on, a run fails that didn't come to everything.
const ENOUGH: usize = 1_000_000;

/// So many samples of a mismatching list are printed.
const SHOWN: usize = 600;

/// After so many lists, every value of every held byte is tried.
const THOROUGH: usize = 1_000;

/// Low runs about their end.
const RUNS: [u16; 10] = [0, 1, 2, 17_400, 17_497, 17_498, 17_499, 17_500, 17_501, 17_502];

/// One sample more than a call takes.
static TOO_MANY: [u8; MOST_SAMPLES + 1] = [0; MOST_SAMPLES + 1];

/// The kinds that the cell gives, by their numbers in a word; what TAKEs say is counted in two.
const NAMES: [(&str, u16); 6] =
    [("START", 0x0000), ("STOP", 0x2000), ("BYTE", 0x4000), ("NACK", 0x6000), ("ACK", 0x6001), ("TIMEOUT", 0xE000)];

#[derive(Default)]
pub struct Counts {
    seed: u64,
    lists: usize,
    samples: usize,
    calls: usize,
    refused: usize,
    damaged: usize,
    words: usize,
    by_name: [usize; NAMES.len()],
}

impl Counts {
    fn count(&mut self, words: &[u16]) {
        self.words += words.len();
        for word in words {
            let name = if word >> 13 == 2 { word & 0xE000 } else { *word };
            let place = NAMES.iter().position(|&(_, of)| of == name).expect("the model gives no other words");
            self.by_name[place] += 1;
        }
    }
}

impl fmt::Display for Counts {
    fn fmt(&self, f: &mut fmt::Formatter) -> fmt::Result {
        let Counts { seed, lists, samples, calls, refused, damaged, words, by_name } = self;
        let kinds: Vec<_> = NAMES.iter().zip(by_name).map(|((name, _), count)| format!("{} {}", count, name)).collect();
        writeln!(f, "words: {}", kinds.join(", "))?;
        write!(
            f,
            "seed {}: {} lists, {} calls, {} refused, {} damaged states, ",
            seed, lists, calls, refused, damaged
        )?;
        write!(f, "{} samples, {} words, 0 mismatches", samples, words)
    }
}

pub struct Run {
    random: Random,
    counts: Counts,
}

impl Run {
    pub fn new(seed: u64) -> Run {
        Run { random: Random::new(seed, 0), counts: Counts { seed, ..Counts::default() } }
    }

    pub fn counts(&self) -> &Counts {
        &self.counts
    }

    pub fn everything(&mut self, samples: usize) -> Result<(), String> {
        let mut held = Held::begun().map_err(|mismatch| tell(&[], &[], &mismatch))?;
        while self.counts.samples < samples {
            if self.counts.lists % THOROUGH == 0 {
                self.every_value(held.bytes())?;
            }
            let list = streams::list(&mut self.random);
            self.counts.lists += 1;
            held = self.both_ways(held, &list)?;
            held = self.next_state(held)?;
        }
        match self.counts.by_name.iter().position(|&count| count == 0) {
            Some(place) if samples >= ENOUGH => Err(format!("{} never came\n", NAMES[place].0)),
            _ => Ok(()),
        }
    }

    /// The list in calls as long as they may be, and cut by lot: words and held bytes come to the same.
    fn both_ways(&mut self, held: Held, list: &[u8]) -> Result<Held, String> {
        let before = held.bytes().to_vec();
        let told = |mismatch: Mismatch| tell(&before, list, &mismatch);
        let mut cut = Held::of_bytes(&before);
        let (mut whole, mut whole_words) = (held, Vec::new());
        for part in list.chunks(MOST_SAMPLES) {
            whole_words.extend(whole.listen(part, part.len()).map_err(told)?);
            self.counts.calls += 1;
        }
        let cut_words = self.cut(&mut cut, list).map_err(told)?;
        if (whole.bytes(), &whole_words) != (cut.bytes(), &cut_words) {
            return Err(told(Mismatch {
                asked: "the same in one call and cut".to_string(),
                library: format!("{}, {} words", hex(cut.bytes()), cut_words.len()),
                model: format!("{}, {} words", hex(whole.bytes()), whole_words.len()),
            }));
        }
        self.counts.samples += list.len();
        self.counts.count(&whole_words);
        Ok(whole)
    }

    fn cut(&mut self, held: &mut Held, list: &[u8]) -> Result<Vec<u16>, Mismatch> {
        let mut words = Vec::new();
        let mut rest = list;
        let longest = self.random.pick(&[1, 2, 9, 100, MOST_SAMPLES]);
        while !rest.is_empty() {
            if self.random.one_in(20) {
                self.refused(held, rest)?;
            }
            let length = self.random.between(0, longest).min(rest.len());
            let spare = if self.random.one_in(4) { self.random.between(1, 9) } else { 0 };
            let (part, after) = rest.split_at(length);
            words.extend(held.listen(part, length + spare)?);
            self.counts.calls += 1;
            rest = after;
        }
        Ok(words)
    }

    /// Too many samples, with room or without, and places that are too few.
    fn refused(&mut self, held: &mut Held, rest: &[u8]) -> Result<(), Mismatch> {
        let some = &rest[..rest.len().min(self.random.between(1, 40))];
        let room = self.random.below(some.len());
        held.listen(some, room)?;
        if self.random.one_in(50) {
            let room = self.random.pick(&[0, 3, TOO_MANY.len()]);
            held.listen(&TOO_MANY, room)?;
        }
        self.counts.refused += 1;
        Ok(())
    }

    /// What the next list begins with: the state as it is, a fresh one, a damaged one or one that is made up. What is
    /// refused is begun anew.
    fn next_state(&mut self, held: Held) -> Result<Held, String> {
        let bytes = match self.random.below(8) {
            0..=2 => return Ok(held),
            3 => return Held::begun().map_err(|mismatch| tell(&[], &[], &mismatch)),
            4 => self.flipped(held.bytes()),
            5 => self.other_length(held.bytes()),
            _ => self.made_up(),
        };
        self.counts.damaged += 1;
        let mut held = Held::of_bytes(&bytes);
        if held.is_fit() {
            return Ok(held);
        }
        let list = [2, 3, 2, 0];
        self.refused(&mut held, &list).map_err(|mismatch| tell(&bytes, &list, &mismatch))?;
        held.listen(&list, 4).map_err(|mismatch| tell(&bytes, &list, &mismatch))?;
        held.begin().map_err(|mismatch| tell(&bytes, &[], &mismatch))?;
        if held.is_fit() {
            return Ok(held);
        }
        Held::begun().map_err(|mismatch| tell(&[], &[], &mismatch))
    }

    /// In each place by itself, and what some samples then come to.
    fn every_value(&mut self, bytes: &[u8]) -> Result<(), String> {
        for (place, value) in (0..bytes.len()).flat_map(|place| (0..=u8::MAX).map(move |value| (place, value))) {
            let mut damaged = bytes.to_vec();
            damaged[place] = value;
            let list: Vec<u8> = (0..12).map(|_| self.random.byte()).collect();
            let listened = Held::of_bytes(&damaged).listen(&list, list.len());
            listened.map_err(|mismatch| tell(&damaged, &list, &mismatch))?;
            self.counts.damaged += 1;
        }
        Ok(())
    }

    fn flipped(&mut self, bytes: &[u8]) -> Vec<u8> {
        let mut flipped = bytes.to_vec();
        let bit = self.random.below(8 * bytes.len());
        flipped[bit / 8] ^= 1 << (bit % 8);
        flipped
    }

    fn other_length(&mut self, bytes: &[u8]) -> Vec<u8> {
        let length = self.random.between(0, 2 * WIRE_BYTES);
        bytes.iter().copied().cycle().take(length).collect()
    }

    /// Numbers in their ranges and just outside, whether samples lead there or not.
    fn made_up(&mut self) -> Vec<u8> {
        let random = &mut self.random;
        let version = if random.one_in(20) { random.byte() } else { 1 };
        let mut number = |most| match random.below(60) {
            0 => random.byte(),
            1 => most as u8 + 1,
            _ => random.between(0, most) as u8,
        };
        let [data, listens, count] = [number(1), number(3), number(8)];
        let run = if random.one_in(4) { random.word() } else { random.pick(&RUNS) };
        let [high, low] = run.to_be_bytes();
        vec![version, data, listens, count, random.byte(), high, low]
    }
}

/// Samples as digits: SCLK twice, SDAT once.
fn digits(samples: &[u8]) -> String {
    samples.iter().take(SHOWN).map(|sample| char::from(b'0' + (sample & 3))).collect()
}

/// What the list comes to, a sample a call.
fn one_by_one(before: &[u8], list: &[u8]) -> Result<(), Mismatch> {
    let mut held = Held::of_bytes(before);
    list.iter().try_for_each(|&sample| held.listen(&[sample], 1).map(|_| ()))
}

/// With the list as it was, and shortened as far as it still shows a mismatch.
fn tell(before: &[u8], list: &[u8], mismatch: &Mismatch) -> String {
    let short = shrink(list, |fewer| one_by_one(before, fewer).is_err());
    let mut told = tell_list(before, list, mismatch);
    if let Err(shortened) = one_by_one(before, &short) {
        told += "shortened, a sample a call: ";
        told += &tell_list(before, &short, &shortened);
    }
    told
}

fn tell_list(before: &[u8], list: &[u8], mismatch: &Mismatch) -> String {
    let Mismatch { asked, library, model } = mismatch;
    let more = if list.len() > SHOWN { " .." } else { "" };
    let samples = digits(list) + more;
    let head = format!("a list of {} samples\n  held before: {}\n  samples: {}\n", list.len(), hex(before), samples);
    head + &format!("  asked: {}\n  library: {}\n  model: {}\n", asked, library, model)
}
