//! Which damaged states are tried, and what is tried with each.

use crate::counts::Table;
use crate::strings::{self, KIND, NAMED, PROGRESS, TICKS, USED};
use model::{is_image, Controller, STATE_BYTES};
use std::collections::HashSet;
use trial::{hex, lists, Call, Held, Mismatch, Random, Room, TOO_MANY};

/// A reached state comes after a list of at most so many words and names.
const MOST_BEFORE: usize = 400;

/// How many words and names an accepted state is given.
const CALLS_AFTER: usize = 36;

/// So many reached states have every value tried in every byte, and every length.
const THOROUGH: usize = 8;

/// Where a pulse or a wait is fit in both kinds, in one or in none.
const EDGES: [u16; 14] = [0, 1, 199, 200, 201, 255, 256, 559, 560, 561, 1199, 1200, 1201, 0xFFFF];

pub struct Trials {
    random: Random,
    table: Table,
}

impl Trials {
    pub fn new(seed: u64) -> Trials {
        Trials { random: Random::new(seed, 0), table: Table::default() }
    }

    pub fn everything(&mut self, states: usize, strings: usize) -> Result<(), String> {
        let reached = self.reached(states)?;
        let thorough = &reached[..THOROUGH.min(reached.len())];
        Table::head("damaged states", "words after");
        self.part("single bits flipped", |trials| reached.iter().try_for_each(|image| trials.flips(image)))?;
        self.part("every value of every byte", |trials| thorough.iter().try_for_each(|image| trials.values(image)))?;
        self.part("pulses and waits at edges", |trials| reached.iter().try_for_each(|image| trials.ticks(image)))?;
        self.part("commands of either kind", |trials| reached.iter().try_for_each(|image| trials.commands(image)))?;
        self.part("random strings", |trials| trials.noise(strings))?;
        self.part("strings made of fields", |trials| trials.made(strings))?;
        self.part("every length", |trials| thorough.iter().try_for_each(|image| trials.lengths(image)))?;
        self.part("what an older one saved", |trials| reached.iter().try_for_each(|image| trials.older(image)))?;
        self.table.end();
        let second = reached.iter().filter(|image| image[KIND] == 1).count();
        println!("images of {} reached states, {} of the second kind, damaged: 0 mismatches", reached.len(), second);
        Ok(())
    }

    fn part(&mut self, name: &str, run: impl Fn(&mut Trials) -> Result<(), String>) -> Result<(), String> {
        run(self).map_err(|told| format!("{}: {}", name, told))?;
        self.table.row(name);
        Ok(())
    }

    /// Images of different states of both kinds, each after a list, as the library holds them.
    fn reached(&mut self, states: usize) -> Result<Vec<Vec<u8>>, String> {
        let mut seen = HashSet::new();
        let mut reached = Vec::new();
        while reached.len() < states {
            let length = self.random.between(1, MOST_BEFORE);
            let list = lists::mixed(&mut self.random, length);
            let image = after(&list).map_err(|mismatch| tell(&format!("on the way, {}", shown(&list)), &mismatch))?;
            if seen.insert(image.clone()) {
                reached.push(image);
            }
        }
        Ok(reached)
    }

    fn flips(&mut self, image: &[u8]) -> Result<(), String> {
        for bit in 0..8 * image.len() {
            let mut bytes = image.to_vec();
            bytes[bit / 8] ^= 1 << (bit % 8);
            self.judge(&bytes)?;
        }
        Ok(())
    }

    fn values(&mut self, image: &[u8]) -> Result<(), String> {
        for place in 0..image.len() {
            for value in 0..=u8::MAX {
                let mut bytes = image.to_vec();
                bytes[place] = value;
                self.judge(&bytes)?;
            }
        }
        Ok(())
    }

    /// Each pulse and each wait at every edge, with either kind in force and either named.
    fn ticks(&mut self, image: &[u8]) -> Result<(), String> {
        for (place, kind) in TICKS.iter().flat_map(|&(place, _)| [(place, 0), (place, 1)]) {
            for ticks in EDGES {
                let mut bytes = self.of_kind(image, kind);
                strings::put_ticks(&mut bytes, place, ticks);
                self.judge(&bytes)?;
            }
        }
        Ok(())
    }

    /// Each progress, of the own kind, of the other and of none, with bytes where it uses them, and one where it doesn't.
    fn commands(&mut self, image: &[u8]) -> Result<(), String> {
        for (progress, kind) in (0..=USED.len()).flat_map(|progress| [(progress, 0), (progress, 1)]) {
            let mut bytes = self.of_kind(image, kind);
            bytes[PROGRESS..].fill(0);
            bytes[PROGRESS] = progress as u8;
            let used = USED.get(progress).copied().unwrap_or(0);
            bytes[PROGRESS + 1..][..used].fill_with(|| self.random.byte());
            self.judge(&bytes)?;
            bytes[PROGRESS + 1 + self.random.below(2)] = self.random.pick(&lists::ADDRESSES);
            self.judge(&bytes)?;
        }
        Ok(())
    }

    /// The image with this kind in force and one of the two named.
    fn of_kind(&mut self, image: &[u8], kind: u8) -> Vec<u8> {
        let mut bytes = image.to_vec();
        bytes[KIND] = kind;
        bytes[NAMED] = self.random.byte() & 1;
        bytes
    }

    fn noise(&mut self, strings: usize) -> Result<(), String> {
        (0..strings).try_for_each(|_| {
            let bytes = strings::noise(&mut self.random, STATE_BYTES);
            self.judge(&bytes)
        })
    }

    fn made(&mut self, strings: usize) -> Result<(), String> {
        (0..strings).try_for_each(|_| {
            let bytes = strings::made(&mut self.random);
            self.judge(&bytes)
        })
    }

    /// The image cut, or followed by zeros, by itself or by anything, and random bytes throughout.
    fn lengths(&mut self, image: &[u8]) -> Result<(), String> {
        for length in 0..=2 * STATE_BYTES {
            let tails = [vec![0; STATE_BYTES], image.to_vec(), strings::noise(&mut self.random, STATE_BYTES)];
            for tail in tails {
                self.judge(&[image, &tail].concat()[..length])?;
            }
            let bytes = strings::noise(&mut self.random, length);
            self.judge(&bytes)?;
        }
        Ok(())
    }

    /// What an older library saved, as it is and followed by zeros or by its like. With the number of this layout some
    /// of these are images, and the model says of which state.
    fn older(&mut self, image: &[u8]) -> Result<(), String> {
        let zeros = vec![0; STATE_BYTES];
        for older in strings::older(image) {
            for tail in [&[][..], &zeros, &older] {
                let mut bytes = [&older[..], tail].concat();
                bytes.truncate(STATE_BYTES);
                self.judge(&bytes)?;
                bytes[0] = image[0];
                self.judge(&bytes)?;
            }
        }
        Ok(())
    }

    /// The model says what the bytes are; every call must treat them so.
    fn judge(&mut self, bytes: &[u8]) -> Result<(), String> {
        let mut held = Held::of_bytes(bytes);
        self.table.part.tried += 1;
        let outcome = match held.model().cloned() {
            Some(dock) => {
                self.table.part.accepted += 1;
                self.goes_on(&mut held, &dock)
            }
            None => {
                self.table.part.no_image += usize::from(!is_image(bytes));
                self.table.part.unfit += usize::from(is_image(bytes));
                self.is_refused(&mut held)
            }
        };
        outcome.map_err(|mismatch| tell(&format!("state {}", hex(bytes)), &mismatch))
    }

    /// By every call but the last, which begins a fresh state where the length is right.
    fn is_refused(&mut self, held: &mut Held) -> Result<(), Mismatch> {
        let word = self.random.word();
        held.step(word)?;
        held.batch(&[0xC0BF, word, 0xA000], Room::Exact)?;
        held.batch(&[word], Room::Short(1))?;
        held.batch(&[], Room::Spare(4))?;
        held.batch(&TOO_MANY, Room::Short(usize::MAX))?;
        let address = self.random.pick(&lists::ADDRESSES);
        held.reading(address)?;
        held.outputs()?;
        held.held_byte()?;
        held.name_kind(word as u8)?;
        held.name_kind(2)?;
        held.begin()
    }

    /// The registers and outputs of the state, then words and names, half of them one by one and half in batches.
    fn goes_on(&mut self, held: &mut Held, dock: &Controller) -> Result<(), Mismatch> {
        let list = lists::onward(&mut self.random, dock, CALLS_AFTER);
        let (by_steps, by_batches) = list.split_at(CALLS_AFTER / 2);
        questions(held)?;
        by_steps.iter().try_for_each(|&call| held.call(call).and_then(|()| held.held_byte()))?;
        questions(held)?;
        in_batches(held, by_batches)?;
        questions(held)?;
        self.table.part.after += list.iter().filter(|call| call.word().is_some()).count();
        Ok(())
    }
}

fn questions(held: &mut Held) -> Result<(), Mismatch> {
    held.outputs()?;
    held.held_byte()?;
    lists::ADDRESSES.iter().try_for_each(|&address| held.reading(address))
}

/// The words in as few batches as the names between them allow.
fn in_batches(held: &mut Held, list: &[Call]) -> Result<(), Mismatch> {
    let mut rest = list;
    while let Some(&call) = rest.first() {
        let words = Call::until_name(rest);
        if words.is_empty() {
            held.call(call)?;
        } else {
            held.batch(&words, Room::Exact)?;
        }
        rest = &rest[words.len().max(1)..];
    }
    Ok(())
}

fn after(list: &[Call]) -> Result<Vec<u8>, Mismatch> {
    let mut held = Held::begun()?;
    in_batches(&mut held, list)?;
    Ok(held.bytes().to_vec())
}

fn shown(list: &[Call]) -> String {
    list.iter().map(Call::to_string).collect::<Vec<_>>().join(" ")
}

pub fn tell(what: &str, mismatch: &Mismatch) -> String {
    let Mismatch { asked, library, model } = mismatch;
    format!("{}\n  asked: {}\n  library: {}\n  model: {}\n", what, asked, library, model)
}
