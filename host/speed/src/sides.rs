//! What is timed: each takes the words from a fresh controller and writes a record for each.

use dock::ffi;
use model::{numbers, Controller};

pub type Side = fn(&[u16], &mut [u8]) -> u32;

pub const REPLAY: usize = 0;
pub const BATCH: usize = 1;
pub const PLAIN: usize = 2;
pub const MODEL: usize = 3;
pub const STEPS: usize = 4;
pub const MODEL_STEPS: usize = 5;

/// The whole list in one call, and from `STEPS` on a call for each word.
pub const SIDES: [Side; 6] = [ffi::replay, batch, plain::replay, numbers::replay, steps, model_steps];

fn begun() -> [u8; dock::STATE_BYTES] {
    let mut state = [0; dock::STATE_BYTES];
    ffi::begin(&mut state);
    state
}

fn batch(words: &[u16], records: &mut [u8]) -> u32 {
    ffi::batch(&mut begun(), words, records)
}

/// The same with the second kind named first, which the RESET at a list's beginning brings into force: the library's batch
/// and the model's, then a call for each word.
pub const SECOND: [Side; 4] = [second_batch, second_model, second_steps, second_model_steps];

const SECOND_KIND: u8 = 2;

fn begun_second() -> [u8; dock::STATE_BYTES] {
    let mut state = begun();
    ffi::name_kind(&mut state, SECOND_KIND);
    state
}

fn new_second() -> Controller {
    let mut dock = Controller::new();
    numbers::name_kind(&mut dock, SECOND_KIND);
    dock
}

fn second_batch(words: &[u16], records: &mut [u8]) -> u32 {
    ffi::batch(&mut begun_second(), words, records)
}

fn second_model(words: &[u16], records: &mut [u8]) -> u32 {
    numbers::batch(&mut new_second(), words, records)
}

fn second_steps(words: &[u16], records: &mut [u8]) -> u32 {
    let mut state = begun_second();
    one_by_one(words, records, |word| ffi::step(&mut state, word))
}

fn second_model_steps(words: &[u16], records: &mut [u8]) -> u32 {
    let mut dock = new_second();
    one_by_one(words, records, |word| dock.step(word).bits())
}

/// Gives the words to a call for each; the records keep it from being optimised away.
fn one_by_one(words: &[u16], records: &mut [u8], mut step: impl FnMut(u16) -> u32) -> u32 {
    for (&word, record) in words.iter().zip(records.chunks_exact_mut(dock::RECORD_BYTES)) {
        record.copy_from_slice(&step(word).to_be_bytes());
    }
    words.len() as u32
}

fn steps(words: &[u16], records: &mut [u8]) -> u32 {
    let mut state = begun();
    one_by_one(words, records, |word| ffi::step(&mut state, word))
}

/// The model's step is a function of another crate, so that it is called like the library's.
fn model_steps(words: &[u16], records: &mut [u8]) -> u32 {
    let mut dock = Controller::new();
    one_by_one(words, records, |word| dock.step(word).bits())
}
