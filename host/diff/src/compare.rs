//! One question to the model and to the controllers that are held against it, and whether the answers agree.

use crate::sides::{LIBRARY, MODEL, PLAIN};
use crate::walk::{self, Way};
use dock::ffi;
use model::{numbers, Controller, RECORD_BYTES};
use trial::{hex, pattern, Call, Room};

/// What is asked about a list. Only a walk takes names; the other questions are about its words. The library answers
/// readings and outputs on its walks.
#[derive(Clone, Copy, Debug)]
pub enum Question {
    Replay(Room),
    Walk(Way, u64),
    Reading(u8),
    Outputs,
}

/// An answer that is not the model's. The position is that of the word that is told of, where there is one.
pub struct Mismatch {
    pub position: Option<usize>,
    pub asked: String,
    pub side: &'static str,
    pub answer: String,
    pub model: String,
}

impl Mismatch {
    fn of_answers(asked: &str, side: &'static str, answer: u32, model: u32) -> Option<Mismatch> {
        let shown = |answer: u32| format!("{:08X}h (refusal {}, value {})", answer, answer >> 16, answer & 0xFFFF);
        if answer == model {
            return None;
        }
        let asked = asked.to_string();
        Some(Mismatch { position: None, asked, side, answer: shown(answer), model: shown(model) })
    }

    fn of_buffers(asked: &str, side: &'static str, buffer: &[u8], model: &[u8]) -> Option<Mismatch> {
        if buffer == model {
            return None;
        }
        let pairs = buffer.chunks(RECORD_BYTES).zip(model.chunks(RECORD_BYTES));
        let (place, (four, of_model)) = pairs.enumerate().find(|(_, (four, of_model))| four != of_model)?;
        let asked = format!("{}, the record", asked);
        Some(Mismatch { position: Some(place), asked, side, answer: hex(four), model: hex(of_model) })
    }
}

/// Asks all, each from the list alone.
pub fn ask(question: Question, list: &[Call]) -> Option<Mismatch> {
    let words = Call::words(list);
    match question {
        Question::Replay(room) => replay(&words, room).err(),
        Question::Walk(way, seed) => walk::walk(list, way, seed).err(),
        Question::Reading(address) => reading(&words, address, &Controller::after(&words)),
        Question::Outputs => outputs(&words, &Controller::after(&words)),
    }
}

/// The whole buffer is compared: records, spare bytes, and all of it where the call is refused. Counts the records.
pub fn replay(words: &[u16], room: Room) -> Result<usize, Mismatch> {
    let before = pattern(room.bytes(words.len()));
    let mut of_model = before.clone();
    let model = (MODEL.replay)(words, &mut of_model);
    for side in [LIBRARY, PLAIN] {
        let mut buffer = before.clone();
        let answer = (side.replay)(words, &mut buffer);
        let asked = format!("replay, room {:?}", room);
        let mismatch = Mismatch::of_answers(&asked, side.name, answer, model);
        if let Some(mismatch) = mismatch.or_else(|| Mismatch::of_buffers(&asked, side.name, &buffer, &of_model)) {
            return Err(mismatch);
        }
    }
    // A refused batch counts 0.
    Ok((model & 0xFFFF) as usize)
}

/// Of the C controller; `after` is the model after the words.
pub fn reading(words: &[u16], address: u8, after: &Controller) -> Option<Mismatch> {
    let asked = format!("reading of {:02X}h", address);
    Mismatch::of_answers(&asked, PLAIN.name, (PLAIN.reading)(words, address), after.reading(address).into())
}

/// Of the C controller; `after` is the model after the words.
pub fn outputs(words: &[u16], after: &Controller) -> Option<Mismatch> {
    Mismatch::of_answers("outputs", PLAIN.name, (PLAIN.outputs)(words), after.outputs().into())
}

pub fn unpack(word: u16) -> Option<Mismatch> {
    Mismatch::of_answers("dock_unpack", LIBRARY.name, ffi::unpack(word), numbers::unpack(word))
}

pub fn pack(kind: u8, first: u16, second: u8) -> Option<Mismatch> {
    Mismatch::of_answers("dock_pack", LIBRARY.name, ffi::pack(kind, first, second), numbers::pack(kind, first, second))
}
