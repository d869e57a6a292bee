//! One state, held as bytes by the library and as a controller by the model, and every call on it compared: the answer,
//! every byte of the state, every byte of the records, and bytes before and after both.

use crate::{pattern, Call, Room};
use dock::ffi;
use model::{numbers, Answer, Controller, Refusal, MOST_WORDS, STATE_BYTES};
use std::fmt::UpperHex;
use std::mem::size_of;

/// Bytes on either side of what is lent, which no call may touch.
pub(crate) const GUARD: usize = 16;

/// So many of the bytes that differ are told.
const SHOWN_BYTES: usize = 8;

/// One word more than a batch takes, all ticks.
pub static TOO_MANY: [u16; MOST_WORDS + 1] = [0xA000; MOST_WORDS + 1];

/// What was asked, and the two answers that differ.
pub struct Mismatch {
    pub asked: String,
    pub library: String,
    pub model: String,
}

pub struct Held {
    /// The library's bytes between guards, and what they should be.
    bytes: Vec<u8>,
    expected: Vec<u8>,
    /// None where the bytes are no image of a fit state: then every call but a begin is refused with 1.
    model: Option<Controller>,
}

/// A part lent, between its guards.
pub(crate) fn lent(bytes: &mut [u8]) -> &mut [u8] {
    let end = bytes.len() - GUARD;
    &mut bytes[GUARD..end]
}

pub(crate) fn guarded(length: usize) -> Vec<u8> {
    pattern(GUARD + length + GUARD)
}

fn answer(result: Result<u16, Refusal>) -> u32 {
    numbers::answer(result)
}

impl Held {
    pub fn of_bytes(state: &[u8]) -> Held {
        let mut bytes = guarded(state.len());
        lent(&mut bytes).copy_from_slice(state);
        Held { expected: bytes.clone(), bytes, model: Controller::from_image(state) }
    }

    /// A state begun where something else was before.
    pub fn begun() -> Result<Held, Mismatch> {
        let mut held = Held::of_bytes(&pattern(STATE_BYTES));
        held.begin()?;
        Ok(held)
    }

    /// The library's bytes.
    pub fn bytes(&self) -> &[u8] {
        &self.bytes[GUARD..self.bytes.len() - GUARD]
    }

    pub fn model(&self) -> Option<&Controller> {
        self.model.as_ref()
    }

    pub fn begin(&mut self) -> Result<(), Mismatch> {
        let library = ffi::begin(lent(&mut self.bytes));
        let model = if self.bytes().len() == STATE_BYTES {
            self.model = Some(Controller::new());
            Ok(0)
        } else {
            Err(Refusal::UnfitState)
        };
        self.agree(library, answer(model), || "dock_begin".to_string())
    }

    pub fn step(&mut self, word: u16) -> Result<(), Mismatch> {
        let library = ffi::step(lent(&mut self.bytes), word);
        let model = self.model.as_mut().map_or(Answer::UNFIT, |dock| dock.step(word));
        self.agree(library, model.bits(), || format!("dock_step, word {:04X}h", word))
    }

    /// Counts the records.
    pub fn batch(&mut self, words: &[u16], room: Room) -> Result<usize, Mismatch> {
        let mut records = guarded(room.bytes(words.len()));
        let mut expected = records.clone();
        let library = ffi::batch(lent(&mut self.bytes), words, lent(&mut records));
        let model = match &mut self.model {
            Some(dock) => dock.batch(words, lent(&mut expected)),
            None => Err(Refusal::UnfitState),
        };
        let asked = || format!("dock_batch, {} words, room {:?}", words.len(), room);
        self.agree(library, answer(model.map(|count| count as u16)), asked)?;
        bytes_agree(&records, &expected, || asked() + ", bytes of the records")?;
        Ok(model.unwrap_or(0))
    }

    pub fn reading(&mut self, address: u8) -> Result<(), Mismatch> {
        let library = ffi::reading(lent(&mut self.bytes), address);
        let model = self.model.as_ref().ok_or(Refusal::UnfitState).map(|dock| dock.reading(address).into());
        self.agree(library, answer(model), || format!("dock_reading, address {:02X}h", address))
    }

    pub fn outputs(&mut self) -> Result<(), Mismatch> {
        let library = ffi::outputs(lent(&mut self.bytes));
        let model = self.model.as_ref().ok_or(Refusal::UnfitState).map(Controller::outputs);
        self.agree(library, answer(model), || "dock_outputs".to_string())
    }

    pub fn held_byte(&mut self) -> Result<(), Mismatch> {
        let library = ffi::held_byte(lent(&mut self.bytes));
        let model = self.model.as_ref().ok_or(Refusal::UnfitState).map(numbers::held_byte);
        self.agree(library, answer(model), || "dock_held_byte".to_string())
    }

    pub fn name_kind(&mut self, number: u8) -> Result<(), Mismatch> {
        let library = ffi::name_kind(lent(&mut self.bytes), number);
        let model = match &mut self.model {
            Some(dock) => numbers::name_kind(dock, number),
            None => answer(Err(Refusal::UnfitState)),
        };
        self.agree(library, model, || format!("dock_name_kind, number {}", number))
    }

    /// A word by a step, or a name.
    pub fn call(&mut self, call: Call) -> Result<(), Mismatch> {
        match call {
            Call::Word(word) => self.step(word),
            Call::Name(number) => self.name_kind(number),
        }
    }

    /// The answer, and then every byte of the state with its guards.
    fn agree(&mut self, library: u32, model: u32, asked: impl Fn() -> String) -> Result<(), Mismatch> {
        answers_agree(library, model, &asked)?;
        if let Some(dock) = &self.model {
            lent(&mut self.expected).copy_from_slice(&dock.image());
        }
        bytes_agree(&self.bytes, &self.expected, || asked() + ", bytes of the state")
    }
}

pub(crate) fn answers_agree<A>(library: A, model: A, asked: impl Fn() -> String) -> Result<(), Mismatch>
where
    A: PartialEq + UpperHex,
{
    if library == model {
        return Ok(());
    }
    let digits = 2 * size_of::<A>();
    let shown = |answer| format!("{:0digits$X}h", answer);
    Err(Mismatch { asked: asked(), library: shown(library), model: shown(model) })
}

/// Places are counted from the first byte after the guard; those before it are below 0.
pub(crate) fn bytes_agree(library: &[u8], model: &[u8], asked: impl Fn() -> String) -> Result<(), Mismatch> {
    if library == model {
        return Ok(());
    }
    let differing = (0..model.len()).filter(|&place| library[place] != model[place]).take(SHOWN_BYTES);
    let shown = |bytes: &[u8]| {
        let one = |place: usize| format!("[{}] {:02X}", place as isize - GUARD as isize, bytes[place]);
        differing.clone().map(one).collect::<Vec<_>>().join(", ")
    };
    Err(Mismatch { asked: asked(), library: shown(library), model: shown(model) })
}
