//! One held state of the wire cell, as bytes by the library and as a struct by the model, and every call on it compared.

use dock::ffi;
use model::{numbers, Refusal, Wire, WIRE_BYTES};
use trial::{hex, pattern};

/// Bytes and places on either side of what is lent, which no call may touch.
const GUARD: usize = 8;

/// What was asked, and the two answers that differ.
pub struct Mismatch {
    pub asked: String,
    pub library: String,
    pub model: String,
}

pub struct Held {
    /// The library's bytes between guards, and what they should be.
    bytes: Vec<u8>,
    expected: Vec<u8>,
    /// None where the bytes are no image of a fit state: then samples are refused with 1.
    model: Option<Wire>,
}

fn lent<T>(list: &mut [T]) -> &mut [T] {
    let end = list.len() - GUARD;
    &mut list[GUARD..end]
}

/// Places in which an untouched one can be told: no word of the cell's has this pattern.
fn places(count: usize) -> Vec<u16> {
    (0..GUARD + count + GUARD).map(|place| 0x9A5A ^ (place as u16 & 0xFF)).collect()
}

fn words_in_hex(words: &[u16]) -> String {
    words.iter().map(|word| format!("{:04X}", word)).collect::<Vec<_>>().join(" ")
}

impl Held {
    pub fn of_bytes(state: &[u8]) -> Held {
        let mut bytes = pattern(GUARD + state.len() + GUARD);
        lent(&mut bytes).copy_from_slice(state);
        Held { expected: bytes.clone(), bytes, model: Wire::from_image(state) }
    }

    /// A state begun where something else was before.
    pub fn begun() -> Result<Held, Mismatch> {
        let mut held = Held::of_bytes(&pattern(WIRE_BYTES));
        held.begin()?;
        Ok(held)
    }

    /// The library's bytes.
    pub fn bytes(&self) -> &[u8] {
        &self.bytes[GUARD..self.bytes.len() - GUARD]
    }

    pub fn is_fit(&self) -> bool {
        self.model.is_some()
    }

    pub fn begin(&mut self) -> Result<(), Mismatch> {
        let library = ffi::wire_begin(lent(&mut self.bytes));
        let model = if self.bytes().len() == WIRE_BYTES {
            self.model = Some(Wire::new());
            Ok(0)
        } else {
            Err(Refusal::UnfitState)
        };
        self.agree(library, numbers::answer(model), || "dock_wire_begin".to_string())
    }

    /// The words that came.
    pub fn listen(&mut self, samples: &[u8], room: usize) -> Result<Vec<u16>, Mismatch> {
        let mut words = places(room);
        let mut expected = words.clone();
        let library = ffi::wire_listen(lent(&mut self.bytes), samples, lent(&mut words));
        let model = match &mut self.model {
            Some(wire) => wire.listen(samples, lent(&mut expected)),
            None => Err(Refusal::UnfitState),
        };
        let asked = || format!("dock_wire_listen, {} samples, {} places", samples.len(), room);
        self.agree(library, numbers::answer(model.map(|count| count as u16)), asked)?;
        if words != expected {
            let first = (0..words.len()).find(|&place| words[place] != expected[place]).unwrap_or(0);
            let shown = |words: &[u16]| words_in_hex(&words[first..words.len().min(first + GUARD)]);
            let asked = format!("{}, words from [{}] on", asked(), first as isize - GUARD as isize);
            return Err(Mismatch { asked, library: shown(&words), model: shown(&expected) });
        }
        Ok(lent(&mut words)[..model.unwrap_or(0)].to_vec())
    }

    /// The answer, and then every held byte with its guards.
    fn agree(&mut self, library: u32, model: u32, asked: impl Fn() -> String) -> Result<(), Mismatch> {
        if library != model {
            let shown = |answer| format!("{:08X}h", answer);
            return Err(Mismatch { asked: asked(), library: shown(library), model: shown(model) });
        }
        if let Some(wire) = &self.model {
            lent(&mut self.expected).copy_from_slice(&wire.image());
        }
        if self.bytes != self.expected {
            let asked = asked() + ", held bytes between their guards";
            return Err(Mismatch { asked, library: hex(&self.bytes), model: hex(&self.expected) });
        }
        Ok(())
    }
}
