//! A list of states, held as bytes by the library and as controllers by the model, and every call on it compared: the
//! answer, every byte of the list, and bytes before and after them.

use crate::held::{answers_agree, bytes_agree, guarded, lent, GUARD};
use crate::Mismatch;
use dock::ffi;
use model::{numbers, Chassis, ChassisAnswer, Refusal, STATE_BYTES};

pub struct HeldChassis {
    /// The library's bytes between guards, and what they should be.
    bytes: Vec<u8>,
    expected: Vec<u8>,
    /// None where the bytes end within an image: then every event is refused with 9.
    model: Option<Chassis>,
}

impl HeldChassis {
    pub fn of_bytes(states: &[u8]) -> HeldChassis {
        let mut bytes = guarded(states.len());
        lent(&mut bytes).copy_from_slice(states);
        HeldChassis { expected: bytes.clone(), bytes, model: Chassis::from_images(states) }
    }

    /// The library's bytes.
    pub fn bytes(&self) -> &[u8] {
        &self.bytes[GUARD..self.bytes.len() - GUARD]
    }

    pub fn model(&self) -> Option<&Chassis> {
        self.model.as_ref()
    }

    pub fn step(&mut self, record: u64, word: u16) -> Result<u64, Mismatch> {
        let library = ffi::chassis_step(lent(&mut self.bytes), record, word);
        let model = match &mut self.model {
            Some(chassis) => chassis.step(record, word),
            None => ChassisAnswer::refused(Refusal::ChassisLength),
        };
        self.agree(library, model.bits(), || format!("dock_chassis_step, record {}, word {:04X}h", record, word))
    }

    /// Names the kind of one record, as an image of its own. Nothing where there is no such record.
    pub fn name_kind(&mut self, place: usize, number: u8) -> Result<(), Mismatch> {
        let image = lent(&mut self.bytes).chunks_exact_mut(STATE_BYTES).nth(place);
        let record = self.model.as_mut().and_then(|chassis| chassis.records_mut().get_mut(place));
        let (library, model) = match (image, record) {
            (Some(image), Some(Some(dock))) => (ffi::name_kind(image, number), numbers::name_kind(dock, number)),
            (Some(image), Some(None)) => (ffi::name_kind(image, number), numbers::answer(Err(Refusal::UnfitState))),
            _ => return Ok(()),
        };
        self.agree(library, model, || format!("dock_name_kind of record {}, number {}", place, number)).map(|_| ())
    }

    /// The answer, which is given back, and then every byte of the list with its guards.
    fn agree<A>(&mut self, library: A, model: A, asked: impl Fn() -> String) -> Result<A, Mismatch>
    where
        A: Copy + PartialEq + std::fmt::UpperHex,
    {
        answers_agree(library, model, &asked)?;
        if let Some(chassis) = &self.model {
            let images = lent(&mut self.expected).chunks_exact_mut(STATE_BYTES);
            for (image, dock) in images.zip(chassis.records()) {
                if let Some(dock) = dock {
                    image.copy_from_slice(&dock.image());
                }
            }
        }
        bytes_agree(&self.bytes, &self.expected, || asked() + ", bytes of the list")?;
        Ok(library)
    }
}
