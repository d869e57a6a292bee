//! One queue, held as bytes by the library and as a list by the model, and every call on it compared: the answer, every
//! byte of the queue, and bytes before and after them.

use crate::held::{answers_agree, bytes_agree, guarded, lent, GUARD};
use crate::{pattern, Mismatch};
use dock::ffi;
use model::{numbers, Queue, Refusal, QUEUE_BYTES};

pub struct HeldQueue {
    /// The library's bytes between guards, and what they should be.
    bytes: Vec<u8>,
    expected: Vec<u8>,
    /// None where the bytes are no image of a fit queue: then every call but a begin is refused with 1.
    model: Option<Queue>,
}

impl HeldQueue {
    pub fn of_bytes(queue: &[u8]) -> HeldQueue {
        let mut bytes = guarded(queue.len());
        lent(&mut bytes).copy_from_slice(queue);
        HeldQueue { expected: bytes.clone(), bytes, model: Queue::from_image(queue) }
    }

    /// A queue begun where something else was before.
    pub fn begun() -> Result<HeldQueue, Mismatch> {
        let mut held = HeldQueue::of_bytes(&pattern(QUEUE_BYTES));
        held.begin()?;
        Ok(held)
    }

    /// The library's bytes.
    pub fn bytes(&self) -> &[u8] {
        &self.bytes[GUARD..self.bytes.len() - GUARD]
    }

    pub fn model(&self) -> Option<&Queue> {
        self.model.as_ref()
    }

    pub fn begin(&mut self) -> Result<u32, Mismatch> {
        let library = ffi::queue_begin(lent(&mut self.bytes));
        let model = if self.bytes().len() == QUEUE_BYTES {
            self.model = Some(Queue::new());
            Ok(0)
        } else {
            Err(Refusal::UnfitState)
        };
        self.agree(library, model, || "dock_queue_begin".to_string())
    }

    pub fn put(&mut self, word: u16) -> Result<u32, Mismatch> {
        let library = ffi::queue_put(lent(&mut self.bytes), word);
        let model = self.model.as_mut().ok_or(Refusal::UnfitState).and_then(|queue| queue.put(word));
        self.agree(library, model.map(|()| 0), || format!("dock_queue_put, word {:04X}h", word))
    }

    pub fn take(&mut self) -> Result<u32, Mismatch> {
        let library = ffi::queue_take(lent(&mut self.bytes));
        let model = self.model.as_mut().ok_or(Refusal::UnfitState).and_then(Queue::take);
        self.agree(library, model, || "dock_queue_take".to_string())
    }

    /// The answer, which is given back, and then every byte of the queue with its guards.
    fn agree(
        &mut self,
        library: u32,
        model: Result<u16, Refusal>,
        asked: impl Fn() -> String,
    ) -> Result<u32, Mismatch> {
        answers_agree(library, numbers::answer(model), &asked)?;
        if let Some(queue) = &self.model {
            lent(&mut self.expected).copy_from_slice(&queue.image());
        }
        bytes_agree(&self.bytes, &self.expected, || asked() + ", bytes of the queue")?;
        Ok(library)
    }
}
