//! The calls of the C interface as they are, numbers in and numbers out, over slices.
//!
//! Everything that the compiler can't check is here. What `include/dock.h` asks of a caller is true of every slice: its
//! pointer is aligned and good for its length, and one that may be written through overlaps no other.
#![allow(unsafe_code)]

use crate::{Dock, STATE_BYTES};

extern "C" {
    fn dock_version() -> u32;
    fn dock_begin(state: *mut u8, state_len: u64) -> u32;
    fn dock_step(state: *mut u8, state_len: u64, word: u16) -> u32;
    fn dock_batch(
        state: *mut u8,
        state_len: u64,
        words: *const u16,
        words_len: u64,
        records: *mut u8,
        records_len: u64,
    ) -> u32;
    fn dock_reading(state: *const u8, state_len: u64, address: u8) -> u32;
    fn dock_outputs(state: *const u8, state_len: u64) -> u32;
    fn dock_held_byte(state: *const u8, state_len: u64) -> u32;
    fn dock_name_kind(state: *mut u8, state_len: u64, kind: u8) -> u32;
    fn dock_replay(words: *const u16, words_len: u64, records: *mut u8, records_len: u64) -> u32;
    fn dock_pack(kind: u8, first: u16, second: u8) -> u32;
    fn dock_unpack(word: u16) -> u32;
    fn dock_wire_begin(held: *mut u8, held_len: u64) -> u32;
    fn dock_wire_listen(
        held: *mut u8,
        held_len: u64,
        samples: *const u8,
        samples_len: u64,
        words: *mut u16,
        words_len: u64,
    ) -> u32;
    fn dock_queue_begin(queue: *mut u8, queue_len: u64) -> u32;
    fn dock_queue_put(queue: *mut u8, queue_len: u64, word: u16) -> u32;
    fn dock_queue_take(queue: *mut u8, queue_len: u64) -> u32;
    fn dock_chassis_step(states: *mut u8, states_len: u64, record: u64, word: u16) -> u64;
}

/// A length has 64 bits in the interface, whatever a pointer has.
fn len<T>(slice: &[T]) -> u64 {
    slice.len() as u64
}

pub fn version() -> u32 {
    // SAFETY: takes nothing.
    unsafe { dock_version() }
}

pub fn begin(state: &mut [u8]) -> u32 {
    // SAFETY: the slice is lent for writing, and its own length goes with it.
    unsafe { dock_begin(state.as_mut_ptr(), len(state)) }
}

pub fn step(state: &mut [u8], word: u16) -> u32 {
    // SAFETY: the slice is lent for writing, and its own length goes with it.
    unsafe { dock_step(state.as_mut_ptr(), len(state), word) }
}

pub fn batch(state: &mut [u8], words: &[u16], records: &mut [u8]) -> u32 {
    let (words_at, records_at) = (words.as_ptr(), records.as_mut_ptr());
    // SAFETY: three slices, each with its own length; the two lent for writing overlap nothing.
    unsafe { dock_batch(state.as_mut_ptr(), len(state), words_at, len(words), records_at, len(records)) }
}

pub fn reading(state: &[u8], address: u8) -> u32 {
    // SAFETY: the slice goes with its own length; the call only reads.
    unsafe { dock_reading(state.as_ptr(), len(state), address) }
}

pub fn outputs(state: &[u8]) -> u32 {
    // SAFETY: the slice goes with its own length; the call only reads.
    unsafe { dock_outputs(state.as_ptr(), len(state)) }
}

pub fn held_byte(state: &[u8]) -> u32 {
    // SAFETY: the slice goes with its own length; the call only reads.
    unsafe { dock_held_byte(state.as_ptr(), len(state)) }
}

pub fn name_kind(state: &mut [u8], kind: u8) -> u32 {
    // SAFETY: the slice is lent for writing, and its own length goes with it.
    unsafe { dock_name_kind(state.as_mut_ptr(), len(state), kind) }
}

pub fn replay(words: &[u16], records: &mut [u8]) -> u32 {
    // SAFETY: two slices, each with its own length; the one lent for writing doesn't overlap the other.
    unsafe { dock_replay(words.as_ptr(), len(words), records.as_mut_ptr(), len(records)) }
}

pub fn pack(kind: u8, first: u16, second: u8) -> u32 {
    // SAFETY: numbers only.
    unsafe { dock_pack(kind, first, second) }
}

pub fn unpack(word: u16) -> u32 {
    // SAFETY: a number only.
    unsafe { dock_unpack(word) }
}

pub fn wire_begin(held: &mut [u8]) -> u32 {
    // SAFETY: the slice is lent for writing, and its own length goes with it.
    unsafe { dock_wire_begin(held.as_mut_ptr(), len(held)) }
}

pub fn wire_listen(held: &mut [u8], samples: &[u8], words: &mut [u16]) -> u32 {
    let (samples_at, words_at) = (samples.as_ptr(), words.as_mut_ptr());
    // SAFETY: three slices, each with its own length; the two lent for writing overlap nothing.
    unsafe { dock_wire_listen(held.as_mut_ptr(), len(held), samples_at, len(samples), words_at, len(words)) }
}

pub fn queue_begin(queue: &mut [u8]) -> u32 {
    // SAFETY: the slice is lent for writing, and its own length goes with it.
    unsafe { dock_queue_begin(queue.as_mut_ptr(), len(queue)) }
}

pub fn queue_put(queue: &mut [u8], word: u16) -> u32 {
    // SAFETY: the slice is lent for writing, and its own length goes with it.
    unsafe { dock_queue_put(queue.as_mut_ptr(), len(queue), word) }
}

pub fn queue_take(queue: &mut [u8]) -> u32 {
    // SAFETY: the slice is lent for writing, and its own length goes with it.
    unsafe { dock_queue_take(queue.as_mut_ptr(), len(queue)) }
}

pub fn chassis_step(states: &mut [u8], record: u64, word: u16) -> u64 {
    // SAFETY: the slice is lent for writing, and its own length goes with it.
    unsafe { dock_chassis_step(states.as_mut_ptr(), len(states), record, word) }
}

/// The images of the docks, one after the other. What a call leaves there is always an image of a fit state.
pub(crate) fn images(docks: &mut [Dock]) -> &mut [u8] {
    // SAFETY: a dock is its image and nothing else (`repr(transparent)`), and bytes need no alignment.
    unsafe { core::slice::from_raw_parts_mut(docks.as_mut_ptr().cast(), STATE_BYTES * docks.len()) }
}
