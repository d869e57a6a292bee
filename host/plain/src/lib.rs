//! Safe calls into the C controller of `plain.c`, which has the shape of the library's calls and is of the first kind
//! alone, into the wire cell of `wire.c`, and into the queue of `queue.c`, which has the library's image and answers.

extern "C" {
    fn plain_replay(words: *const u16, words_len: usize, records: *mut u8, records_len: usize) -> u32;
    fn plain_reading(words: *const u16, words_len: usize, address: u8) -> u32;
    fn plain_outputs(words: *const u16, words_len: usize) -> u32;
    fn plain_wire_begin(wire: *mut Wire);
    fn plain_wire_listen(wire: *mut Wire, samples: *const u8, count: usize, words: *mut u16) -> usize;
    fn plain_queue_put(queue: *mut u8, queue_len: u64, word: u16) -> u32;
    fn plain_queue_take(queue: *mut u8, queue_len: u64) -> u32;
}

/// Replays the words from a fresh controller and writes a record for each.
pub fn replay(words: &[u16], records: &mut [u8]) -> u32 {
    // SAFETY: both pointers are good for their lengths, and a mutable borrow overlaps no other.
    unsafe { plain_replay(words.as_ptr(), words.len(), records.as_mut_ptr(), records.len()) }
}

/// What the register at `address` reads after the words.
pub fn reading(words: &[u16], address: u8) -> u32 {
    // SAFETY: the pointer is good for the length; the call only reads.
    unsafe { plain_reading(words.as_ptr(), words.len(), address) }
}

/// The nine outputs after the words.
pub fn outputs(words: &[u16]) -> u32 {
    // SAFETY: the pointer is good for the length; the call only reads.
    unsafe { plain_outputs(words.as_ptr(), words.len()) }
}

/// As the header has it.
#[repr(C)]
#[derive(Default)]
pub struct Wire {
    data: u8,
    listens: u8,
    count: u8,
    value: u8,
    low_run: u16,
}

impl Wire {
    pub fn new() -> Wire {
        let mut wire = Wire::default();
        // SAFETY: the struct has the layout of the header's.
        unsafe { plain_wire_begin(&mut wire) };
        wire
    }

    /// Counts the words. There must be a place for each sample.
    pub fn listen(&mut self, samples: &[u8], words: &mut [u16]) -> usize {
        assert!(words.len() >= samples.len());
        // SAFETY: both pointers are good for as many elements as there are samples.
        unsafe { plain_wire_listen(self, samples.as_ptr(), samples.len(), words.as_mut_ptr()) }
    }
}

pub fn queue_put(queue: &mut [u8], word: u16) -> u32 {
    // SAFETY: the slice is lent for writing, and its own length goes with it.
    unsafe { plain_queue_put(queue.as_mut_ptr(), queue.len() as u64, word) }
}

pub fn queue_take(queue: &mut [u8]) -> u32 {
    // SAFETY: the slice is lent for writing, and its own length goes with it.
    unsafe { plain_queue_take(queue.as_mut_ptr(), queue.len() as u64) }
}
