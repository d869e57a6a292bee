//! Safe calls into the driver of `c/driver.c`.

use dock::{STATE_BYTES, WIRE_BYTES};

#[repr(C)]
pub struct Driver {
    held: [u8; WIRE_BYTES],
    acks: u8,
    pulls: u8,
}

extern "C" {
    fn driver_begin(driver: *mut Driver);
    fn driver_listen(driver: *mut Driver, samples: *const u8, samples_len: usize, words: *mut u16) -> usize;
    fn driver_heed(driver: *mut Driver, word: u16, record: u32);
    fn driver_pulls(driver: *mut Driver, state: *const u8) -> i32;
}

impl Driver {
    pub fn new() -> Driver {
        let mut driver = Driver { held: [0; WIRE_BYTES], acks: 0, pulls: 0 };
        // SAFETY: the struct has the layout of the header's.
        unsafe { driver_begin(&mut driver) };
        driver
    }

    pub fn listen(&mut self, samples: &[u8]) -> Vec<u16> {
        let mut words = vec![0; samples.len().max(1)];
        // SAFETY: there is a place for each sample, and at least one.
        let count = unsafe { driver_listen(self, samples.as_ptr(), samples.len(), words.as_mut_ptr()) };
        words.truncate(count);
        words
    }

    pub fn heed(&mut self, word: u16, record: u32) {
        // SAFETY: the struct and two numbers.
        unsafe { driver_heed(self, word, record) }
    }

    pub fn pulls(&mut self, state: &[u8; STATE_BYTES]) -> bool {
        // SAFETY: the state has the length that the driver takes it to have.
        unsafe { driver_pulls(self, state.as_ptr()) != 0 }
    }

    /// A bit of what the wire cell holds, flipped.
    pub fn damage(&mut self, bit: usize) {
        self.held[bit / 8] ^= 1 << (bit % 8);
    }
}
