//! Pulses of the first kind that begin with LETR as the RESET left it: they show in the outputs where a RESET starts
//! LETR, so the lists must come to them with the short pulse and without.

use crate::image::{Image, DATA};
use crate::situations::situations;

const STOP: u16 = 0x2000;
const LETR: u8 = 0x40;

situations!(
    Pulses,
    "pulses with LETR unwritten",
    Long: "of 50 ticks",
    Short: "short",
);

impl Pulses {
    /// A word between these two images; LETR may have been written since the RESET.
    pub fn count(&mut self, word: u16, before: Image, after: Image, written: bool) {
        if word != STOP || written || before.progress()[0] != DATA {
            return;
        }
        for (was, is) in before.bays().into_iter().zip(after.bays()) {
            let begun = is.pulse() > was.pulse();
            self.came(Came::Long, begun && after.lock_time() == 1);
            self.came(Came::Short, begun && after.lock_time() == 0);
        }
    }
}

/// Whether this word is the STOP of a write to LETR.
pub fn writes_letr(word: u16, before: Image) -> bool {
    word == STOP && matches!(before.progress(), [DATA, LETR, _])
}
