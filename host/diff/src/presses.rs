//! Presses that rules of the first kind differ on. Where a tick accepts one with REMREQ_STS clear, a rule that asks for
//! no device, or for the one that was there before the tick, goes another way than the paper's: the lists must come to
//! these ticks.

use crate::image::{Bay, Image, BUTTON, REMREQ_STS};
use crate::situations::situations;

situations!(
    Presses,
    "first presses",
    Nothing: "over nothing",
    Arrives: "as a device arrives",
    Leaves: "as it leaves",
    Device: "over a device",
);

impl Presses {
    /// A tick between these two images.
    pub fn count(&mut self, before: Image, after: Image) {
        before.bays().into_iter().zip(after.bays()).for_each(|(was, is)| self.count_in_bay(was, is));
    }

    fn count_in_bay(&mut self, was: Bay, is: Bay) {
        let accepted = !was.is_low(BUTTON) && is.is_low(BUTTON);
        let what = match (was.has_contact(), is.has_contact()) {
            (false, false) => Came::Nothing,
            (false, true) => Came::Arrives,
            (true, false) => Came::Leaves,
            (true, true) => Came::Device,
        };
        self.came(what, accepted && !was.has(REMREQ_STS));
    }
}
