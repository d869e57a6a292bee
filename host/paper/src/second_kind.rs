//! Document 03, the second kind: its bench examples, and examples of ours for the sentences that they leave out.

mod bench;
mod names;
mod outputs;
mod registers;
mod transfers;
mod waits;

use crate::Story;

/// What is not 0 after a RESET with nothing anywhere: vendor, revision and DBCCR.
const AFTER_N: [(u8, u8); 4] = [(0x00, 0x60), (0x01, 0x12), (0x04, 0x01), (0x0C, 0x02)];

/// The second kind is named, then.
fn second(name: impl Into<String>) -> Story {
    Story::new(name).names(2)
}

/// All of them, in the paper's order.
pub fn stories() -> Vec<Story> {
    [
        names::stories(),
        transfers::stories(),
        registers::stories(),
        waits::stories(),
        outputs::stories(),
        bench::stories(),
    ]
    .into_iter()
    .flatten()
    .collect()
}
