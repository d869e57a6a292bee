//! "Event words" and "Replies and refusal numbers": what is refused, with which number, and what comes with it.

use crate::words::{byte, START, STOP, TICK, TIMEOUT};
use crate::Expected::{Batch, Outputs, Reads, Records};
use crate::{example, record, w, Example, OWN, R};

const MOST_WORDS: usize = 16_384;

/// A batch's answer: a refusal number with count 0.
const fn refused(number: u32) -> u32 {
    number << 16
}

pub fn examples() -> Vec<Example> {
    let three = [R, START, STOP];
    let begun = [R, START, 0x1000, byte(OWN), 0x4100, byte(0x14), byte(0x04), 0x2001, STOP];
    vec![
        example("3 words", &[&three], vec![Batch { room: 11, answer: refused(4) }, Batch { room: 12, answer: 3 }]),
        example("spare bytes", &[&three], vec![Batch { room: 14, answer: 3 }, Batch { room: 0, answer: refused(4) }]),
        example("no words", &[], vec![Batch { room: 0, answer: 0 }, Batch { room: 7, answer: 0 }]),
        example(
            "the most words",
            &[&[R], &[TICK; MOST_WORDS - 1]],
            vec![
                Batch { room: 4 * MOST_WORDS, answer: MOST_WORDS as u32 },
                Batch { room: 4 * MOST_WORDS - 1, answer: refused(4) },
            ],
        ),
        example(
            "one word too many, before short answers",
            &[&[R], &[TICK; MOST_WORDS]],
            vec![Batch { room: 4 * MOST_WORDS + 4, answer: refused(5) }, Batch { room: 0, answer: refused(5) }],
        ),
        example("fresh", &[], vec![Reads(0x00, 0), Reads(0x10, 0), Outputs(0)]),
        example(
            "before the first RESET",
            &[&[TICK, 0x0001, TIMEOUT, byte(OWN), 0xE001]],
            vec![
                Records(vec![3, 2, 3, 3, 2].into_iter().map(|number| record(number, 0, 0, 0)).collect()),
                Reads(0x00, 0),
                Outputs(0),
            ],
        ),
        example("a refused word leaves an open command alone", &[&begun], vec![Reads(0x10, 0x15)]),
        example(
            "a refused word comes with the outputs as they are",
            &[&[R], &w(0x14, 0xA1), &[0xFFFF]],
            vec![Records(vec![record(2, 0, 0, 0x1C0)]), Outputs(0x1C0)],
        ),
        example(
            "each bit that must be 0",
            &[&[R, 0x0001, 0x3000, 0x4100, 0x6002, 0x8100, 0xA080, 0xE001]],
            vec![Records(vec![record(2, 0, 0, 0); 7])],
        ),
        example("no bit of a RESET must be 0", &[&[0xDFFF]], vec![Records(vec![record(0, 0, 0, 0x088)])]),
    ]
}
