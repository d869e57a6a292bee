//! Bytes that nobody saved: images of any queue, fit or not, and what is no image.

use dock::{QUEUE_BYTES, QUEUE_WORDS};
use trial::Random;

const LAYOUT: u8 = 1;
const START: usize = 1;
const COUNT: usize = 3;
const WORDS: usize = 5;

/// Beyond the last fit start and the last fit count.
const STARTS: [u16; 6] = [128, 129, 255, 256, 0x7F00, 65_535];
const COUNTS: [u16; 6] = [129, 130, 255, 256, 0x8000, 65_535];

/// Every other length up to here.
const LONGEST: usize = QUEUE_BYTES + 10;

/// With anything in the ring.
pub fn image(random: &mut Random, start: u16, count: u16) -> Vec<u8> {
    let mut bytes = vec![LAYOUT; QUEUE_BYTES];
    bytes[START..COUNT].copy_from_slice(&start.to_be_bytes());
    bytes[COUNT..WORDS].copy_from_slice(&count.to_be_bytes());
    bytes[WORDS..].iter_mut().for_each(|byte| *byte = random.byte());
    bytes
}

/// All that a fit queue can have as its start and its count.
pub fn fit_numbers() -> impl Iterator<Item = (u16, u16)> {
    (0..QUEUE_WORDS as u16).flat_map(|start| (0..=QUEUE_WORDS as u16).map(move |count| (start, count)))
}

/// A fit one, with start and count often at an end of their ranges.
pub fn made_up(random: &mut Random) -> Vec<u8> {
    let mut number = |most| match random.below(4) {
        0 => random.pick(&[0, 1, most - 1, most]),
        _ => random.between(0, most.into()) as u16,
    };
    let [start, count] = [number(QUEUE_WORDS as u16 - 1), number(QUEUE_WORDS as u16)];
    image(random, start, count)
}

/// All of these are refused: numbers out of range, other layouts and other lengths.
pub fn refused(random: &mut Random) -> Vec<Vec<u8>> {
    let mut all = Vec::new();
    let [some_start, some_count] = [random.below(QUEUE_WORDS) as u16, random.between(0, QUEUE_WORDS) as u16];
    for start in STARTS {
        let counts = [0, 1, 128, some_count].into_iter().chain(COUNTS);
        all.extend(counts.map(|count| image(random, start, count)));
    }
    for count in COUNTS {
        all.extend([0, 127, some_start].map(|start| image(random, start, count)));
    }
    for layout in (0..=u8::MAX).filter(|&layout| layout != LAYOUT) {
        let mut bytes = made_up(random);
        bytes[0] = layout;
        all.push(bytes);
    }
    for length in (0..=LONGEST).filter(|&length| length != QUEUE_BYTES) {
        all.push(made_up(random).into_iter().cycle().take(length).collect());
        all.push((0..length).map(|_| random.byte()).collect());
    }
    all
}

pub fn flipped(random: &mut Random, bytes: &[u8]) -> Vec<u8> {
    let mut flipped = bytes.to_vec();
    // Half of them where the numbers stand, and not among the words.
    let end = random.pick(&[WORDS, bytes.len()]);
    let bit = random.below(8 * end);
    flipped[bit / 8] ^= 1 << (bit % 8);
    flipped
}
