//! Byte strings that are no image, that are nearly one, and that are one of a state nobody would reach.

use model::STATE_BYTES;
use std::ops::Range;
use trial::Random;

const LAYOUT: u8 = 4;

const FLAGS: Range<usize> = 1..41;
const STARTED: usize = 1;
pub const KIND: usize = 2;
pub const NAMED: usize = 3;

/// Each number of one byte, and the last value of it that is fit, in both kinds.
const NUMBERS: [(usize, u8); 22] = [
    (41, 15),
    (42, 3),
    (43, 3),
    (44, 255),
    (45, 199),
    (46, 255),
    (47, 255),
    (48, 255),
    (49, 255),
    (50, 7),
    (51, 7),
    (52, 255),
    (53, 9),
    (54, 9),
    (55, 4),
    (56, 4),
    (57, 4),
    (62, 9),
    (63, 9),
    (64, 4),
    (65, 4),
    (66, 4),
];

/// Each number of two bytes, a bay's pulse or its wait, and the last fit value of it by the kind in force.
pub const TICKS: [(usize, [u16; 2]); 4] = [(58, [200, 1200]), (60, [255, 560]), (67, [200, 1200]), (69, [255, 560])];

pub const PROGRESS: usize = 71;

/// How many bytes beside the progress each of the nine uses.
pub const USED: [usize; 9] = [0, 0, 0, 1, 2, 1, 1, 1, 2];

pub fn noise(random: &mut Random, length: usize) -> Vec<u8> {
    (0..length).map(|_| random.byte()).collect()
}

/// A number of two bytes, the high one first.
pub fn put_ticks(bytes: &mut [u8], place: usize, ticks: u16) {
    bytes[place..place + 2].copy_from_slice(&ticks.to_be_bytes());
}

/// Right in most places: half are images of fit states, the others have a number or two out of range, and now and then
/// a byte that no image has.
pub fn made(random: &mut Random) -> Vec<u8> {
    let mut bytes = vec![0; STATE_BYTES];
    bytes[0] = LAYOUT;
    FLAGS.for_each(|place| bytes[place] = random.byte() & 1);
    // A state that never started does nothing, so most have.
    bytes[STARTED] |= u8::from(!random.one_in(8));
    for (place, most) in NUMBERS {
        bytes[place] = fit(random, most.into()) as u8;
    }
    for (place, most) in TICKS {
        let ticks = fit(random, most[usize::from(bytes[KIND])]);
        put_ticks(&mut bytes, place, ticks);
    }
    let progress = random.below(USED.len());
    bytes[PROGRESS] = progress as u8;
    (1..=USED[progress]).for_each(|place| bytes[PROGRESS + place] = random.byte());
    match random.below(8) {
        0 => bytes[random.below(STATE_BYTES)] = random.byte(),
        1 | 2 => (0..random.between(1, 2)).for_each(|_| unfit(random, &mut bytes)),
        3 => unfit_ticks(random, &mut bytes),
        _ => {}
    }
    bytes
}

/// In range, often at its ends, where the rules have their edges, or nearly at an end where it falls.
fn fit(random: &mut Random, most: u16) -> u16 {
    match random.below(8) {
        0 | 1 => 0,
        2 => random.between(1, 2) as u16,
        3 | 4 => most - random.below(2) as u16,
        _ => random.below(usize::from(most) + 1) as u16,
    }
}

fn unfit(random: &mut Random, bytes: &mut [u8]) {
    let limited: Vec<(usize, u8)> = NUMBERS.into_iter().filter(|&(_, most)| most < u8::MAX).collect();
    let (place, most) = random.pick(&limited);
    let least = usize::from(most) + 1;
    let value = if random.one_in(2) { least } else { random.between(least, 255) };
    bytes[place] = value as u8;
}

/// Just out of range, in the range of the other kind, or anywhere beyond.
fn unfit_ticks(random: &mut Random, bytes: &mut [u8]) {
    let (place, most) = random.pick(&TICKS);
    let most = most[usize::from(bytes[KIND])];
    let beyond = random.between(usize::from(most) + 1, 0xFFFF) as u16;
    let near = random.between(usize::from(most) + 1, 1201) as u16;
    let ticks = random.pick(&[most + 1, near, beyond]);
    put_ticks(bytes, place, ticks);
}

/// What an older library saved of the same state: before 5.0 in layout 3, without what the second kind has, and before
/// 4.0 in layout 2, without waits as well.
pub fn older(image: &[u8]) -> [Vec<u8>; 2] {
    let of_second_kind = |place| matches!(place, 2 | 3 | 6..=12 | 46..=52 | 58 | 60 | 67 | 69);
    let of_waits = |place| matches!(place, 44 | 61 | 70);
    let without = |layout, left_out: &dyn Fn(usize) -> bool| {
        let places = (0..image.len()).filter(|&place| !left_out(place));
        let mut bytes: Vec<u8> = places.map(|place| image[place]).collect();
        bytes[0] = layout;
        bytes
    };
    [without(3, &of_second_kind), without(2, &|place| of_second_kind(place) || of_waits(place))]
}
