//! Lists to begin with: of records that others left, with one that is damaged or a copy of another, and of other
//! lengths.

use dock::STATE_BYTES;
use model::CHASSIS_RECORDS;
use trial::Random;

const STARTED: usize = 1;
const KIND: usize = 2;
const STRAPS: usize = 41;
const PROGRESS: usize = 71;

/// So many images are kept for later lists.
const KEPT: usize = 64;

/// The longest list that is tried, of five records and a part of a sixth.
pub const LONGEST: usize = 5 * STATE_BYTES + 9;

/// Whether a list has one to four whole records.
pub fn is_of_right_length(bytes: &[u8]) -> bool {
    bytes.len() % STATE_BYTES == 0 && (1..=CHASSIS_RECORDS).contains(&(bytes.len() / STATE_BYTES))
}

/// Images that lists have come to, of both kinds and anywhere in a command.
#[derive(Default)]
pub struct Pool {
    images: Vec<Vec<u8>>,
}

impl Pool {
    pub fn keep(&mut self, random: &mut Random, list: &[u8]) {
        for image in list.chunks_exact(STATE_BYTES) {
            if self.images.len() < KEPT {
                self.images.push(image.to_vec());
            } else {
                self.images[random.below(KEPT)] = image.to_vec();
            }
        }
    }

    /// So many records, also two of one address or both with a read open.
    pub fn list(&self, random: &mut Random, count: usize) -> Vec<u8> {
        (0..count).flat_map(|_| self.images[random.below(self.images.len())].clone()).collect()
    }
}

fn image(list: &mut [u8], place: usize) -> &mut [u8] {
    &mut list[STATE_BYTES * place..STATE_BYTES * (place + 1)]
}

/// Two different places of a list, where it has two.
fn two_places(random: &mut Random, list: &[u8]) -> Option<(usize, usize)> {
    let count = list.len() / STATE_BYTES;
    let one = random.below(count);
    (count > 1).then(|| (one, (one + random.between(1, count - 1)) % count))
}

/// One record is a copy of another: both have one address, and both a read open where the first has.
fn copied(random: &mut Random, list: &mut [u8]) {
    if let Some((one, other)) = two_places(random, list) {
        let copy = image(list, one).to_vec();
        image(list, other).copy_from_slice(&copy);
    }
}

/// All have an address of their own, as far as the straps have one.
fn spread(random: &mut Random, list: &mut [u8]) {
    let first = random.byte();
    for (place, image) in list.chunks_exact_mut(STATE_BYTES).enumerate() {
        image[STRAPS] = (first.wrapping_add(place as u8) & 3) << 2 | image[STRAPS] & 3;
    }
}

/// A record is in the middle of a read, as the kind in force has it.
fn open_read(random: &mut Random, image: &mut [u8]) {
    let [register, value] = [random.byte(), random.byte()];
    let progress = if image[KIND] == 0 { [6, value, 0] } else { [8, register, value] };
    image[PROGRESS..].copy_from_slice(&progress);
}

/// Records with addresses of their own, two of which have a read open; often one of the two does not count, since it is
/// not started or its read is one of the other kind.
fn two_readers(random: &mut Random, list: &mut [u8]) {
    spread(random, list);
    if let Some((one, other)) = two_places(random, list) {
        open_read(random, image(list, one));
        open_read(random, image(list, other));
        match random.below(4) {
            0 => image(list, other)[STARTED] = 0,
            1 => image(list, other)[KIND] ^= 1,
            _ => {}
        }
    }
}

/// All are as far in a command, so that one byte is for all of them.
fn all_addressed(random: &mut Random, list: &mut [u8]) {
    spread(random, list);
    let register = random.byte();
    let progress = random.pick(&[[2, 0, 0], [3, register, 0]]);
    list.chunks_exact_mut(STATE_BYTES).for_each(|image| image[PROGRESS..].copy_from_slice(&progress));
}

fn flipped(random: &mut Random, list: &mut [u8]) {
    let bit = random.below(8 * list.len());
    list[bit / 8] ^= 1 << (bit % 8);
}

/// One is not started, whatever else it holds.
fn stopped(random: &mut Random, list: &mut [u8]) {
    let place = random.below(list.len() / STATE_BYTES);
    image(list, place)[STARTED] = 0;
}

/// A list of one to four records that nobody saved.
pub fn made_up(random: &mut Random, pool: &Pool) -> Vec<u8> {
    let count = random.between(1, CHASSIS_RECORDS);
    let list = pool.list(random, count);
    changed(random, list)
}

/// So many bytes of such records, the last of them cut.
pub fn of_length(random: &mut Random, pool: &Pool, length: usize) -> Vec<u8> {
    let list = pool.list(random, length / STATE_BYTES + 1);
    let mut list = changed(random, list);
    list.truncate(length);
    list
}

fn changed(random: &mut Random, mut list: Vec<u8>) -> Vec<u8> {
    match random.below(10) {
        0 => {}
        1 => copied(random, &mut list),
        2 => flipped(random, &mut list),
        3 | 4 => two_readers(random, &mut list),
        5 => all_addressed(random, &mut list),
        6 => {
            spread(random, &mut list);
            flipped(random, &mut list);
        }
        _ => spread(random, &mut list),
    }
    if random.one_in(3) {
        stopped(random, &mut list);
    }
    list
}
