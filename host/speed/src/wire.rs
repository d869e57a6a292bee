//! The wire cell: the library's, the one in C and the model's on the same samples.

use crate::median;
use dock::{ffi, SCLK, SDAT, WIRE_BYTES};
use model::MOST_SAMPLES;
use std::time::Instant;

type Side = fn(&[u8], &mut [u16]) -> usize;

/// All samples in one call, and then a call for each.
const SIDES: [Side; 5] = [library, plain, of_model, library_singly, plain_singly];

fn begun() -> [u8; WIRE_BYTES] {
    let mut held = [0; WIRE_BYTES];
    ffi::wire_begin(&mut held);
    held
}

fn library(samples: &[u8], words: &mut [u16]) -> usize {
    ffi::wire_listen(&mut begun(), samples, words) as usize
}

fn plain(samples: &[u8], words: &mut [u16]) -> usize {
    plain::Wire::new().listen(samples, words)
}

fn of_model(samples: &[u8], words: &mut [u16]) -> usize {
    model::Wire::new().listen(samples, words).unwrap_or(0)
}

fn singly(samples: &[u8], words: &mut [u16], mut listen: impl FnMut(&[u8], &mut [u16]) -> usize) -> usize {
    samples.chunks(1).fold(0, |count, one| count + listen(one, &mut words[count..]))
}

fn library_singly(samples: &[u8], words: &mut [u16]) -> usize {
    let mut held = begun();
    singly(samples, words, |one, rest| ffi::wire_listen(&mut held, one, rest) as usize)
}

fn plain_singly(samples: &[u8], words: &mut [u16]) -> usize {
    let mut wire = plain::Wire::new();
    singly(samples, words, |one, rest| wire.listen(one, rest))
}

/// A bus at 100 kHz: five samples for each bit, of which two are high.
fn traffic() -> Vec<u8> {
    let nine = |value: u8, ninth: u8| (0..8).rev().map(move |place| value >> place & 1).chain([ninth]);
    let clock = |bit: u8| [bit, bit, SCLK | bit, SCLK | bit, bit];
    let byte = |value, ninth| nine(value, ninth).flat_map(clock);
    let start = || [SDAT, SCLK | SDAT, SCLK | SDAT, SCLK, 0];
    let stop = [0, SCLK, SCLK, SCLK | SDAT, SCLK | SDAT];
    let write = start().into_iter().chain(byte(0x90, 0)).chain(byte(0x10, 0));
    let read = start().into_iter().chain(byte(0x91, 0)).chain(byte(0x55, 1)).chain(stop);
    let part: Vec<u8> = write.chain(read).collect();
    part.into_iter().cycle().take(MOST_SAMPLES).collect()
}

fn medians(samples: &[u8], repeats: usize) -> [f64; SIDES.len()] {
    let mut buffers = SIDES.map(|_| vec![0; samples.len()]);
    let mut times = SIDES.map(|_| Vec::with_capacity(repeats));
    for _ in 0..repeats {
        for (place, side) in SIDES.into_iter().enumerate() {
            buffers[place].fill(0);
            let begin = Instant::now();
            side(samples, &mut buffers[place]);
            times[place].push(begin.elapsed().as_nanos() as f64 / samples.len() as f64);
        }
    }
    assert!(buffers.iter().all(|buffer| buffer == &buffers[0]), "all must agree on what they are timed for");
    times.map(|mut of_side| median(&mut of_side))
}

pub fn compare(repeats: usize) {
    println!();
    println!(
        "{:<36} {:>9} {:>9} {:>9} {:>9} {:>12} {:>9} {:>9} {:>9}",
        "the wire cell, ns per sample",
        "listen",
        "C, -O3",
        "model",
        "listen/C",
        "listen/model",
        "singly",
        "C, -O3",
        "ratio"
    );
    for (name, samples) in [
        ("idle lines", vec![SCLK | SDAT; MOST_SAMPLES]),
        ("a clock held low", vec![SDAT; MOST_SAMPLES]),
        ("a bus at 100 kHz", traffic()),
    ] {
        let [library, plain, model, singly, plain_singly] = medians(&samples, repeats);
        print!("{:<36} {:>9.2} {:>9.2} {:>9.2} ", name, library, plain, model);
        print!("{:>9.2} {:>12.2} ", library / plain, library / model);
        println!("{:>9.2} {:>9.2} {:>9.2}", singly, plain_singly, singly / plain_singly);
    }
}
