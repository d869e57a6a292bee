//! The wrapper's own part of the wire cell: what it makes of the library's numbers, and what it keeps on a refusal.

use dock::{Error, Refusal, Wire, MOST_SAMPLES, SCLK, SDAT, WIRE_BYTES};

const FRESH: [u8; WIRE_BYTES] = [1, 1, 0, 0, 0, 0, 0];
const LONGEST_LOW: usize = 17_500;

fn refused<T>(refusal: Refusal) -> Result<T, Error> {
    Err(Error::Refused(refusal))
}

/// A START, the own read byte and a byte that the host clocks in and does not acknowledge, and a STOP.
fn read() -> Vec<u8> {
    let nine = |value: u8, ninth: u8| (0..8).rev().map(move |place| value >> place & 1).chain([ninth]);
    let clock = |bit: u8| [bit, SCLK | bit, SCLK | bit, bit];
    let bits = nine(0x91, 0).chain(nine(0x55, 1));
    let ends = [SCLK | SDAT, SCLK];
    ends.into_iter().chain(bits.flat_map(clock)).chain([0, SCLK, SCLK | SDAT]).collect()
}

#[test]
fn a_fresh_one_is_what_the_header_says() {
    assert_eq!(Wire::new().unwrap().bytes(), &FRESH);
}

#[test]
fn samples_become_words_however_they_are_cut() {
    let samples = read();
    let mut whole = Wire::new().unwrap();
    let mut words = vec![0xEEEE; samples.len()];
    assert_eq!(whole.listen(&samples, &mut words), Ok(4));
    assert_eq!(words[..4], [0x0000, 0x4091, 0x6000, 0x2000]);
    assert!(words[4..].iter().all(|&word| word == 0xEEEE));
    for cut in 0..=samples.len() {
        let mut wire = Wire::new().unwrap();
        let mut by_parts = vec![0xEEEE; samples.len()];
        let first = wire.listen(&samples[..cut], &mut by_parts).unwrap();
        assert_eq!(wire.listen(&samples[cut..], &mut by_parts[first..]), Ok(4 - first));
        assert_eq!((&by_parts, &wire), (&words, &whole));
    }
}

#[test]
fn a_refused_call_leaves_image_and_words() {
    let mut wire = Wire::new().unwrap();
    let before = wire.clone();
    let mut words = [0xEEEE; 2];
    assert_eq!(wire.listen(&[SCLK; MOST_SAMPLES + 1], &mut words), refused(Refusal::TooManyWords));
    assert_eq!(wire.listen(&[SCLK; 3], &mut words), refused(Refusal::ShortAnswers));
    assert_eq!(words, [0xEEEE; 2]);
    assert_eq!(wire, before);
    assert_eq!(wire.listen(&[], &mut []), Ok(0));
    assert_eq!(wire, before);
    assert_eq!(wire.listen(&[SCLK | SDAT; MOST_SAMPLES], &mut [0; MOST_SAMPLES]), Ok(0));
}

#[test]
fn only_images_of_fit_states_come_back() {
    let wire = Wire::new().unwrap();
    assert_eq!(Wire::from_bytes(wire.bytes()), Ok(wire.clone()));
    assert_eq!(Wire::try_from(&wire.bytes()[..]), Ok(wire));
    for length in 0..WIRE_BYTES {
        assert_eq!(Wire::from_bytes(&FRESH[..length]), refused(Refusal::UnfitState));
    }
    assert_eq!(Wire::from_bytes(&[0; WIRE_BYTES + 1]), refused(Refusal::UnfitState));
    for (place, most) in [(1, 1), (2, 3), (3, 8), (4, 255), (5, 0x44), (6, 255)] {
        for byte in 0..=u8::MAX {
            let mut bytes = FRESH;
            bytes[place] = byte;
            assert_eq!(Wire::from_bytes(&bytes).is_ok(), byte <= most, "{} in byte {}", byte, place);
        }
    }
    assert!(Wire::from_bytes(&[1, 0, 0, 0, 0, 0x44, 0x5D]).is_ok());
    for unfit in [[1, 0, 0, 0, 0, 0x44, 0x5E], [0, 1, 0, 0, 0, 0, 0], [2, 1, 0, 0, 0, 0, 0]] {
        assert_eq!(Wire::from_bytes(&unfit), refused(Refusal::UnfitState));
    }
}

#[test]
fn a_clock_that_stays_low_is_told_once() {
    let mut wire = Wire::new().unwrap();
    let mut words = [0; 1];
    let given: Vec<_> = (0..3 * LONGEST_LOW).filter(|_| wire.listen(&[SDAT], &mut words) == Ok(1)).collect();
    assert_eq!(given, [LONGEST_LOW]);
    assert_eq!(words, [0xE000]);
}
