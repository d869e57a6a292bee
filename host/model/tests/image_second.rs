//! The image of a state of the second kind, by hand, and what goes on from one that no words lead to.

mod images;

use images::{loaded, with};
use model::{Controller, Kind};
use paper::words::{byte, pins, read_all, reset, take, write, write_all, START, TICK};

/// From a fresh controller with the second kind named.
fn after(words: &[u16]) -> Controller {
    let mut dock = Controller::new();
    dock.name_kind(2).unwrap();
    give(&mut dock, words);
    dock
}

fn give(dock: &mut Controller, words: &[u16]) {
    words.iter().for_each(|&word| {
        dock.step(word);
    });
}

const N: u16 = reset(0, 0xFF);

/// What every image after N in the second kind has: started, in force, named, bay count 2.
const AFTER_N: [(usize, u8); 4] = [(1, 1), (2, 1), (3, 1), (42, 2)];

fn after_n(places: &[(usize, u8)]) -> Vec<u8> {
    with(&[&AFTER_N[..], places].concat()).to_vec()
}

#[test]
fn a_name_is_a_flag_and_a_reset_puts_it_beside_itself() {
    let mut dock = Controller::new();
    dock.name_kind(2).unwrap();
    assert_eq!(dock.image(), with(&[(3, 1)]));
    dock.step(N);
    assert_eq!(dock.image()[..], after_n(&[]));
    dock.name_kind(1).unwrap();
    assert_eq!(dock.image()[..], after_n(&[(3, 0)]));
    dock.step(N);
    assert_eq!(dock.image(), with(&[(1, 1), (43, 1)]));
}

#[test]
fn registers_have_their_places() {
    let words = [
        &[reset(0x6, 0xFF)][..],
        &write_all(0x92, 0x08, &[0x11, 0x22]),
        &write_all(0x92, 0x0B, &[0x44, 0x1F]),
        &write(0x92, 0x21, 0xFD),
        &write(0x92, 0xFC, 0xE3),
    ]
    .concat();
    let flags = [(1, 1), (2, 1), (3, 1), (4, 1), (5, 1), (6, 1), (7, 1), (9, 1), (11, 1), (12, 1)];
    let numbers = [(41, 6), (42, 2), (46, 0x11), (47, 0x22), (49, 0x44), (51, 5), (52, 0xE3)];
    let dock = after(&words);
    assert_eq!(dock.image(), with(&[&flags[..], &numbers].concat()));
    // A RESET keeps 08h to 0Bh and BAY_FF with its flag, and frees the rest.
    let mut again = dock;
    again.step(N);
    let kept = [(11, 1), (46, 0x11), (47, 0x22), (49, 0x44), (51, 5)];
    assert_eq!(again.image()[..], after_n(&kept));
    let mut first = loaded(&after_n(&kept));
    first.name_kind(1).unwrap();
    first.step(N);
    assert_eq!(first.image(), with(&[&[(1, 1), (43, 1)][..], &kept].concat()));
}

#[test]
fn pulses_and_waits_have_two_bytes() {
    // Bay 0 waits for 560 ticks less 3, and bay 1's pulse has 1200 less 13.
    let words = [
        &[N][..],
        &write(0x90, 0xFC, 0xFF),
        &write(0x90, 0x18, 0x80),
        &write(0x90, 0x18, 0x00),
        &[pins(0xBF)],
        &[TICK; 13],
    ]
    .concat();
    let bay_0 = [(14, 0), (17, 0), (60, 2), (61, 0x2D)];
    let bay_1 = [(67, 4), (68, 0xA3)];
    let shared = [(12, 1), (45, 13), (52, 0xFF)];
    assert_eq!(after(&words).image()[..], after_n(&[&shared[..], &bay_0, &bay_1].concat()));
}

#[test]
fn transfers_have_two_numbers_of_their_own() {
    let progress = |words: &[u16]| after(&[&[N], words].concat()).image()[71..].to_vec();
    let write = write_all(0x90, 0xFE, &[1, 2, 3]);
    let read = read_all(0x90, 0xFF, 3);
    assert_eq!(progress(&write[..3]), [3, 0xFE, 0]);
    assert_eq!(progress(&write[..4]), [7, 0xFF, 0]);
    assert_eq!(progress(&write[..5]), [7, 0x00, 0]);
    assert_eq!(progress(&write[..6]), [7, 0x01, 0]);
    assert_eq!(progress(&write), [0, 0, 0]);
    assert_eq!(progress(&read[..4]), [5, 0xFF, 0]);
    assert_eq!(progress(&read[..5]), [8, 0xFF, 0x00]);
    assert_eq!(progress(&read[..6]), [8, 0x00, 0x60]);
    assert_eq!(progress(&read[..7]), [8, 0x01, 0x12]);
    assert_eq!(progress(&read), [0, 0, 0]);
}

/// A number of two bytes from this place on.
fn ticks(place: usize, ticks: u16) -> [(usize, u8); 2] {
    let [high, low] = ticks.to_be_bytes();
    [(place, high), (place + 1, low)]
}

#[test]
fn ticks_are_fit_up_to_the_limits_of_the_kind_in_force() {
    for (kind, pulse, wait) in [(0, 200, 255), (1, 1200, 560)] {
        for (place, most) in [(58, pulse), (60, wait), (67, pulse), (69, wait)] {
            let of = |number| with(&[&[(2, kind)][..], &ticks(place, number)].concat());
            loaded(&of(most));
            for beyond in [most + 1, most + 256, 0x8000, u16::MAX] {
                assert_eq!(Controller::from_image(&of(beyond)), None, "byte {}, {}", place, beyond);
            }
        }
    }
}

#[test]
fn the_name_has_no_say_in_what_is_fit() {
    for named in 0..2 {
        assert!(Controller::from_image(&with(&[(2, 1), (3, named), (60, 2)])).is_some());
        assert!(Controller::from_image(&with(&[(2, 0), (3, named), (60, 2)])).is_none());
    }
}

/// Whatever the other kind left there.
#[test]
fn any_byte_and_flag_that_only_the_second_kind_uses_is_fit_in_both() {
    for kind in 0..2 {
        (6..13).for_each(|flag| drop(loaded(&with(&[(2, kind), (flag, 1)]))));
        for (place, most) in [(44, 255), (46, 255), (47, 255), (48, 255), (49, 255), (50, 7), (51, 7), (52, 255)] {
            loaded(&with(&[(2, kind), (place, most)]));
        }
        (0..9).for_each(|progress| drop(loaded(&with(&[(2, kind), (71, progress)]))));
    }
}

#[test]
fn progress_of_the_other_kind_counts_as_none() {
    for (kind, places) in [(1, [(4, 0x10, 0x04), (6, 0x39, 0)]), (0, [(7, 0x10, 0), (8, 0x10, 0x39)])] {
        for (progress, first, second) in places {
            let state = with(&[(1, 1), (2, kind), (71, progress), (72, first), (73, second)]);
            let none = with(&[(1, 1), (2, kind)]);
            for word in [START, byte(0x04), take(true), take(false)] {
                let (mut begun, mut idle) = (loaded(&state), loaded(&none));
                assert_eq!(begun.step(word), idle.step(word));
                assert_eq!(begun.image(), idle.image());
            }
            // PINS and TICK are passed over, and so is what can't go on.
            let mut ticked = loaded(&state);
            give(&mut ticked, &[TICK, pins(0xFF)]);
            assert_eq!(ticked.image()[71..], [progress, first, second]);
        }
    }
}

#[test]
fn a_saved_read_goes_on_with_its_byte_and_its_number() {
    let mut dock = loaded(&after_n(&[(71, 8), (72, 0xFF), (73, 0x39)]));
    assert_eq!(dock.kind(), Kind::Second);
    let taken: Vec<u32> = [true, true, false, false].iter().map(|&ack| dock.step(take(ack)).bits()).collect();
    assert_eq!(taken, [0x0672_0000, 0x06C0_0000, 0x0624_0000, 0x09FE_0000]);
}

#[test]
fn a_saved_write_goes_on_with_its_number() {
    let mut dock = loaded(&after_n(&[(71, 7), (72, 0xFF)]));
    give(&mut dock, &[byte(1); 10]);
    assert_eq!(dock.image()[..], after_n(&[(6, 1), (46, 1), (71, 7), (72, 9)]));
}
