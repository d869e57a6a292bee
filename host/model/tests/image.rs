//! The image of a state of the first kind, by hand, and which bytes are none.

mod images;

use images::{fresh, loaded, with};
use model::{is_image, Controller};
use paper::words::{byte, pins, read, reset, reset_short, write, START, STOP, TICK};

#[test]
fn a_fresh_state_is_two_empty_bays() {
    assert_eq!(Controller::new().image(), fresh());
}

#[test]
fn a_reset_stores_straps_levels_and_where_letr_starts() {
    // Straps 0110: address 92h, LOCK_DEF. Levels: USB in bay 0, nSL of bay 1.
    let places = [(1, 1), (14, 0), (17, 0), (21, 1), (22, 1), (33, 0), (36, 1), (41, 6)];
    let image = |word| Controller::after(&[word]).image();
    assert_eq!(image(reset_short(0x6, 0xBE)), with(&places));
    assert_eq!(image(reset(0x6, 0xBE)), with(&[&places[..], &[(43, 1)]].concat()));
}

#[test]
fn registers_and_counts_have_their_places() {
    let words = [
        &[reset(0x1, 0xFF)][..],
        &write(0x90, 0x0C, 0x12),
        &write(0x90, 0x40, 0x02),
        &write(0x90, 0x42, 0x5A),
        &write(0x90, 0x1C, 0xCA),
        &write(0x90, 0x1C, 0x34),
        &[pins(0x3F), TICK, pins(0x1D), TICK, TICK],
    ]
    .concat();
    let flags = [(1, 1), (4, 1), (5, 1), (13, 0), (14, 0), (15, 0), (29, 0), (38, 1)];
    let numbers = [(41, 1), (42, 2), (43, 2), (44, 0x5A), (45, 3)];
    let of_bays = [(53, 3), (54, 3), (55, 2), (64, 2), (66, 3), (68, 97)];
    assert_eq!(Controller::after(&words).image(), with(&[&flags[..], &numbers, &of_bays].concat()));
}

#[test]
fn a_command_of_the_first_kind_is_one_of_seven_numbers() {
    let write = write(0x90, 0x10, 0xAB);
    let read = read(0x90, 0x00);
    let progress = |words: &[u16]| Controller::after(&[&[0xC0FF], words].concat()).image()[71..].to_vec();
    assert_eq!(progress(&[]), [0, 0, 0]);
    assert_eq!(progress(&[START]), [1, 0, 0]);
    assert_eq!(progress(&[START, byte(0x90)]), [2, 0, 0]);
    assert_eq!(progress(&write[..3]), [3, 0x10, 0]);
    assert_eq!(progress(&write[..4]), [4, 0x10, 0xAB]);
    assert_eq!(progress(&read[..4]), [5, 0x00, 0]);
    assert_eq!(progress(&read[..5]), [6, 0x55, 0]);
}

#[test]
fn what_is_no_image() {
    let image = fresh();
    assert!(is_image(&image));
    [73, 54, 51].iter().for_each(|&length| assert!(!is_image(&image[..length])));
    assert!(!is_image(&[&image[..], &[0]].concat()));
    assert!(!is_image(&[]));
    [0, 1, 2, 3, 5].iter().for_each(|&version| assert!(!is_image(&with(&[(0, version)]))));
    (1..41).for_each(|flag| assert!(!is_image(&with(&[(flag, 2)])), "flag {}", flag));
    assert!(!is_image(&with(&[(71, 9)])));
    (0..3).for_each(|progress| assert!(!is_image(&with(&[(71, progress), (72, 1)]))));
    [0, 1, 2, 3, 5, 6, 7].iter().for_each(|&progress| assert!(!is_image(&with(&[(71, progress), (73, 1)]))));
}

#[test]
fn numbers_are_fit_up_to_the_papers_limits() {
    let of_bays = [53, 62].into_iter().flat_map(|bay| [9, 9, 4, 4, 4].into_iter().zip(bay..));
    let pulses = [(200, 59), (200, 68)];
    let limits = [15, 3, 3].into_iter().zip(41..).chain([(199, 45), (7, 50), (7, 51)]).chain(of_bays).chain(pulses);
    assert_eq!(limits.clone().count(), 18);
    for (most, place) in limits {
        loaded(&with(&[(place, most)]));
        let beyond = with(&[(place, most + 1)]);
        assert!(is_image(&beyond), "byte {}", place);
        assert_eq!(Controller::from_image(&beyond), None, "byte {}", place);
    }
}

#[test]
fn before_a_reset_nothing_shows() {
    // Enabled with power, interrupting, a read under way: but not started.
    let mut dock = loaded(&with(&[(21, 1), (24, 1), (26, 1), (44, 9), (56, 2), (71, 6), (72, 0x39)]));
    assert_eq!(dock.outputs(), 0);
    assert_eq!(dock.reading(0x00), 0);
    assert_eq!(dock.reading(0x10), 0);
    assert_eq!(dock.reading(0x42), 0);
    assert_eq!(dock.step(0x6001).record(), [0x30, 0, 0, 0]);
}

#[test]
fn a_closed_bay_that_is_not_empty_is_passed_by() {
    // Bay 1 Enabled with power and an interrupt, a count, a pulse and a wait, while the bay count is 1.
    let closed = [(1, 1), (35, 1), (38, 1), (40, 1), (27, 0), (42, 1), (62, 9), (65, 2), (68, 7), (70, 1)];
    let mut dock = loaded(&with(&closed));
    assert_eq!(dock.outputs(), 0);
    assert_eq!(dock.reading(0x18), 0);
    dock.step(pins(0xF0));
    dock.step(TICK);
    let after = [&closed[..], &[(45, 1)]].concat();
    assert_eq!(dock.image(), with(&after));
}

#[test]
fn a_pulse_in_the_other_lock_mode_falls_and_does_not_show() {
    let mut dock = loaded(&with(&[(1, 1), (22, 1), (59, 2)]));
    assert_eq!(dock.outputs(), 0x080);
    dock.step(TICK);
    assert_eq!(dock.image(), with(&[(1, 1), (22, 1), (45, 1), (59, 1)]));
}

#[test]
fn a_saved_count_goes_on_to_its_inputs_ticks() {
    // A device in bay 0 that is one tick from being accepted, and a press that is one and two ticks from it.
    let ticked = |count| {
        let mut dock = loaded(&with(&[(1, 1), (14, 0), (15, 0), (54, 9), (55, count)]));
        dock.step(TICK);
        dock.image()
    };
    let arrived = [(1, 1), (14, 0), (15, 0), (17, 0), (21, 1), (45, 1)];
    assert_eq!(ticked(4), with(&[&arrived[..], &[(18, 0), (20, 1)]].concat()));
    assert_eq!(ticked(3), with(&[&arrived[..], &[(55, 4)]].concat()));
}

#[test]
fn a_count_without_a_difference_stays_until_the_pins_come() {
    // n1394 has a count and no difference; nUSB has a difference and counts.
    let mut dock = loaded(&with(&[(1, 1), (14, 0), (53, 9)]));
    dock.step(TICK);
    assert_eq!(dock.image(), with(&[(1, 1), (14, 0), (45, 1), (53, 9), (54, 1)]));
    dock.step(pins(0xBF));
    assert_eq!(dock.image(), with(&[(1, 1), (14, 0), (45, 1), (54, 1)]));
}

#[test]
fn power_without_lock_or_device_is_what_the_pin_shows() {
    let mut dock = loaded(&with(&[(1, 1), (26, 1), (56, 2)]));
    assert_eq!(dock.outputs(), 0x140);
    dock.step(STOP);
    assert_eq!(dock.outputs(), 0x140);
}

#[test]
fn any_byte_is_a_wait_and_no_more_than_a_byte() {
    for place in [44, 61, 70] {
        (0..=255).for_each(|wait| assert_eq!(loaded(&with(&[(place, wait)])).image()[place], wait));
    }
    for high in [58, 60, 67, 69] {
        assert!((1..=255).all(|byte| Controller::from_image(&with(&[(high, byte)])).is_none()), "byte {}", high);
    }
}

#[test]
fn a_wait_has_its_place() {
    // Bay 0 waits for nine ticks since its device was accepted, and bay 1 for five.
    let words = [
        &[reset_short(0x0, 0xFF)][..],
        &write(0x90, 0x42, 9),
        &write(0x90, 0x14, 0x04),
        &[pins(0xBB)],
        &[TICK; 13],
        &write(0x90, 0x42, 5),
        &write(0x90, 0x1C, 0x04),
        &[TICK; 2],
    ]
    .concat();
    let bay_0 = [(14, 0), (17, 0), (21, 1), (24, 1), (61, 4)];
    let bay_1 = [(28, 0), (31, 0), (35, 1), (38, 1), (70, 3)];
    let waiting = with(&[&[(1, 1), (44, 5), (45, 15)][..], &bay_0, &bay_1].concat());
    assert_eq!(Controller::after(&words).image(), waiting);
}

/// Bay 0 of a state that no words lead to, started: a device and DEVSTSCHG_EN or not, what 42h holds, the bay's state
/// and its count.
fn stale(device: bool, told: bool, wait_time: u8, state: u8, wait: u8) -> Vec<(usize, u8)> {
    let level = u8::from(!device);
    vec![(1, 1), (14, level), (17, level), (24, u8::from(told)), (44, wait_time), (56, state), (61, wait)]
}

fn give(dock: &mut Controller, words: &[u16]) {
    for &word in words {
        dock.step(word);
    }
}

/// State and count of bay 0 after the words.
fn moved(places: &[(usize, u8)], words: &[u16]) -> (u8, u8) {
    let mut dock = loaded(&with(places));
    give(&mut dock, words);
    (dock.image()[56], dock.image()[61])
}

#[test]
fn a_stale_count_falls_and_ends_in_inserted() {
    for (device, told) in [(false, false), (false, true), (true, false), (true, true)] {
        for state in 0..5 {
            let ticked = |wait| moved(&stale(device, told, 7, state, wait), &[TICK]);
            assert_eq!(ticked(0), (state, 0));
            assert_eq!(ticked(1), (1, 0));
            assert_eq!(ticked(2), (state, 1));
            assert_eq!(ticked(255), (state, 254));
        }
    }
}

#[test]
fn an_arrival_sets_a_stale_count_or_leaves_it() {
    // USB is a tick from being accepted.
    let ticked = |told, wait_time, state, wait| {
        let arriving = [(14, 0), (54, 9)];
        moved(&[&stale(false, told, wait_time, state, wait)[..], &arriving].concat(), &[TICK])
    };
    for state in 0..5 {
        assert_eq!(ticked(true, 7, state, 3), (state, 7));
        assert_eq!(ticked(true, 7, state, 1), (state, 7));
        assert_eq!(ticked(true, 0, state, 3), (1, 3));
        assert_eq!(ticked(true, 0, state, 1), (1, 1));
        assert_eq!(ticked(false, 7, state, 3), (state, 2));
        assert_eq!(ticked(false, 7, state, 1), (1, 0));
    }
}

#[test]
fn an_arrival_that_waits_gives_no_state() {
    // The device and a press are a tick from being accepted, and REMREQ_EN is set: a bay that stood in Inserted or
    // Enabled without a device is moved by the press.
    let ticked = |wait_time, state, wait| {
        let coming = [(14, 0), (54, 9), (15, 0), (55, 4), (23, 1)];
        moved(&[&stale(false, true, wait_time, state, wait)[..], &coming].concat(), &[TICK])
    };
    for (state, pressed) in [(0, 0), (1, 3), (2, 3), (3, 3), (4, 4)] {
        assert_eq!(ticked(7, state, 3), (pressed, 7));
        assert_eq!(ticked(0, state, 3), (1, 3));
    }
}

#[test]
fn a_removal_ends_a_stale_count() {
    // The bay's only device is a tick from being gone.
    for state in 0..5 {
        for wait in [1, 2, 255] {
            let leaving = [(14, 1), (54, 9)];
            let places = [&stale(true, true, 7, state, wait)[..], &leaving].concat();
            assert_eq!(moved(&places, &[TICK]), (0, 0));
        }
    }
}

#[test]
fn a_write_ends_a_stale_count_sets_it_or_leaves_it() {
    let written = |places: &[(usize, u8)], value| moved(places, &write(0x90, 0x14, value));
    for (state, wait) in (0..5).flat_map(|state| [(state, 1), (state, 200)]) {
        for device in [false, true] {
            assert_eq!(written(&stale(device, true, 7, state, wait), 0x00), (state, 0));
            assert_eq!(written(&stale(device, true, 7, state, wait), 0x04), (state, wait));
        }
        assert_eq!(written(&stale(true, true, 7, state, wait), 0x34), (3, 0));
        assert_eq!(written(&stale(false, true, 7, state, wait), 0x34), (state, wait));
        // The enable rises: it sets a count in Empty over a device alone.
        let (begun, count) = if state == 0 { (0, 7) } else { (state, wait) };
        assert_eq!(written(&stale(true, false, 7, state, wait), 0x04), (begun, count));
        assert_eq!(written(&stale(false, false, 7, state, wait), 0x04), (state, wait));
        assert_eq!(written(&stale(true, false, 7, state, wait), 0x34), (3, 0));
        // Without a wait in 42h, Empty is left at once and the count as it is.
        let inserted = if state == 0 { 1 } else { state };
        assert_eq!(written(&stale(true, false, 0, state, wait), 0x04), (inserted, wait));
    }
}

#[test]
fn other_writes_leave_a_stale_count() {
    for (register, value) in [(0x10, 0x0C), (0x0C, 0x01), (0x40, 0x03), (0x42, 0x00), (0x42, 0xFF), (0x1C, 0x10)] {
        assert_eq!(moved(&stale(true, true, 7, 4, 9), &write(0x90, register, value)), (4, 9), "{:02X}h", register);
    }
    assert_eq!(moved(&stale(true, true, 7, 4, 9), &[reset(0x0, 0xBF)]), (0, 0));
}

#[test]
fn closing_bay_1_ends_its_stale_count() {
    let mut dock = loaded(&with(&[(1, 1), (65, 4), (70, 9)]));
    give(&mut dock, &write(0x90, 0x0C, 0x01));
    assert_eq!(dock.image(), with(&[(1, 1), (4, 1), (42, 1)]));
}
