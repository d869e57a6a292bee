//! The readings of request 7, one by one, with samples written out: `H` and `h` are SCLK high with SDAT high and low, `L`
//! and `l` SCLK low with SDAT high and low.

use model::{Refusal, Wire, MOST_SAMPLES, WIRE_BYTES};

const START: u16 = 0x0000;
const STOP: u16 = 0x2000;
const TAKE_ACK: u16 = 0x6001;
const TAKE_NACK: u16 = 0x6000;
const TIMEOUT: u16 = 0xE000;

/// The longest low that is no TIMEOUT.
const LONGEST_LOW: usize = 17_500;

fn byte(value: u8) -> u16 {
    0x4000 | u16::from(value)
}

fn samples(text: &str) -> Vec<u8> {
    let sample = |letter| match letter {
        'l' => 0b00,
        'L' => 0b01,
        'h' => 0b10,
        'H' => 0b11,
        other => panic!("{} is no sample", other),
    };
    text.chars().map(sample).collect()
}

/// From idle lines; then the clock is low, as before each bit.
const START_TEXT: &str = "hl";

/// Eight bits and a ninth, each a low and a high sample, from a low clock to a low clock.
fn nine(value: u8, ninth: bool) -> String {
    let bits = (0..8).rev().map(|place| value >> place & 1 == 1).chain([ninth]);
    bits.map(|bit| if bit { "LHL" } else { "lhl" }).collect()
}

/// These bits alone.
fn bits(text: &str) -> String {
    text.chars().map(|bit| if bit == '1' { "LHL" } else { "lhl" }).collect()
}

fn hear(wire: &mut Wire, text: &str) -> Vec<u16> {
    samples(text).into_iter().filter_map(|sample| wire.sample(sample)).collect()
}

fn heard(text: &str) -> Vec<u16> {
    hear(&mut Wire::new(), text)
}

fn low_for(wire: &mut Wire, count: usize) -> Vec<u16> {
    (0..count).filter_map(|_| wire.sample(0b01)).collect()
}

#[test]
fn a_fresh_one_has_high_lines_and_hears_nothing() {
    assert_eq!(Wire::new().image(), [1, 1, 0, 0, 0, 0, 0]);
    assert_eq!(heard("HHHH"), []);
    assert_eq!(heard("h"), [START]);
}

#[test]
fn the_other_six_bits_are_ignored() {
    let text = [START_TEXT, &nine(0x90, false), &nine(0x14, true), "hH"].concat();
    for noise in (0..=u8::MAX).step_by(4) {
        let mut wire = Wire::new();
        let words = samples(&text).into_iter().filter_map(|sample| wire.sample(sample | noise));
        assert_eq!(words.collect::<Vec<_>>(), [START, byte(0x90), byte(0x14), STOP]);
    }
}

#[test]
fn start_and_stop_are_moves_of_sdat_while_sclk_stays_high() {
    assert_eq!(heard("Hh"), [START]);
    assert_eq!(heard("HhH"), [START, STOP]);
    assert_eq!(heard("HhHhhH"), [START, STOP, START, STOP]);
    // SDAT moves with SCLK's fall, or while it is low.
    assert_eq!(heard("Hl"), []);
    assert_eq!(heard("HLlLl"), []);
    // .. or with its rise, which is a bit and counts for nothing here.
    assert_eq!(heard("HLh"), []);
    assert_eq!(heard("HLlH"), []);
    assert_eq!(heard("HLlHh"), [START]);
}

#[test]
fn they_are_given_with_nothing_open() {
    assert_eq!(heard("LhHHhH"), [STOP, START, STOP]);
    assert_eq!(heard("LhH"), [STOP]);
}

#[test]
fn a_bit_is_sdat_at_the_first_high_sample() {
    // SDAT is another in the low sample before, and the START or STOP after is none, since SCLK falls first.
    let text = "hl".to_string() + &"LhhhlL".repeat(8);
    assert_eq!(heard(&text), [START, byte(0x00)]);
    let text = "hl".to_string() + &"lHHHLl".repeat(8);
    assert_eq!(heard(&text), [START, byte(0xFF)]);
}

#[test]
fn the_most_significant_bit_comes_first_and_the_byte_with_its_eighth() {
    let mut wire = Wire::new();
    assert_eq!(hear(&mut wire, START_TEXT), [START]);
    assert_eq!(hear(&mut wire, &bits("1001000")), []);
    assert_eq!(hear(&mut wire, "l"), []);
    assert_eq!(hear(&mut wire, "h"), [byte(0x90)]);
    assert_eq!(wire.image(), [1, 0, 1, 8, 0x90, 0, 0]);
    assert_eq!(hear(&mut wire, "l"), []);
    assert_eq!(wire.image(), [1, 0, 1, 8, 0x90, 0, 1]);
}

#[test]
fn a_ninth_bit_is_passed_over() {
    for ninth in [false, true] {
        let text = [START_TEXT, &nine(0x90, ninth), &nine(0x14, ninth), &nine(0xAD, ninth)].concat();
        assert_eq!(heard(&text), [START, byte(0x90), byte(0x14), byte(0xAD)]);
    }
}

#[test]
fn an_unfinished_byte_is_dropped() {
    // The rise before a START or a STOP is a bit more.
    for count in 0..=6 {
        let some = bits(&"101101"[..count]);
        let by_start = [START_TEXT, &some, "LHh", "l", &nine(0x42, false)].concat();
        assert_eq!(heard(&by_start), [START, START, byte(0x42)]);
        let by_stop = [START_TEXT, &some, "lhH", "h", "l", &nine(0x42, false)].concat();
        assert_eq!(heard(&by_stop), [START, STOP, START, byte(0x42)]);
        let mut wire = Wire::new();
        assert_eq!(hear(&mut wire, &[START_TEXT, &some].concat()), [START]);
        assert_eq!(low_for(&mut wire, LONGEST_LOW), [TIMEOUT]);
        assert_eq!(hear(&mut wire, &["H", "h", "l", &nine(0x42, false)].concat()), [START, byte(0x42)]);
    }
}

#[test]
fn a_held_byte_is_zero_after_each_end() {
    for (end, held) in [("LHh", [1, 0, 1, 0, 0, 0, 0]), ("lhH", [1, 1, 0, 0, 0, 0, 0])] {
        let mut wire = Wire::new();
        hear(&mut wire, &[START_TEXT, &bits("110"), end].concat());
        assert_eq!(wire.image(), held);
    }
    let mut wire = Wire::new();
    hear(&mut wire, &[START_TEXT, &nine(0x90, true)].concat());
    assert_eq!(wire.image(), [1, 1, 2, 0, 0, 0, 1]);
    let mut wire = Wire::new();
    hear(&mut wire, &[START_TEXT, &nine(0x91, true)].concat());
    assert_eq!(wire.image(), [1, 1, 3, 0, 0, 0, 1]);
}

#[test]
fn the_timeout_comes_once_with_the_first_sample_beyond() {
    let mut wire = Wire::new();
    assert_eq!(low_for(&mut wire, LONGEST_LOW), []);
    assert_eq!(wire.image()[5..], 17_500_u16.to_be_bytes());
    assert_eq!(wire.sample(0b00), Some(TIMEOUT));
    assert_eq!(wire.image(), [1, 0, 0, 0, 0, 0x44, 0x5D]);
    assert_eq!(low_for(&mut wire, 3 * LONGEST_LOW), []);
    assert_eq!(wire.image(), [1, 1, 0, 0, 0, 0x44, 0x5D]);
    // The next stretch has its own.
    assert_eq!(wire.sample(0b11), None);
    assert_eq!(wire.image(), [1, 1, 0, 0, 0, 0, 0]);
    assert_eq!(low_for(&mut wire, LONGEST_LOW), []);
    assert_eq!(low_for(&mut wire, 1), [TIMEOUT]);
}

#[test]
fn a_high_sample_ends_the_run() {
    let mut wire = Wire::new();
    assert_eq!(low_for(&mut wire, LONGEST_LOW), []);
    assert_eq!(wire.sample(0b11), None);
    assert_eq!(low_for(&mut wire, LONGEST_LOW), []);
}

#[test]
fn a_stretched_clock_is_no_timeout_and_its_bit_counts() {
    let mut wire = Wire::new();
    assert_eq!(hear(&mut wire, &[START_TEXT, &bits("1001000")].concat()), [START]);
    // The last of those samples was low already.
    assert_eq!(low_for(&mut wire, LONGEST_LOW - 1), []);
    assert_eq!(hear(&mut wire, "h"), [byte(0x90)]);
}

#[test]
fn a_timeout_ends_the_listening() {
    let mut wire = Wire::new();
    assert_eq!(hear(&mut wire, &[START_TEXT, &bits("1001000")].concat()), [START]);
    assert_eq!(low_for(&mut wire, LONGEST_LOW), [TIMEOUT]);
    assert_eq!(hear(&mut wire, "H"), []);
    assert_eq!(hear(&mut wire, &["L", &nine(0x90, false)].concat()), []);
}

#[test]
fn bits_count_for_nothing_until_a_start() {
    let bytes = [&nine(0x90, false)[..], &nine(0x14, false)].concat();
    assert_eq!(heard(&["l", &bytes].concat()), []);
    let stopped = [START_TEXT, &nine(0x90, false), "hH", "L", &bytes].concat();
    assert_eq!(heard(&stopped), [START, byte(0x90), STOP]);
}

#[test]
fn after_an_odd_first_byte_nine_bits_are_a_take() {
    let mut wire = Wire::new();
    let address = [START_TEXT, &nine(0x91, false)].concat();
    assert_eq!(hear(&mut wire, &address), [START, byte(0x91)]);
    assert_eq!(hear(&mut wire, &bits("10100101")), []);
    assert_eq!(wire.image(), [1, 1, 3, 8, 0xA5, 0, 1]);
    assert_eq!(hear(&mut wire, "l"), []);
    assert_eq!(hear(&mut wire, "h"), [TAKE_ACK]);
    assert_eq!(hear(&mut wire, &["l", &nine(0x00, true), &nine(0xFF, false)].concat()), [TAKE_NACK, TAKE_ACK]);
}

#[test]
fn the_first_byte_decides_whoever_it_is_for() {
    for address in 0..=u8::MAX {
        for ninth in [false, true] {
            let text = [START_TEXT, &nine(address, ninth), &nine(0x33, ninth)].concat();
            let next = match (address & 1, ninth) {
                (0, _) => byte(0x33),
                (_, false) => TAKE_ACK,
                (_, true) => TAKE_NACK,
            };
            assert_eq!(heard(&text), [START, byte(address), next]);
        }
    }
}

#[test]
fn a_later_odd_byte_decides_nothing() {
    let text = [START_TEXT, &nine(0x90, false), &nine(0x91, false), &nine(0x42, false)].concat();
    assert_eq!(heard(&text), [START, byte(0x90), byte(0x91), byte(0x42)]);
}

#[test]
fn a_second_start_decides_anew() {
    let text = [START_TEXT, &nine(0x91, false), &nine(0x42, true), "LHhl", &nine(0x90, false), &nine(0x42, true)];
    assert_eq!(heard(&text.concat()), [START, byte(0x91), TAKE_NACK, START, byte(0x90), byte(0x42)]);
}

#[test]
fn an_end_whose_rise_is_the_eighth_bit_gives_the_byte_first() {
    let seven = [START_TEXT, &bits("0100001")].concat();
    assert_eq!(heard(&[&seven, "lhH"].concat()), [START, byte(0x42), STOP]);
    assert_eq!(heard(&[&seven, "LHh"].concat()), [START, byte(0x43), START]);
}

#[test]
fn an_end_whose_rise_is_a_ninth_bit_gives_the_take_first() {
    let eight = [START_TEXT, &nine(0x91, false), &bits("01000010")].concat();
    assert_eq!(heard(&[&eight, "lhH"].concat()), [START, byte(0x91), TAKE_ACK, STOP]);
    assert_eq!(heard(&[&eight, "LHh"].concat()), [START, byte(0x91), TAKE_NACK, START]);
}

#[test]
fn refusals_come_in_their_order_and_leave_everything() {
    let mut wire = Wire::new();
    let mut words = [0xEEEE; 3];
    assert_eq!(wire.listen(&[0b10; MOST_SAMPLES + 1], &mut words), Err(Refusal::TooManyWords));
    assert_eq!(wire.listen(&[0b10; 4], &mut words), Err(Refusal::ShortAnswers));
    assert_eq!(words, [0xEEEE; 3]);
    assert_eq!(wire.image(), Wire::new().image());
    assert_eq!(wire.listen(&[], &mut []), Ok(0));
    assert_eq!(wire.listen(&[0b11, 0b10, 0b11], &mut words), Ok(2));
    assert_eq!(words, [START, STOP, 0xEEEE]);
    assert_eq!(wire.listen(&[0b11; MOST_SAMPLES], &mut [0; MOST_SAMPLES]), Ok(0));
}

#[test]
fn cuts_change_nothing() {
    let text = [START_TEXT, &nine(0x91, false), &nine(0x42, true), "lhH"].concat();
    let all = samples(&text);
    let mut whole = Wire::new();
    let mut words = vec![0; all.len()];
    let count = whole.listen(&all, &mut words).unwrap();
    for cut in 0..=all.len() {
        let mut wire = Wire::new();
        let mut cut_words = vec![0; all.len()];
        let first = wire.listen(&all[..cut], &mut cut_words).unwrap();
        let second = wire.listen(&all[cut..], &mut cut_words[first..]).unwrap();
        assert_eq!((first + second, &cut_words), (count, &words));
        assert_eq!(wire.image(), whole.image());
    }
}

fn with(places: &[(usize, u8)]) -> [u8; WIRE_BYTES] {
    let mut image = Wire::new().image();
    places.iter().for_each(|&(place, byte)| image[place] = byte);
    image
}

#[test]
fn what_is_no_image_of_a_fit_state() {
    let fresh = Wire::new().image();
    assert!(Wire::from_image(&fresh).is_some());
    assert!((0..WIRE_BYTES).all(|length| Wire::from_image(&fresh[..length]).is_none()));
    assert!(Wire::from_image(&[&fresh[..], &[0]].concat()).is_none());
    for (place, fit) in [(0, 1..=1), (1, 0..=1), (2, 0..=3), (3, 0..=8), (4, 0..=255), (5, 0..=0x44), (6, 0..=255)] {
        for value in 0..=u8::MAX {
            let image = with(&[(place, value)]);
            assert_eq!(Wire::from_image(&image).map(|wire| wire.image()), fit.contains(&value).then_some(image));
        }
    }
    assert!(Wire::from_image(&with(&[(5, 0x44), (6, 0x5D)])).is_some());
    assert!(Wire::from_image(&with(&[(5, 0x44), (6, 0x5E)])).is_none());
}

#[test]
fn a_state_that_no_samples_lead_to_goes_on_as_it_says() {
    let after = |places: &[(usize, u8)], text: &str| {
        let mut wire = Wire::from_image(&with(places)).unwrap();
        (hear(&mut wire, text), wire.image())
    };
    // Bits beside nothing that is listened for stay until something ends them.
    assert_eq!(after(&[(3, 5), (4, 0xFF)], "LHLH"), (vec![], with(&[(3, 5), (4, 0xFF)])));
    assert_eq!(after(&[(3, 5), (4, 0xFF)], "hH"), (vec![START, STOP], with(&[])));
    // More bits in the value than are counted: they go out at the top.
    assert_eq!(after(&[(2, 2), (3, 6), (4, 0xFF)], "lhlh").0, [byte(0xFC)]);
    assert_eq!(after(&[(2, 2), (3, 0), (4, 0xFF)], "lhLH").1, with(&[(2, 2), (3, 2), (4, 0xFD)]));
    // A first byte whose eight bits have come, and one that the host clocks in.
    assert_eq!(after(&[(2, 1), (3, 8), (4, 0x02)], "lh").1, with(&[(1, 0), (2, 2)]));
    assert_eq!(after(&[(2, 1), (3, 8), (4, 0x03)], "lh").1, with(&[(1, 0), (2, 3)]));
    assert_eq!(after(&[(2, 3), (3, 8), (4, 0x03)], "lh").0, [TAKE_ACK]);
    // A run at its end, with something still listened for: the rise is a bit.
    assert_eq!(after(&[(2, 2), (3, 7), (4, 0x21), (5, 0x44), (6, 0x5D)], "LH").0, [byte(0x43)]);
}
