//! The model on what document 03 says of the second kind, and on what its examples can't say.

use model::{numbers, Controller, Kind, Refusal, RECORD_BYTES};
use paper::words::{byte, reset, write, START, TICK};
use paper::{Calls, StateCalls};

const BATCHED: StateCalls<Controller> = StateCalls {
    name: "model, in batches",
    fresh: Controller::new,
    name_kind: numbers::name_kind,
    batch: numbers::batch,
    reading: |dock, address| dock.reading(address).into(),
    outputs: |dock| dock.outputs().into(),
};

const STEPPED: StateCalls<Controller> = StateCalls {
    name: "model, word by word",
    batch: |dock, words, records| {
        step_all(dock, words, records);
        words.len() as u32
    },
    ..BATCHED
};

fn step_all(dock: &mut Controller, words: &[u16], records: &mut [u8]) {
    for (&word, record) in words.iter().zip(records.chunks_exact_mut(RECORD_BYTES)) {
        record.copy_from_slice(&dock.step(word).record());
    }
}

#[test]
fn every_story_holds() {
    for story in paper::stories() {
        for controller in [BATCHED, STEPPED] {
            if let Err(told) = story.holds(&controller) {
                panic!("{}", told);
            }
        }
    }
}

#[test]
fn a_story_tells_where_it_fails() {
    let mut wrong = BATCHED;
    wrong.reading = |dock, address| dock.reading(if address == 0x15 { 0x00 } else { address }).into();
    let told: Vec<String> = paper::stories().iter().filter_map(|story| story.holds(&wrong).err()).collect();
    let of_q8 = "Q8, step 4: 15h reads\n  model, in batches: 00000060h\n  paper: 00000002h\n";
    assert!(told.iter().any(|told| told == of_q8), "{:?}", told);
}

fn is_reset(word: u16) -> bool {
    word >> 13 == 6
}

/// The word, with the second kind named wherever no RESET sees it.
fn step_named(dock: &mut Controller, word: u16) -> [u8; RECORD_BYTES] {
    if is_reset(word) {
        dock.name_kind(1).unwrap();
    }
    let record = dock.step(word).record();
    dock.name_kind(2).unwrap();
    record
}

fn named_throughout(words: &[u16]) -> Controller {
    let mut dock = Controller::new();
    dock.name_kind(2).unwrap();
    words.iter().for_each(|&word| {
        step_named(&mut dock, word);
    });
    dock
}

/// The first kind in force with the second one named: the name shows nowhere before a RESET.
const NAMED: Calls = Calls {
    name: "model with the second kind named",
    replay: |words, records| {
        let answer = numbers::replay(words, records);
        if answer == words.len() as u32 {
            let mut dock = Controller::new();
            for (&word, record) in words.iter().zip(records.chunks_exact_mut(RECORD_BYTES)) {
                record.copy_from_slice(&step_named(&mut dock, word));
            }
        }
        answer
    },
    reading: |words, address| named_throughout(words).reading(address).into(),
    outputs: |words| named_throughout(words).outputs().into(),
};

#[test]
fn a_name_shows_nowhere_before_a_reset() {
    for example in paper::examples() {
        if let Err(told) = example.holds(&NAMED) {
            panic!("{}", told);
        }
    }
}

/// All of the second kind's registers written, a device waiting in bay 0 and a pulse in bay 1, a read open, and the
/// first kind named.
fn lived() -> Controller {
    let mut dock = Controller::new();
    dock.name_kind(2).unwrap();
    let words = [
        &[reset(0, 0xFF)][..],
        &write(0x90, 0x08, 0x12),
        &write(0x90, 0x0C, 0x10),
        &write(0x90, 0x15, 0x03),
        &write(0x90, 0x21, 0x05),
        &write(0x90, 0xFC, 0xFF),
        &write(0x90, 0x10, 0xAC),
        &write(0x90, 0x18, 0x80),
        &write(0x90, 0x18, 0x00),
        &[0x80BF],
        &[TICK; 77],
        &[START, byte(0x90), byte(0x14), START, byte(0x91)],
    ]
    .concat();
    step_all(&mut dock, &words, &mut vec![0; RECORD_BYTES * words.len()]);
    dock.name_kind(1).unwrap();
    assert_eq!(dock.kind(), Kind::Second);
    dock
}

fn after_a_life(words: &[u16]) -> Controller {
    let mut dock = lived();
    words.iter().for_each(|&word| {
        dock.step(word);
    });
    dock
}

const LIVED: Calls = Calls {
    name: "model after a life in the second kind",
    replay: |words, records| numbers::batch(&mut lived(), words, records),
    reading: |words, address| after_a_life(words).reading(address).into(),
    outputs: |words| after_a_life(words).outputs().into(),
};

#[test]
fn the_first_kind_is_the_same_after_a_life_in_the_second() {
    let from_reset =
        paper::examples().into_iter().filter(|example| example.words.first().map_or(false, |&word| is_reset(word)));
    let mut asked = 0;
    for example in from_reset {
        if let Err(told) = example.holds(&LIVED) {
            panic!("{}", told);
        }
        asked += 1;
    }
    assert!(asked > 400, "{} examples", asked);
}

/// Fresh, in the first kind, in the second with either name, and inside a transfer of each.
fn some_states() -> Vec<Controller> {
    let mut named = Controller::new();
    named.name_kind(2).unwrap();
    let mut second = named.clone();
    second.step(reset(0, 0xBF));
    let writing = [&[reset(0, 0xBF)][..], &write(0x90, 0x14, 0x04)[..4]].concat();
    vec![Controller::new(), named, second, Controller::after(&[reset(0x6, 0x3D)]), Controller::after(&writing), lived()]
}

#[test]
fn a_number_of_no_kind_is_refused_and_changes_nothing() {
    assert_eq!(Refusal::NoSuchKind as u32, 14);
    for dock in some_states() {
        for number in (0..=u8::MAX).filter(|number| ![1, 2].contains(number)) {
            let mut asked = dock.clone();
            assert_eq!(asked.name_kind(number), Err(Refusal::NoSuchKind));
            assert_eq!(asked, dock);
            assert_eq!(numbers::name_kind(&mut asked, number), 14 << 16);
        }
    }
}

#[test]
fn a_name_changes_nothing_but_the_name() {
    for dock in some_states() {
        let mut named = dock.clone();
        for number in [1, 2] {
            assert_eq!(named.name_kind(number), Ok(()));
            assert_eq!(numbers::name_kind(&mut named, number), 0);
            assert_eq!(named.kind(), dock.kind());
            assert_eq!(named.outputs(), dock.outputs());
            (0..=u8::MAX).for_each(|address| assert_eq!(named.reading(address), dock.reading(address)));
        }
        // The name is one of two, so that one of them gives the state back.
        let back = [1, 2].iter().any(|&number| {
            named.name_kind(number).unwrap();
            named == dock
        });
        assert!(back);
    }
}

#[test]
fn a_reset_puts_the_named_kind_in_force() {
    for dock in some_states() {
        for (number, kind, vendor) in [(1, Kind::First, 0x55), (2, Kind::Second, 0x60)] {
            let mut dock = dock.clone();
            dock.name_kind(number).unwrap();
            for _ in 0..2 {
                dock.step(reset(0, 0xFF));
                assert_eq!(dock.kind(), kind);
                assert_eq!(dock.reading(0x00), vendor);
            }
        }
    }
}

#[test]
fn every_state_comes_back_from_its_image() {
    let mut back = lived();
    back.step(reset(0, 0xFF));
    for dock in some_states().into_iter().chain([back]) {
        assert_eq!(Controller::from_image(&dock.image()), Some(dock));
    }
}

#[test]
fn a_kind_that_left_no_trace_is_as_if_it_had_never_been() {
    let mut untouched = some_states().swap_remove(2);
    untouched.name_kind(1).unwrap();
    untouched.step(reset(0, 0xBF));
    assert_eq!(untouched, Controller::after(&[reset(0, 0xBF)]));
}
