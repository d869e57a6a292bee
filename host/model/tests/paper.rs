//! The model on the paper's examples, and on what they can't ask of every controller.

use model::numbers;
use model::{pack, unpack, Controller, Event, Refusal};

const MODEL: paper::Calls = paper::Calls {
    name: "model",
    replay: numbers::replay,
    reading: |words, address| u32::from(Controller::after(words).reading(address)),
    outputs: |words| u32::from(Controller::after(words).outputs()),
};

#[test]
fn every_example_holds() {
    for example in paper::examples() {
        if let Err(told) = example.holds(&MODEL) {
            panic!("{}", told);
        }
    }
}

#[test]
fn every_word_unpacks_to_what_packs_to_it() {
    let accepted = (0..=0xFFFF).filter(|&word| match unpack(word) {
        Some(event) => {
            assert_eq!(pack(event), Ok(word));
            true
        }
        None => false,
    });
    assert_eq!(accepted.count(), 4 + 256 + 256 + 2 + 8192);
}

#[test]
fn the_numbers_of_a_word_leave_its_kind_out() {
    assert_eq!(numbers::unpack(0x4090), 0x9000);
    assert_eq!(numbers::unpack(0x6001), 0x0100);
    assert_eq!(numbers::unpack(0xC5BF), 0x05BF);
    assert_eq!(numbers::unpack(0xD5BF), 1 << 24 | 0x05BF);
    assert_eq!(numbers::unpack(0xE000), 0);
    assert_eq!(numbers::unpack(0xE001), 2 << 16);
}

#[test]
fn only_wide_straps_do_not_pack() {
    for (short_pulse, first, word) in [(false, 0x00F, 0xCFFF), (true, 0x10F, 0xDFFF)] {
        assert_eq!(pack(Event::Reset { straps: 15, levels: 0xFF, short_pulse }), Ok(word));
        assert_eq!(numbers::pack(6, first, 0xFF), u32::from(word));
        assert_eq!(pack(Event::Reset { straps: 16, levels: 0, short_pulse }), Err(Refusal::WideStraps));
        assert_eq!(numbers::pack(6, first + 1, 0), 6 << 16);
    }
    assert_eq!(numbers::pack(6, 0x200, 0), 2 << 16);
}

#[test]
fn a_refused_word_changes_nothing() {
    let mut fresh = Controller::new();
    fresh.step(0xA000);
    fresh.step(0xFFFF);
    assert_eq!(fresh, Controller::new());
}
