//! The readings of request 9, one by one, in the request's numbers.

use model::{Chassis, ChassisAnswer, Controller, Refusal, Reply, CHASSIS_RECORDS, STATE_BYTES};

const START: u16 = 0x0000;
const STOP: u16 = 0x2000;
const TICK: u16 = 0xA000;
const TIMEOUT: u16 = 0xE000;
const TAKE: u16 = 0x6000;
const TAKE_ACKED: u16 = 0x6001;

/// A bit that no word but a RESET has.
const STRAY: u16 = 0x0100;

/// Events that go to all.
const FOR_ALL: [u16; 7] = [START, STOP, 0x4090, TAKE, TAKE_ACKED, TICK, TIMEOUT];

/// What a list of three, of which the last is not started, refuses only after the list itself.
const AGAINST: [(u64, u16); 5] = [(0, TICK), (0, TICK | STRAY), (9, 0x80FF), (2, 0x80FF), (2, 0xC4FF)];

/// Each controller after its words.
fn chassis(docks: &[&[u16]]) -> Chassis {
    Chassis::new(docks.iter().map(|words| Some(Controller::after(words))).collect())
}

fn dock(chassis: &Chassis, place: usize) -> &Controller {
    chassis.records()[place].as_ref().unwrap()
}

/// The chassis refuses with this, and stays as it was.
fn refuses(chassis: &Chassis, record: u64, word: u16, refusal: Refusal) {
    let mut after = chassis.clone();
    let answer = after.step(record, word);
    assert_eq!((answer.refusal, answer.reply, answer.outputs), (Some(refusal), Reply::None, [0; 4]), "{:04X}h", word);
    assert_eq!(answer.bits(), (refusal as u64) << 60);
    assert_eq!(&after, chassis);
}

fn reply(chassis: &mut Chassis, word: u16) -> Reply {
    let answer = chassis.step(u64::MAX, word);
    assert_eq!(answer.refusal, None);
    answer.reply
}

/// START, own write byte, register byte, START, own read byte.
fn read(own: u8, register: u8) -> [u16; 5] {
    [START, 0x4000 | u16::from(own), 0x4000 | u16::from(register), START, 0x4001 | u16::from(own)]
}

fn open_read(chassis: &mut Chassis, own: u8, register: u8) {
    for word in read(own, register) {
        reply(chassis, word);
    }
}

#[test]
fn the_numbers_are_the_requests() {
    let refusals = [Refusal::ChassisLength, Refusal::AbsentRecord, Refusal::TakenAddress].map(|one| one as u64);
    assert_eq!(refusals, [9, 10, 11]);
    assert_eq!(CHASSIS_RECORDS, 4);
}

#[test]
fn an_answer_has_a_reply_and_four_sets_of_outputs() {
    let answer = ChassisAnswer { refusal: None, reply: Reply::Driven(0x15), outputs: [0x041, 0x1FF, 0x000, 0x088] };
    assert_eq!(answer.bits(), 0x062A_0411_FF00_0088);
    let answer = ChassisAnswer { reply: Reply::NotDriven, outputs: [0; 4], ..answer };
    assert_eq!(answer.bits(), 0x09FE_0000_0000_0000);
}

#[test]
fn a_list_has_one_to_four_records() {
    let fresh = Controller::new().image();
    for length in 0..6 * STATE_BYTES {
        let bytes: Vec<u8> = fresh.iter().copied().cycle().take(length).collect();
        match Chassis::from_images(&bytes) {
            None => assert_ne!(length % STATE_BYTES, 0),
            Some(one) if (1..=4).contains(&(length / STATE_BYTES)) => refuses(&one, 0, TICK, Refusal::NotStarted),
            Some(other) => refuses(&other, 9, TICK | STRAY, Refusal::ChassisLength),
        }
    }
}

#[test]
fn one_unfit_record_is_against_all() {
    for place in 0..3 {
        let mut list = chassis(&[&[0xC0BF], &[0xC4BF], &[]]);
        list.records_mut()[place] = None;
        AGAINST.iter().for_each(|&(record, word)| refuses(&list, record, word, Refusal::UnfitState));
    }
}

#[test]
fn two_started_ones_have_different_addresses() {
    let twins = chassis(&[&[0xC4BF], &[0xC7FF], &[]]);
    AGAINST.iter().for_each(|&(record, word)| refuses(&twins, record, word, Refusal::UnfitState));
    // A fresh one has straps 0, and no address yet.
    assert_eq!(reply(&mut chassis(&[&[0xC0BF], &[], &[]]), TICK), Reply::None);
}

#[test]
fn two_started_ones_have_no_read_open_both() {
    let first: Vec<u16> = [0xC0BF].into_iter().chain(read(0x90, 0x10)).collect();
    let other: Vec<u16> = [0xC4FF].into_iter().chain(read(0x92, 0x10)).collect();
    let mut list = chassis(&[&first, &other, &[]]);
    AGAINST.iter().for_each(|&(record, word)| refuses(&list, record, word, Refusal::UnfitState));
    // The same read in a record that is not started, which no words lead to, is none.
    let mut image = dock(&list, 1).image();
    image[1] = 0;
    list.records_mut()[1] = Controller::from_image(&image);
    assert_eq!(reply(&mut list, TAKE), Reply::Driven(0x05));
}

#[test]
fn refusals_come_in_their_order() {
    let fresh = chassis(&[&[], &[]]);
    refuses(&fresh, 9, 0x80FF | STRAY, Refusal::StrayBit);
    refuses(&fresh, 9, 0x80FF, Refusal::AbsentRecord);
    refuses(&fresh, 9, 0xC0FF, Refusal::AbsentRecord);
    refuses(&fresh, 1, 0x80FF, Refusal::NotStarted);
    FOR_ALL.iter().for_each(|&word| refuses(&fresh, 9, word, Refusal::NotStarted));
    let one = chassis(&[&[], &[0xC4FF]]);
    refuses(&one, 0, 0x80FF, Refusal::NotStarted);
    refuses(&one, 0, 0x80FF | STRAY, Refusal::StrayBit);
    refuses(&one, 2, 0xC4FF, Refusal::AbsentRecord);
    refuses(&one, 0, 0xC4FF, Refusal::TakenAddress);
    refuses(&one, 0, 0xD7FF, Refusal::TakenAddress);
}

#[test]
fn a_number_of_a_record_has_64_bits() {
    let list = chassis(&[&[0xC0BF], &[]]);
    for number in [2, 4, 255, 256, 1 << 32, (1 << 32) + 1, 1 << 63, u64::MAX] {
        refuses(&list, number, 0x80FF, Refusal::AbsentRecord);
        refuses(&list, number, 0xC8FF, Refusal::AbsentRecord);
        FOR_ALL.iter().for_each(|&word| assert_eq!(list.clone().step(number, word).refusal, None));
    }
}

#[test]
fn a_reset_may_give_the_own_address_again() {
    let mut list = chassis(&[&[0xC4BF], &[0xC8FF], &[]]);
    for word in [0xC4FF, 0xC5BF, 0xD6FF] {
        assert_eq!(list.step(0, word).refusal, None);
    }
    refuses(&list, 0, 0xC8FF, Refusal::TakenAddress);
    // The last is not started, and its straps are 0.
    assert_eq!(list.step(0, 0xC0FF).refusal, None);
    assert_eq!(list.step(2, 0xC4FF).refusal, None);
}

#[test]
fn an_event_reaches_every_started_record() {
    let all: [&[u16]; 4] = [&[0xC0BF], &[], &[0xC8FB, START], &[0xC4FF, START, 0x4092, 0x4040]];
    for word in FOR_ALL {
        let mut list = chassis(&all);
        list.step(1, word);
        for (place, words) in all.iter().enumerate() {
            let mut alone = Controller::after(words);
            alone.step(word);
            assert_eq!(dock(&list, place), &alone);
        }
    }
}

#[test]
fn pins_and_reset_reach_one() {
    let all: [&[u16]; 3] = [&[0xC0BF], &[0xC8FB, START], &[0xC4FF]];
    for (named, word) in [(0, 0x8000), (1, 0x80FF), (2, 0x8055), (0, 0xC2FF), (1, 0xDCFF), (2, 0xC5BF)] {
        let mut list = chassis(&all);
        assert_eq!(list.step(named as u64, word).reply, Reply::None);
        for (place, words) in all.iter().enumerate() {
            let mut alone = Controller::after(words);
            if place == named {
                alone.step(word);
            }
            assert_eq!(dock(&list, place), &alone);
        }
    }
}

#[test]
fn one_that_acks_is_enough() {
    let mut list = chassis(&[&[0xC0BF], &[0xC4FF], &[]]);
    for (word, expected) in [(START, Reply::None), (0x4092, Reply::Ack), (0x4040, Reply::Ack), (0x4003, Reply::Ack)] {
        assert_eq!(reply(&mut list, word), expected);
    }
    assert_eq!((reply(&mut list, STOP), reply(&mut list, START)), (Reply::None, Reply::None));
    assert_eq!(reply(&mut list, 0x4094), Reply::NoAck);
    assert_eq!((dock(&list, 0).reading(0x40), dock(&list, 1).reading(0x40)), (1, 3));
    // Two in the middle of a command, which no words lead to.
    let mut both = chassis(&[&[0xC0BF, START, 0x4090], &[0xC4FF, START, 0x4092]]);
    assert_eq!(reply(&mut both, 0x4010), Reply::Ack);
}

#[test]
fn a_take_gives_the_byte_of_the_one_that_drives() {
    for (place, own) in [(0, 0x90), (1, 0x92), (2, 0x94)] {
        let mut list = chassis(&[&[0xC0FF], &[0xC4FF], &[0xC8FF]]);
        list.step(place, 0xC0BF | (place as u16) << 10);
        open_read(&mut list, own, 0x10);
        assert_eq!(reply(&mut list, TAKE_ACKED), Reply::Driven(0x05));
        assert_eq!(reply(&mut list, TAKE), Reply::NotDriven);
    }
}

#[test]
fn kinds_may_be_mixed() {
    let mut list = chassis(&[&[], &[]]);
    list.records_mut()[1].as_mut().unwrap().name_kind(2).unwrap();
    list.step(0, 0xC0FF);
    list.step(1, 0xC4FF);
    open_read(&mut list, 0x92, 0xFF);
    let taken = [TAKE_ACKED, TAKE_ACKED, TAKE, TAKE].map(|word| reply(&mut list, word));
    assert_eq!(taken, [Reply::Driven(0x00), Reply::Driven(0x60), Reply::Driven(0x12), Reply::NotDriven]);
    open_read(&mut list, 0x90, 0x00);
    assert_eq!(reply(&mut list, TAKE), Reply::Driven(0x55));
}

#[test]
fn every_answer_has_the_outputs_of_all() {
    let mut list = chassis(&[&[0xC2FF], &[], &[0xC6BF]]);
    assert_eq!(list.step(0, TICK).outputs, [0x088, 0, 0x088, 0]);
    assert_eq!(list.step(1, 0xC8FF).outputs, [0x088, 0, 0x088, 0]);
    assert_eq!(list.step(0, 0xC0FF).outputs, [0, 0, 0x088, 0]);
    assert_eq!(list.step(1, 0xCAFF).outputs, [0, 0x088, 0x088, 0]);
}
