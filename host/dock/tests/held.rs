//! The wrapper's own part: what it makes of the library's numbers, and what it keeps on a refusal.

use dock::{records, BayState, Dock, Error, Event, Outputs, Record, Refusal, Reply, Status, STATE_BYTES};
use dock::{Bay, Kind, Register, SecondRegister, MOST_WORDS};

const RESET: u16 = 0xC0BF;
const TICK: u16 = 0xA000;
const STRAY: u16 = 0xA001;

fn refused<T>(refusal: Refusal) -> Result<T, Error> {
    Err(Error::Refused(refusal))
}

fn started() -> Dock {
    let mut dock = Dock::new().unwrap();
    dock.step(RESET).unwrap();
    dock
}

/// The dock's bytes with another one in this place.
fn with(dock: &Dock, place: usize, byte: u8) -> [u8; STATE_BYTES] {
    let mut bytes = *dock.bytes();
    bytes[place] = byte;
    bytes
}

#[test]
fn a_refused_word_leaves_the_image() {
    let mut dock = Dock::new().unwrap();
    let fresh = dock.clone();
    assert_eq!(dock.step(TICK), refused(Refusal::NotStarted));
    let wide = Event::Reset { straps: 16, levels: 0, short_pulse: false };
    assert_eq!(dock.event(wide), refused(Refusal::WideStraps));
    assert_eq!(dock, fresh);
    let mut dock = started();
    dock.event(Event::Start).unwrap();
    let open = dock.clone();
    assert_eq!(dock.step(STRAY), refused(Refusal::StrayBit));
    assert_eq!(dock, open);
}

#[test]
fn steps_and_a_batch_come_to_the_same() {
    let words = [RESET, 0x0000, 0x4090, 0x4014, 0x40AD, 0x2000, STRAY, TICK];
    let mut by_batch = Dock::new().unwrap();
    let mut bytes = [0xEE; 4 * 8 + 3];
    assert_eq!(by_batch.batch(&words, &mut bytes), Ok(8));
    assert_eq!(bytes[32..], [0xEE; 3]);
    let mut by_steps = Dock::new().unwrap();
    for (&word, record) in words.iter().zip(records(&bytes)) {
        assert_eq!(by_steps.step(word), record.unwrap().step().map_err(Error::from));
    }
    assert_eq!(by_steps, by_batch);
    assert_eq!(by_batch.outputs().unwrap().to_string(), "power 0, lock 0, green 0, interrupt");
    assert_eq!(by_batch.reading(0x14), Ok(0xAD));
    assert_eq!(by_batch.status(Bay::Zero).unwrap().state(), BayState::Enabled);
    assert_eq!(by_batch.status(Bay::One).unwrap().state(), BayState::Empty);
}

#[test]
fn a_refused_batch_leaves_image_and_records() {
    let mut dock = started();
    let before = dock.clone();
    let mut bytes = [0xEE; 7];
    assert_eq!(dock.batch(&[TICK, TICK], &mut bytes), refused(Refusal::ShortAnswers));
    assert_eq!(dock.batch(&[TICK; MOST_WORDS + 1], &mut bytes), refused(Refusal::TooManyWords));
    assert_eq!(bytes, [0xEE; 7]);
    assert_eq!(dock, before);
}

#[test]
fn only_images_of_fit_states_come_back() {
    let dock = started();
    assert_eq!(Dock::from_bytes(dock.bytes()), Ok(dock.clone()));
    assert_eq!(Dock::try_from(&dock.bytes()[..]), Ok(dock.clone()));
    for length in 0..STATE_BYTES {
        assert_eq!(Dock::from_bytes(&dock.bytes()[..length]), refused(Refusal::UnfitState));
    }
    // Layouts 1 to 3 are what libraries before 5.0 saved, in 51 or 54 bytes.
    for (place, byte) in [(0, 0), (0, 1), (0, 2), (0, 3), (0, 5), (1, 2), (45, 200), (50, 8), (71, 9), (72, 1)] {
        assert_eq!(Dock::from_bytes(&with(&dock, place, byte)), refused(Refusal::UnfitState));
    }
}

#[test]
fn a_saved_count_is_below_its_inputs_ticks() {
    let dock = started();
    let most = [9, 9, 4].into_iter().zip(53..).chain([9, 9, 4].into_iter().zip(62..));
    for (most, place) in most {
        assert!(Dock::from_bytes(&with(&dock, place, most)).is_ok());
        assert_eq!(Dock::from_bytes(&with(&dock, place, most + 1)), refused(Refusal::UnfitState));
    }
}

#[test]
fn any_saved_wait_comes_back() {
    let dock = started();
    for place in [44, 61, 70] {
        assert!((0..=255).all(|wait| Dock::from_bytes(&with(&dock, place, wait)).is_ok()));
    }
}

#[test]
fn a_saved_wait_is_fit_by_the_kind_in_force() {
    let mut dock = started();
    for (kind, longest) in [(Kind::First, [0, 255]), (Kind::Second, [2, 48])] {
        dock.name_kind(kind).unwrap();
        dock.step(RESET).unwrap();
        let waiting = |high, low| {
            let mut bytes = *dock.bytes();
            bytes[60..62].copy_from_slice(&[high, low]);
            Dock::from_bytes(&bytes)
        };
        let [high, low] = longest;
        assert!(waiting(high, low).is_ok());
        assert_eq!(waiting(high + 1, low), refused(Refusal::UnfitState));
    }
}

#[test]
fn a_kind_comes_with_the_next_reset_and_stays() {
    let mut dock = Dock::new().unwrap();
    assert_eq!((dock.kind(), dock.named()), (Kind::First, Kind::First));
    dock.name_kind(Kind::Second).unwrap();
    assert_eq!((dock.kind(), dock.named()), (Kind::First, Kind::Second));
    for _ in 0..2 {
        dock.step(RESET).unwrap();
        assert_eq!((dock.kind(), dock.named()), (Kind::Second, Kind::Second));
        assert_eq!(dock.reading(0x00), Ok(0x60));
        assert_eq!(dock.status(Bay::Zero).unwrap().bits(), 0x05);
    }
    dock.name_kind(Kind::First).unwrap();
    assert_eq!(dock.reading(0x00), Ok(0x60));
    dock.step(RESET).unwrap();
    assert_eq!((dock.kind(), dock.reading(0x00)), (Kind::First, Ok(0x55)));
    assert_eq!(dock.status(Bay::Zero).unwrap().bits(), 0x05);
}

#[test]
fn a_number_of_no_kind_leaves_the_image() {
    let mut dock = started();
    dock.event(Event::Start).unwrap();
    let before = dock.clone();
    for number in (0..=u8::MAX).filter(|&number| Kind::try_from(number).is_err()) {
        assert_eq!(dock.name_kind_number(number), refused(Refusal::NoSuchKind));
    }
    assert_eq!(dock, before);
    for kind in [Kind::First, Kind::Second] {
        assert_eq!(Kind::try_from(u8::from(kind)), Ok(kind));
        dock.name_kind_number(kind.into()).unwrap();
        assert_eq!(dock.named(), kind);
    }
}

#[test]
fn a_device_of_the_second_kind_waits_unseen() {
    let mut dock = Dock::new().unwrap();
    dock.name_kind(Kind::Second).unwrap();
    dock.event(Event::Reset { straps: 0, levels: 0xFF, short_pulse: false }).unwrap();
    for (register, value) in [(SecondRegister::FEATURES, 0x20), (SecondRegister::control(Bay::Zero), 0x04)] {
        dock::write(0x90, register, value).iter().for_each(|&event| assert!(dock.event(event).is_ok()));
    }
    dock.event(Event::Pins(0xBF)).unwrap();
    for tick in 1..=90 {
        dock.event(Event::Tick).unwrap();
        let status = dock.status(Bay::Zero).unwrap();
        assert_eq!(status.has_usb(), tick == 90);
        assert_eq!(status.state() == BayState::Inserted, tick == 90);
    }
}

#[test]
fn a_device_waits_as_the_register_says() {
    let mut dock = started();
    let write = |dock: &mut Dock, register, value| {
        dock::write(0x90, register, value).iter().for_each(|&event| assert!(dock.event(event).is_ok()));
    };
    assert_eq!(dock.reading(Register::WAIT_TIME), Ok(0));
    write(&mut dock, Register::WAIT_TIME, 2);
    assert_eq!(dock.reading(Register::WAIT_TIME), Ok(2));
    write(&mut dock, Register::control(Bay::Zero), 0x04);
    for state in [BayState::Empty, BayState::Empty, BayState::Inserted] {
        assert_eq!(dock.status(Bay::Zero).unwrap().state(), state);
        assert!(dock.outputs().unwrap().interrupt());
        dock.event(Event::Tick).unwrap();
    }
}

/// A state of this kind whose read of the register has come to its own read byte.
fn reading(kind: Kind, register: u8) -> Dock {
    let mut dock = Dock::new().unwrap();
    dock.name_kind(kind).unwrap();
    for word in [RESET, 0x0000, 0x4090, 0x4000 | u16::from(register), 0x0000] {
        assert_eq!(dock.held_byte(), Ok(None));
        dock.step(word).unwrap();
    }
    assert_eq!(dock.held_byte(), Ok(None));
    assert_eq!(dock.step(0x4091).unwrap().reply, Reply::Ack);
    dock
}

#[test]
fn an_open_read_holds_its_byte() {
    for (kind, status) in [(Kind::First, 0x10), (Kind::Second, 0x14)] {
        assert_eq!(reading(kind, 0x02).held_byte(), Ok(Some(0x00)));
        let mut dock = reading(kind, status);
        for word in [0x80FF, TICK, TICK, TICK, TICK, TICK, TICK, TICK, TICK, TICK, TICK] {
            dock.step(word).unwrap();
            assert_eq!(dock.held_byte(), Ok(Some(0x05)));
        }
        assert_ne!(dock.reading(status), Ok(0x05));
        for word in [0x0000, 0x2000, 0x4091, 0x6000, 0xE000, RESET] {
            let mut ended = dock.clone();
            ended.step(word).unwrap();
            assert_eq!(ended.held_byte(), Ok(None));
        }
        assert_eq!(dock.step(0x6001).unwrap().reply, Reply::Driven(0x05));
        assert_eq!(dock.held_byte(), Ok(if kind == Kind::Second { Some(0x00) } else { None }));
    }
}

#[test]
fn no_read_is_open_before_a_reset_or_in_the_other_kind() {
    for (kind, other) in [(Kind::First, 1), (Kind::Second, 0)] {
        let dock = reading(kind, 0x00);
        assert!(dock.held_byte().unwrap().is_some());
        for (place, byte) in [(1, 0), (2, other)] {
            assert_eq!(Dock::from_bytes(&with(&dock, place, byte)).unwrap().held_byte(), Ok(None));
        }
    }
}

#[test]
fn every_word_is_the_word_of_its_event() {
    let events = (0..=u16::MAX).filter_map(|word| match Event::try_from(word) {
        Ok(event) => {
            assert_eq!(u16::try_from(event), Ok(word));
            Some(event)
        }
        Err(error) => {
            assert_eq!(error, Error::Refused(Refusal::StrayBit));
            None
        }
    });
    assert_eq!(events.count(), 4 + 256 + 256 + 2 + 8192);
}

#[test]
fn a_reset_says_where_letr_starts() {
    for (short_pulse, letr) in [(false, 1), (true, 0)] {
        let mut dock = Dock::new().unwrap();
        dock.event(Event::Reset { straps: 1, levels: 0xFF, short_pulse }).unwrap();
        assert_eq!(dock.reading(0x40), Ok(letr));
    }
    let short = Event::Reset { straps: 1, levels: 0xFF, short_pulse: true };
    assert_eq!(short.to_string(), "RESET 1h FFh, short pulse");
}

#[test]
fn records_are_read_as_the_paper_packs_them() {
    let read = |bits: u32| Record::try_from(bits).map(|record| (record.refusal, record.reply, record.outputs.bits()));
    assert_eq!(read(0x0200_0000), Ok((None, Reply::Ack, 0)));
    assert_eq!(read(0x0401_FF00), Ok((None, Reply::NoAck, 0x1FF)));
    assert_eq!(read(0x062A_4100), Ok((None, Reply::Driven(0x15), 0x041)));
    assert_eq!(read(0x09FE_0000), Ok((None, Reply::NotDriven, 0)));
    assert_eq!(read(0x2001_C000), Ok((Some(Refusal::StrayBit), Reply::None, 0x1C0)));
}

#[test]
fn numbers_without_a_name_are_told() {
    let mut refusals = (1..=11).chain([14]);
    assert!(refusals.all(|number| Refusal::try_from(number).map(|refusal| refusal as u16) == Ok(number)));
    assert!([0, 12, 13, 15, 0xFFFF].iter().all(|&number| Refusal::try_from(number).is_err()));
    assert!((5..=7).all(|state| BayState::try_from(state).is_err() && Status::try_from(state << 4).is_err()));
    assert!(Outputs::try_from(0x1FF).is_ok());
    assert!(Outputs::try_from(0x200).is_err());
    for (number, byte) in [(0, 1), (1, 1), (2, 1), (4, 0), (5, 0), (6, 0), (7, 0)] {
        assert!(Reply::try_from((number, byte)).is_err());
    }
    assert!(Record::try_from(0x0000_0080).is_err());
    assert!(Record::try_from(0xC000_0000).is_err());
    assert!(Record::try_from(0x0A00_0000).is_err());
}

#[test]
fn outputs_name_what_is_on() {
    let shown = |bits| Outputs::try_from(bits).unwrap().to_string();
    assert_eq!(shown(0), "all off");
    assert_eq!(shown(0x001), "interrupt");
    assert_eq!(shown(0x1FF), "power 0, lock 0, green 0, yellow 0, power 1, lock 1, green 1, yellow 1, interrupt");
}

#[cfg(feature = "error")]
#[test]
fn errors_are_errors() {
    let error: Box<dyn std::error::Error> = Box::new(Error::Refused(Refusal::UnfitState));
    assert_eq!(error.to_string(), "refused: the bytes are no image of a fit state");
}
