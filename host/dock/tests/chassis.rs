//! The wrapper's own part of the chassis: what it makes of the library's numbers, and what it keeps on a refusal.

use dock::{Bay, Chassis, Dock, Error, Event, Kind, Refusal, Register, Reply, SecondRegister, CHASSIS_RECORDS};

const TICK: u16 = 0xA000;
const TAKE: u16 = 0x6000;

fn refused<T>(refusal: Refusal) -> Result<T, Error> {
    Err(Error::Refused(refusal))
}

fn fresh(count: usize) -> Vec<Dock> {
    vec![Dock::new().unwrap(); count]
}

/// All at addresses of their own, with a USB device in bay 0.
fn started(count: usize) -> Chassis<Vec<Dock>> {
    let mut chassis = Chassis::new(fresh(count)).unwrap();
    for record in 0..count {
        chassis.event(record, Event::Reset { straps: (record as u8) << 2, levels: 0xBF, short_pulse: false }).unwrap();
    }
    chassis
}

fn own(record: usize) -> u8 {
    0x90 + 2 * record as u8
}

/// The replies to a whole read.
fn read(chassis: &mut Chassis<Vec<Dock>>, own: u8, register: u8) -> Vec<Reply> {
    dock::read(own, register).iter().map(|&event| chassis.event(0, event).unwrap().reply).collect()
}

#[test]
fn there_are_one_to_four() {
    for count in 0..=6 {
        let chassis = Chassis::new(fresh(count));
        if (1..=CHASSIS_RECORDS).contains(&count) {
            assert_eq!(chassis.unwrap().docks(), fresh(count));
        } else {
            assert_eq!(chassis, refused(Refusal::ChassisLength));
        }
    }
}

#[test]
fn docks_are_held_or_lent() {
    let dock = Dock::new().unwrap();
    let mut held = Chassis::new([dock.clone(), dock.clone()]).unwrap();
    let mut docks = [dock.clone(), dock.clone(), dock];
    let mut lent = Chassis::new(&mut docks[1..]).unwrap();
    for word in [0xC0BF, TICK] {
        assert_eq!(held.step(0, word), lent.step(0, word));
    }
    assert_eq!(held.docks(), lent.docks());
    assert_eq!(held.into_docks(), docks[1..]);
    assert_eq!(docks[0], Dock::new().unwrap());
}

#[test]
fn each_dock_is_what_single_events_make_of_it() {
    let mut chassis = Chassis::new(fresh(3)).unwrap();
    let mut alone = fresh(3);
    for (record, word) in [(1, 0xC6BF), (0, 0x0000), (2, 0xD0FB), (0, 0x4092), (2, 0x80FF), (7, TICK), (9, 0xE000)] {
        let step = chassis.step(record, word).unwrap();
        for (place, dock) in alone.iter_mut().enumerate() {
            let is_for_one = matches!(word >> 13, 4 | 6);
            if !is_for_one || place == record {
                // Refused before the first RESET, and then nothing changes.
                let _ = dock.step(word);
            }
            assert_eq!(step.outputs[place], dock.outputs().unwrap());
        }
        assert_eq!(step.outputs[3].bits(), 0);
        assert_eq!(chassis.docks(), alone);
    }
}

#[test]
fn a_refused_call_leaves_every_dock() {
    let mut chassis = Chassis::new(fresh(2)).unwrap();
    let straps = |straps| Event::Reset { straps, levels: 0xFF, short_pulse: false };
    assert_eq!(chassis.event(0, Event::Tick), refused(Refusal::NotStarted));
    assert_eq!(chassis.event(2, Event::Pins(0)), refused(Refusal::AbsentRecord));
    assert_eq!(chassis.docks(), fresh(2));
    chassis.event(1, straps(4)).unwrap();
    let before = chassis.clone();
    assert_eq!(chassis.event(0, Event::Pins(0)), refused(Refusal::NotStarted));
    assert_eq!(chassis.event(0, straps(7)), refused(Refusal::TakenAddress));
    assert_eq!(chassis.event(2, straps(4)), refused(Refusal::AbsentRecord));
    assert_eq!(chassis.event(usize::MAX, straps(0)), refused(Refusal::AbsentRecord));
    assert_eq!(chassis.event(0, straps(16)), refused(Refusal::WideStraps));
    assert_eq!(chassis.step(2, 0x81FF), refused(Refusal::StrayBit));
    assert_eq!(chassis, before);
}

#[test]
fn two_of_one_address_are_no_chassis() {
    let mut chassis = started(2);
    let twin = chassis.docks()[0].clone();
    chassis.docks_mut()[1] = twin;
    let before = chassis.clone();
    assert_eq!(chassis.event(0, Event::Tick), refused(Refusal::UnfitState));
    assert_eq!(chassis.step(0, 0x0001), refused(Refusal::UnfitState));
    assert_eq!(chassis, before);
    assert_eq!(Chassis::new(chassis.into_docks()), refused(Refusal::UnfitState));
}

#[test]
fn two_open_reads_are_no_chassis() {
    let mut docks = started(2).into_docks();
    for (record, dock) in docks.iter_mut().enumerate() {
        let events = dock::read(own(record), 0x10);
        let (_take, until) = events.split_last().unwrap();
        until.iter().for_each(|&event| assert!(dock.event(event).is_ok()));
    }
    assert_eq!(Chassis::new(&mut docks[..]), refused(Refusal::UnfitState));
    docks[0].event(Event::Timeout).unwrap();
    let mut chassis = Chassis::new(docks).unwrap();
    assert_eq!(chassis.held_byte(), Ok(Some(0x05)));
    assert_eq!(chassis.step(0, TAKE).unwrap().reply, Reply::Driven(0x05));
    assert_eq!(chassis.held_byte(), Ok(None));
}

#[test]
fn each_is_read_at_its_own_address() {
    for count in 1..=CHASSIS_RECORDS {
        let mut chassis = started(count);
        for record in 0..CHASSIS_RECORDS {
            let replies = read(&mut chassis, own(record), Register::status(Bay::Zero));
            let expected = if record < count { Reply::Driven(0x05) } else { Reply::NotDriven };
            assert_eq!(replies.last(), Some(&expected));
            assert_eq!(replies[1], if record < count { Reply::Ack } else { Reply::NoAck });
            chassis.event(0, Event::Stop).unwrap();
        }
    }
}

#[test]
fn kinds_may_be_mixed() {
    let mut chassis = started(2);
    chassis.docks_mut()[1].name_kind(Kind::Second).unwrap();
    chassis.event(1, Event::Reset { straps: 4, levels: 0xBF, short_pulse: false }).unwrap();
    for (own, register) in [(0x90, Register::control(Bay::Zero)), (0x92, SecondRegister::control(Bay::Zero))] {
        dock::write(own, register, 0x24).iter().for_each(|&event| assert!(chassis.event(0, event).is_ok()));
    }
    let step = chassis.event(0, Event::Tick).unwrap();
    assert_eq!(step.outputs.map(|outputs| outputs.bits()), [0x041, 0x041, 0, 0]);
    assert_eq!(read(&mut chassis, 0x90, 0x00).last(), Some(&Reply::Driven(0x55)));
    assert_eq!(read(&mut chassis, 0x92, 0x00).last(), Some(&Reply::Driven(0x60)));
}

#[test]
fn refusals_say_what_is_the_matter() {
    let told = |refusal| Error::from(refusal).to_string();
    assert_eq!(told(Refusal::ChassisLength), "refused: a chassis of none or of more than four controllers");
    assert_eq!(told(Refusal::AbsentRecord), "refused: PINS or RESET for a controller that is not there");
    assert_eq!(told(Refusal::TakenAddress), "refused: a RESET to the address of another controller");
}
