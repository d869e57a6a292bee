//! Tests of the second kind on what no list of words shows: fit states that none leads to, and fields that the kind in
//! force passes by.

use crate::bay::{Bay, Control, State, DEBOUNCED};
use crate::bus::Command;
use crate::second::{Once, Registers};
use crate::{Controller, Kind, Reply};
use paper::words::{byte, pins, reset, reset_short, take, write, START, STOP, TICK, TIMEOUT};

/// Counts of a bay whose nUSB is accepted in the next tick.
const LAST_TICK_OF_NUSB: [u8; 3] = [0, 9, 0];

const STATES: [State; 5] =
    [State::Empty, State::Inserted, State::Enabled, State::RemovalRequested, State::RemovalAllowed];
const BOTH: [bool; 2] = [false, true];

fn started(kind: Kind) -> Controller {
    Controller { started: true, kind, named: kind, ..Controller::new() }
}

/// The second kind in force, with this SFR and this bay 0.
fn with_bay(features: u8, bay: &Bay) -> Controller {
    let mut dock = started(Kind::Second);
    dock.second.features = Once { value: features, written: true };
    dock.bays[0] = bay.clone();
    dock
}

fn give(dock: &mut Controller, words: &[u16]) {
    words.iter().for_each(|&word| {
        dock.step(word);
    });
}

fn ticked(features: u8, bay: &Bay) -> Bay {
    let mut dock = with_bay(features, bay);
    dock.step(TICK);
    dock.bays[0].clone()
}

fn written(bay: &Bay, value: u8) -> Bay {
    let mut dock = with_bay(0, bay);
    give(&mut dock, &write(0x90, 0x10, value));
    dock.bays[0].clone()
}

/// A bay in this state whose levels are accepted: with a USB device or with none.
fn bay(state: State, device: bool, wait: u16) -> Bay {
    Bay { state, wait, ..Bay::reset(if device { 0b1011 } else { 0b1111 }, false) }
}

/// One TICK of a bay, after document 03's sentences and no code of ours. The levels are accepted in this tick wherever
/// they differ, so that the debouncing is done.
fn as_the_paper_says(old: &Bay, timeout: u16) -> Bay {
    let has_contact = |accepted: u8| accepted & 0b1100 != 0b1100;
    let bits = |accepted: u8, wait: u16| if wait > 0 { 0 } else { !accepted & 0b1100 };
    let mut new = old.clone();
    new.accepted = old.levels & 0b1110;
    new.counts = [0; 3];
    if old.wait > 0 {
        // "A wait above 0: without contact it becomes 0; else it falls by one."
        new.wait = if has_contact(new.accepted) { old.wait - 1 } else { 0 };
    } else if has_contact(new.accepted) && !has_contact(old.accepted) {
        // "Else, if contact is new in this TICK, the wait becomes 80 x ITO."
        new.wait = 80 * timeout;
    }
    // "Steps 1 and 2 then go by presence, and by the two bits BSTR shows, before this TICK and now."
    let (before, now) = (bits(old.accepted, old.wait), bits(new.accepted, new.wait));
    let leaves = before != 0 && now == 0;
    if before != now && !(leaves && old.state == State::RemovalAllowed && !old.control.remevtwak_enable) {
        new.devstschg = true;
    }
    let mut moved = false;
    if leaves {
        new.state = State::Empty;
        new.request = 0;
        new.control.power = false;
        moved = true;
    } else if before == 0 && now != 0 && old.control.devstschg_enable {
        new.state = State::Inserted;
        moved = true;
    }
    let pressed = old.accepted & 0b0010 != 0 && new.accepted & 0b0010 == 0;
    if pressed && now != 0 {
        new.remreq_status = true;
        let asked = old.control.remreq_enable && !old.remreq_status && !moved;
        if asked && (new.state == State::Inserted || new.state == State::Enabled) {
            new.state = State::RemovalRequested;
        }
    }
    new.pulse = old.pulse.saturating_sub(1);
    new
}

/// Both presence inputs and the button before and after, all states, flags and waits at their edges.
#[test]
fn every_tick_is_as_the_paper_says() {
    let mut tried = 0;
    for (accepted, levels) in (0..8).flat_map(|accepted| (0..8).map(move |levels| (accepted << 1, levels << 1))) {
        for (state, flags) in STATES.into_iter().flat_map(|state| (0..32).map(move |flags| (state, flags))) {
            for (wait, timeout) in [0, 1, 2, 80, 560].into_iter().flat_map(|wait| [0, 1, 7].map(|ito| (wait, ito))) {
                let flag = |bit: u8| flags >> bit & 1 == 1;
                let old = Bay {
                    levels,
                    accepted,
                    counts: DEBOUNCED
                        .map(|input| if (levels ^ accepted) & input.bit == 0 { 0 } else { input.ticks - 1 }),
                    state,
                    remreq_status: flag(0),
                    devstschg: flag(1),
                    request: 3,
                    control: Control {
                        lock: false,
                        remreq_enable: flag(2),
                        devstschg_enable: flag(3),
                        remevtwak_enable: flag(4),
                        power: true,
                    },
                    pulse: wait * 2,
                    wait,
                };
                let features = (timeout as u8) << 5;
                assert_eq!(ticked(features, &old), as_the_paper_says(&old, timeout), "ITO {}, {:?}", timeout, old);
                tried += 1;
            }
        }
    }
    assert_eq!(tried, 64 * 5 * 32 * 15);
}

#[test]
fn a_wait_without_contact_becomes_0_and_changes_nothing_else() {
    for (state, wait) in STATES.into_iter().flat_map(|state| [1, 2, 560].map(|wait| (state, wait))) {
        assert_eq!(ticked(0xE0, &bay(state, false, wait)), bay(state, false, 0));
    }
}

#[test]
fn new_contact_under_a_stale_wait_goes_on_with_it() {
    for state in STATES {
        let arriving = |wait| Bay { levels: 0b1011, counts: LAST_TICK_OF_NUSB, ..bay(state, false, wait) };
        let found = |wait| Bay { devstschg: wait == 0, ..bay(state, true, wait) };
        assert_eq!(ticked(0xE0, &arriving(0)), Bay { devstschg: false, ..found(560) });
        assert_eq!(ticked(0xE0, &arriving(9)), found(8));
        assert_eq!(ticked(0xE0, &arriving(1)), found(0));
    }
}

#[test]
fn no_write_ends_a_stale_wait_or_finds_a_device_in_it() {
    for (state, told) in STATES.into_iter().flat_map(|state| BOTH.map(|told| (state, told))) {
        let mut old = bay(state, true, 7);
        old.control.devstschg_enable = told;
        for value in 0..=u8::MAX {
            let new = written(&old, value);
            assert_eq!((new.state, new.wait, new.control.power), (state, 7, false), "{:02X}h", value);
        }
        // This move asks for no device, here as in the first kind.
        old.remreq_status = true;
        let asked = if state.takes_removal_request() { State::RemovalRequested } else { state };
        assert_eq!(written(&old, 0x28).state, asked);
        // A request without a wait finds one.
        old.wait = 0;
        assert_eq!(written(&old, 0xA5).state, State::Enabled);
        assert!(written(&old, 0xA5).control.power);
    }
}

#[test]
fn status_shows_no_device_in_a_wait() {
    for (state, wait) in STATES.into_iter().flat_map(|state| [0, 1, 560].map(|wait| (state, wait))) {
        let shown = (state as u8) << 4 | 0x04 | u8::from(wait == 0);
        assert_eq!(with_bay(0, &bay(state, true, wait)).reading(0x14), shown);
    }
}

/// "Empty with a wait above 0 and DEVSTSCHG_EN": contact isn't asked for, and the other states' lamps are their own.
#[test]
fn the_lamps_in_a_stale_wait() {
    for (phase, state) in (0..200).flat_map(|phase| STATES.map(|state| (phase, state))) {
        let lit = phase < 50 || (100..150).contains(&phase);
        for (device, told, wait) in [(false, false, 3), (false, true, 3), (true, true, 3), (true, true, 0)] {
            let mut bay = Bay { devstschg: false, ..bay(state, device, wait) };
            bay.control.devstschg_enable = told;
            let shown = match state {
                State::Empty if lit && told && wait > 0 => 0x040,
                State::Inserted if lit => 0x040,
                State::Enabled => 0x040,
                State::RemovalRequested if lit => 0x020,
                _ => 0x000,
            };
            let dock = Controller { phase, ..with_bay(0, &bay) };
            assert_eq!(dock.outputs(), shown, "phase {}, {:?}", phase, bay);
        }
    }
}

#[test]
fn a_pulse_in_level_mode_falls_and_does_not_show() {
    for lock in BOTH {
        let mut held = bay(State::Empty, false, 0);
        held.control.lock = lock;
        held.pulse = 1200;
        assert_eq!(with_bay(0x01, &held).outputs(), if lock { 0x080 } else { 0 });
        assert_eq!(with_bay(0x03, &held).outputs(), 0x080);
        assert_eq!(ticked(0x01, &held).pulse, 1199);
    }
}

#[test]
fn sfrs_first_write_ends_the_pulses_of_both_bays() {
    for (bay_count, written) in [0, 1, 2, 3].into_iter().flat_map(|count| BOTH.map(|written| (count, written))) {
        let mut locked = bay(State::Enabled, true, 0);
        locked.control = Control { lock: true, power: true, remreq_enable: true, ..Control::default() };
        locked.pulse = 1200;
        let mut dock = Controller { bay_count, bays: [locked.clone(), locked.clone()], ..started(Kind::Second) };
        dock.second.features.written = written;
        give(&mut dock, &write(0x90, 0xFC, 0x02));
        let open = Control { remreq_enable: true, ..Control::default() };
        let expected = if written { locked } else { Bay { control: open, pulse: 0, ..locked } };
        assert_eq!(dock.bays, [expected.clone(), expected], "bay count {}", bay_count);
        assert_eq!(dock.second.features, Once { value: if written { 0 } else { 2 }, written: true });
    }
}

#[test]
fn a_closed_bay_that_is_not_empty_is_passed_by() {
    let mut full = bay(State::Enabled, true, 5);
    full.control = Control { lock: true, power: true, devstschg_enable: true, ..Control::default() };
    full.pulse = 9;
    let mut dock = Controller { bay_count: 1, bays: [Bay::empty(), full.clone()], ..started(Kind::Second) };
    assert_eq!(dock.outputs(), 0);
    (0x18..=0x23).for_each(|address| assert_eq!(dock.reading(address), 0));
    for address in [0x18, 0x20, 0x21] {
        give(&mut dock, &write(0x90, address, 0xFF));
        give(&mut dock, &[pins(0xFF), TICK]);
    }
    assert_eq!(dock.bays[1], full);
    assert_eq!(dock.second.form_factors, [Once::default(); 2]);
}

#[test]
fn a_bay_count_of_3_reads_so_and_closes_nothing() {
    let mut dock = Controller { bay_count: 3, ..started(Kind::Second) };
    dock.bays[1] = bay(State::Empty, true, 0);
    assert_eq!(dock.reading(0x0C), 0x03);
    assert_eq!(dock.reading(0x20), 0x05);
}

#[test]
fn what_only_the_other_kind_uses_is_passed_by() {
    let arriving = Bay { levels: 0b1011, counts: LAST_TICK_OF_NUSB, ..bay(State::Empty, false, 0) };
    for kind in [Kind::First, Kind::Second] {
        let plain = Controller { bays: [arriving.clone(), Bay::empty()], straps: 1, ..started(kind) };
        let mut other = plain.clone();
        match kind {
            Kind::First => {
                let once = Once { value: 7, written: true };
                other.second = Registers { subsystem: [once; 4], features: once, form_factors: [once; 2] };
            }
            Kind::Second => {
                other.lock_time = 3;
                other.wait_time = 255;
            }
        }
        let control = if kind == Kind::First { 0x14 } else { 0x10 };
        let w = |value| write(0x90, control, value);
        let mut docks = [plain, other];
        for word in [&w(0x84)[..], &w(0x04), &[TICK; 30], &w(0xA1)].concat() {
            let [one, two] = [docks[0].step(word), docks[1].step(word)];
            assert_eq!(one, two);
            (0..=u8::MAX).for_each(|address| assert_eq!(docks[0].reading(address), docks[1].reading(address)));
        }
    }
}

/// From a state where every field holds something.
#[test]
fn a_reset_keeps_what_the_table_says_and_nothing_else() {
    let once = |value| Once { value, written: true };
    let mut full = bay(State::Enabled, true, 9);
    full.pulse = 12;
    let before = Controller {
        straps: 15,
        command: Command::Writing(0x14),
        security_lock: true,
        bay_count: 1,
        capabilities_written: true,
        lock_time: 3,
        wait_time: 200,
        phase: 77,
        second: Registers { subsystem: [1, 2, 3, 4].map(once), features: once(5), form_factors: [6, 7].map(once) },
        bays: [full.clone(), full],
        ..started(Kind::Second)
    };
    let kept = Registers {
        subsystem: [1, 2, 3, 4].map(|value| Once { value, written: false }),
        features: Once::default(),
        form_factors: [6, 7].map(once),
    };
    for (kind, named) in [(1, Kind::First), (2, Kind::Second)] {
        for (word, letr) in [(reset(0x2, 0xBF), 1), (reset_short(0x2, 0xBF), 0)] {
            let mut dock = before.clone();
            dock.name_kind(kind).unwrap();
            dock.step(word);
            let first = named == Kind::First;
            let expected = Controller {
                straps: 2,
                bay_count: if first { 0 } else { 2 },
                lock_time: if first { letr } else { 0 },
                second: kept,
                bays: [Bay::reset(0x0B, first), Bay::reset(0x0F, first)],
                ..started(named)
            };
            assert_eq!(dock, expected);
        }
    }
}

#[test]
fn before_a_reset_nothing_shows() {
    let mut full = bay(State::Enabled, true, 0);
    full.control = Control { lock: true, power: true, devstschg_enable: true, ..Control::default() };
    let mut dock = Controller { started: false, ..with_bay(0xFF, &full) };
    dock.command = Command::Reading { register: 0x14, value: 0x25 };
    let before = dock.clone();
    assert_eq!(dock.outputs(), 0);
    assert_eq!(dock.held_byte(), None);
    (0..=u8::MAX).for_each(|address| assert_eq!(dock.reading(address), 0));
    assert_eq!(dock.step(take(true)).record(), [0x30, 0, 0, 0]);
    assert_eq!(dock, before);
}

/// How far the host can have come in a command of one kind alone.
fn places_of(kind: Kind) -> [Command; 2] {
    match kind {
        Kind::First => [Command::Data { register: 0x14, value: 0x04 }, Command::Driving(0x39)],
        Kind::Second => [Command::Writing(0x14), Command::Reading { register: 0x14, value: 0x39 }],
    }
}

#[test]
fn progress_of_the_other_kind_counts_as_none() {
    for (kind, other) in [(Kind::First, Kind::Second), (Kind::Second, Kind::First)] {
        for command in places_of(other) {
            let begun = Controller { command, ..started(kind) };
            let none = started(kind);
            assert_eq!(begun.held_byte(), None);
            for word in [START, STOP, byte(0x04), byte(0x90), byte(0x91), take(true), take(false), TIMEOUT] {
                let (mut begun, mut none) = (begun.clone(), none.clone());
                assert_eq!(begun.step(word), none.step(word), "{:?}, {:04X}h", command, word);
                assert_eq!(begun, none, "{:?}, {:04X}h", command, word);
            }
            let mut passed = begun.clone();
            give(&mut passed, &[pins(0xFF), TICK]);
            assert_eq!(passed.command, command);
            let mut opened = begun;
            opened.step(START);
            assert_eq!(opened.step(byte(0x90)).reply, Reply::Ack);
        }
    }
}

#[test]
fn progress_of_the_own_kind_goes_on() {
    for kind in [Kind::First, Kind::Second] {
        let [writing, reading] = places_of(kind);
        let after = |command, word| Controller { command, ..started(kind) }.step(word).reply;
        assert_eq!(after(reading, take(true)), Reply::Driven(0x39));
        let held = |command| Controller { command, ..started(kind) }.held_byte();
        assert_eq!((held(reading), held(writing)), (Some(0x39), None));
        assert_eq!(after(writing, byte(0x04)), if kind == Kind::First { Reply::NoAck } else { Reply::Ack });
    }
}

/// The second kind's longest pulse and wait, every byte and flag that only it has, and its places in a command.
#[test]
fn every_fit_state_is_its_image() {
    let mut full = started(Kind::Second);
    full.second.subsystem = [1, 2, 3, 4].map(|value| Once { value, written: value % 2 == 0 });
    full.second.form_factors = [Once { value: 7, written: false }, Once { value: 0, written: true }];
    full.second.features = Once { value: 0xFF, written: true };
    full.bays = [(1200, 0), (257, 560)].map(|(pulse, wait)| Bay { pulse, ..bay(State::Empty, true, wait) });
    let kinds = [Kind::First, Kind::Second];
    for (kind, named) in kinds.into_iter().flat_map(|kind| kinds.map(|named| (kind, named))) {
        let short = [(200, 0), (0, 255)].map(|(pulse, wait)| Bay { pulse, ..bay(State::Empty, true, wait) });
        let bays = if kind == Kind::First { short } else { full.bays.clone() };
        for command in places_of(Kind::First).into_iter().chain(places_of(Kind::Second)) {
            let dock = Controller { kind, named, command, bays: bays.clone(), ..full.clone() };
            assert_eq!(Controller::from_image(&dock.image()), Some(dock));
        }
    }
}

#[test]
fn ticks_are_fit_by_the_kind_in_force() {
    let fits = |kind, pulse, wait| {
        let bays = [Bay::empty(), Bay { pulse, wait, ..Bay::empty() }];
        let [bay_0, bay_1] = bays.clone();
        [bays, [bay_1, bay_0]]
            .map(|bays| Controller::from_image(&Controller { bays, ..started(kind) }.image()).is_some())
    };
    for (kind, pulse, wait) in [(Kind::First, 200, 255), (Kind::Second, 1200, 560)] {
        assert_eq!(fits(kind, pulse, wait), BOTH.map(|_| true));
        assert_eq!(fits(kind, pulse + 1, 0), BOTH.map(|_| false));
        assert_eq!(fits(kind, 0, wait + 1), BOTH.map(|_| false));
        assert_eq!(fits(kind, u16::MAX, 0), BOTH.map(|_| false));
        assert_eq!(fits(kind, 0, u16::MAX), BOTH.map(|_| false));
    }
}
