//! "Bay moves": the removal button. A press counts only with a device in the bay (document 02, request 1), and a level
//! of the button is accepted after 5 ticks where one of presence takes 10 (request 5).

use crate::words::{pins, reset, TICK};
use crate::Expected::{Outputs, Reads};
use crate::{example, hold, ticks, w, Example, N, R};

/// The button of bay 0 goes down with a USB device in the bay, and its level is accepted.
fn press() -> Vec<u16> {
    hold(0x9F, 5)
}

fn release() -> Vec<u16> {
    hold(0xBF, 5)
}

/// Bay 0 Enabled and told of everything, its device seen: BSTR reads 21h, and 39h after a press.
fn enabled() -> Vec<u16> {
    [&[R][..], &w(0x10, 0x04), &w(0x14, 0x2C)].concat()
}

/// The same after a press that the driver has answered and cleared: 21h again, and the button is still down.
fn answered() -> Vec<u16> {
    [&enabled()[..], &press(), &w(0x14, 0x2C), &w(0x10, 0x08)].concat()
}

/// Bay 0 without a device, and told of everything.
fn told() -> Vec<u16> {
    [&[N][..], &w(0x14, 0x0C)].concat()
}

/// Presence changes to these levels, and a press of bay 0 begins so many ticks later. Ticks are counted from the first
/// change: presence is accepted in the tenth, the press in the fifth after it began.
fn press_into(levels: u8, begins: usize, until: usize) -> Vec<u16> {
    [hold(levels, begins), hold(levels & !0x20, until - begins)].concat()
}

fn presses() -> Vec<Example> {
    let pressed = [&enabled()[..], &press()].concat();
    // The driver's request stands: the status bit is no level.
    let kept = [&pressed[..], &w(0x14, 0x2C)].concat();
    let waiting = [&[R][..], &w(0x10, 0x04), &w(0x14, 0x20), &press()].concat();
    vec![
        example("a press", &[&pressed], vec![Reads(0x10, 0x39), Outputs(0x021)]),
        example("the driver's request stands", &[&kept, &ticks(1)], vec![Reads(0x10, 0x29)]),
        example("a second press, not cleared", &[&kept, &release(), &press()], vec![Reads(0x10, 0x29)]),
        example("a second press, cleared", &[&answered(), &release(), &press()], vec![Reads(0x10, 0x39)]),
        example("a release is no press", &[&answered(), &release()], vec![Reads(0x10, 0x21)]),
        example("a press without REMREQ_EN", &[&waiting], vec![Reads(0x10, 0x29), Outputs(0x040)]),
        example(".. waits for it", &[&waiting, &w(0x14, 0x08)], vec![Reads(0x10, 0x39)]),
        example(".. and a request goes first", &[&waiting, &w(0x14, 0x18)], vec![Reads(0x10, 0x19)]),
        // 1394 comes beside USB, and the press begins five ticks later: both are accepted in the last tick.
        example(
            "a presence bit that gives no state lets a press move",
            &[&enabled(), &press_into(0x3F, 5, 10)],
            vec![Reads(0x10, 0x3F)],
        ),
    ]
}

/// Request 5: a level is accepted in its fifth tick, down and up.
fn lengths() -> Vec<Example> {
    let in_bay_1 = [&[reset(0, 0xFB)][..], &w(0x18, 0x04), &w(0x1C, 0x2C)].concat();
    vec![
        example("a press of four ticks", &[&enabled(), &hold(0x9F, 4)], vec![Reads(0x10, 0x21), Outputs(0x040)]),
        example(".. that is let go", &[&enabled(), &hold(0x9F, 4), &hold(0xBF, 10)], vec![Reads(0x10, 0x21)]),
        example("a press of five ticks", &[&enabled(), &hold(0x9F, 5)], vec![Reads(0x10, 0x39), Outputs(0x021)]),
        example("four ticks in bay 1", &[&in_bay_1, &hold(0xF9, 4)], vec![Reads(0x18, 0x21), Outputs(0x004)]),
        example("five ticks in bay 1", &[&in_bay_1, &hold(0xF9, 5)], vec![Reads(0x18, 0x39), Outputs(0x003)]),
        // Not accepted, so that the button was never up: there is no press again.
        example("a release of four ticks", &[&answered(), &hold(0xBF, 4), &hold(0x9F, 10)], vec![Reads(0x10, 0x21)]),
        example("a release of five ticks", &[&answered(), &hold(0xBF, 5), &hold(0x9F, 4)], vec![Reads(0x10, 0x21)]),
        example(".. and a press again", &[&answered(), &hold(0xBF, 5), &hold(0x9F, 5)], vec![Reads(0x10, 0x39)]),
    ]
}

/// Request 5: what clears the button's count, and what keeps it.
fn counts() -> Vec<Example> {
    let four = [&enabled()[..], &hold(0x9F, 4)].concat();
    let bounced = [&four[..], &[pins(0xBF)], &hold(0x9F, 4)].concat();
    let up_for_a_tick = [&four[..], &hold(0xBF, 1), &hold(0x9F, 4)].concat();
    let bounced_up = [&answered()[..], &hold(0xBF, 4), &[pins(0x9F)]].concat();
    let down_at_reset = [&[reset(0, 0x9F)][..], &w(0x10, 0x04), &w(0x14, 0x2C), &ticks(5)].concat();
    vec![
        example("a press that bounces", &[&bounced], vec![Reads(0x10, 0x21)]),
        example(".. and then stays", &[&bounced, &[TICK]], vec![Reads(0x10, 0x39)]),
        example("a press that is up for a tick", &[&up_for_a_tick], vec![Reads(0x10, 0x21)]),
        example(".. and then stays down", &[&up_for_a_tick, &[TICK]], vec![Reads(0x10, 0x39)]),
        example("a release that bounces", &[&bounced_up, &hold(0xBF, 4), &press()], vec![Reads(0x10, 0x21)]),
        example(".. and then stays up", &[&bounced_up, &hold(0xBF, 5), &press()], vec![Reads(0x10, 0x39)]),
        example("a press sampled again", &[&four, &[pins(0x9F), TICK]], vec![Reads(0x10, 0x39)]),
        example("a press, and 1394 moves", &[&four, &[pins(0x1F), TICK]], vec![Reads(0x10, 0x39)]),
        example("a press, and nSL moves", &[&four, &[pins(0x8F), TICK]], vec![Reads(0x10, 0xB9)]),
        example("RESET clears the button's count", &[&four, &enabled(), &hold(0x9F, 4)], vec![Reads(0x10, 0x21)]),
        example("down at RESET is no press", &[&down_at_reset], vec![Reads(0x10, 0x21)]),
        example(".. until it was up", &[&down_at_reset, &release(), &press()], vec![Reads(0x10, 0x39)]),
    ]
}

/// Request 5: a press that begins with the bay's other presence bit, and with a device of bay 1.
fn beside_presence() -> impl Iterator<Item = Example> {
    let with_1394 = [(4, 0x21), (5, 0x39), (9, 0x39), (10, 0x3F)];
    let with_bay_1 = [(4, 0x21, 0x00), (5, 0x39, 0x00), (9, 0x39, 0x00), (10, 0x39, 0x05)];
    let beside_1394 = with_1394.into_iter().map(|(tick, status)| {
        let name = format!("a press beside 1394, tick {}", tick);
        example(name, &[&enabled(), &hold(0x1F, tick)], vec![Reads(0x10, status)])
    });
    let beside_bay_1 = with_bay_1.into_iter().map(|(tick, status, of_bay_1)| {
        let name = format!("a press beside bay 1's device, tick {}", tick);
        example(name, &[&enabled(), &hold(0x9B, tick)], vec![Reads(0x10, status), Reads(0x18, of_bay_1)])
    });
    beside_1394.chain(beside_bay_1)
}

/// Request 1: presence of the same tick first, and a press on a bay then not present sets nothing.
fn presses_and_presence() -> Vec<Example> {
    let untold = [&[N][..], &w(0x14, 0x08)].concat();
    let wiped = [&told()[..], &hold(0xDF, 5)].concat();
    let left = [&enabled()[..], &press(), &hold(0xFF, 10)].concat();
    let at_once = press_into(0xBF, 5, 10);
    vec![
        example("a press with no device", &[&wiped], vec![Reads(0x10, 0x00), Outputs(0)]),
        example(".. in bay 1", &[&[N], &w(0x1C, 0x08), &hold(0xFD, 5)], vec![Reads(0x18, 0x00), Outputs(0)]),
        example(".. and the next cartridge", &[&wiped, &hold(0xFF, 5), &hold(0xBF, 10)], vec![Reads(0x10, 0x15)]),
        example(".. with the button still down", &[&wiped, &hold(0x9F, 10)], vec![Reads(0x10, 0x15)]),
        example("a press as the device leaves", &[&enabled(), &press_into(0xFF, 5, 10)], vec![Reads(0x10, 0x04)]),
        example("a press before the device leaves", &[&left], vec![Reads(0x10, 0x0C)]),
        example(".. is there for the next cartridge", &[&left, &hold(0xBF, 10)], vec![Reads(0x10, 0x1D)]),
        example("a press as a device arrives", &[&told(), &at_once], vec![Reads(0x10, 0x1D), Outputs(0x041)]),
        example(".. without DEVSTSCHG_EN", &[&untold, &at_once], vec![Reads(0x10, 0x0D), Outputs(0x001)]),
        example("a press a tick before", &[&told(), &press_into(0xBF, 4, 10)], vec![Reads(0x10, 0x15)]),
        example("a press a tick after", &[&told(), &press_into(0xBF, 6, 11)], vec![Reads(0x10, 0x3D)]),
    ]
}

/// Requests 1 and 5: a press that begins with a removal or some ticks after it, at each tick where something is
/// accepted and the one before. What was pressed in time stays set in the empty bay.
fn removals() -> impl Iterator<Item = Example> {
    let together = [(0, 4, 0x21), (0, 5, 0x39), (0, 9, 0x39), (0, 10, 0x0C)];
    let before = [(4, 8, 0x21), (4, 9, 0x39), (4, 10, 0x0C)];
    let same_tick = [(5, 9, 0x21), (5, 10, 0x04)];
    let after = [(6, 9, 0x21), (6, 10, 0x04), (6, 11, 0x04)];
    let all = together.into_iter().chain(before).chain(same_tick).chain(after);
    all.map(|(begins, until, status)| {
        let name = format!("a press {} ticks into a removal, tick {}", begins, until);
        example(name, &[&enabled(), &press_into(0xFF, begins, until)], vec![Reads(0x10, status)])
    })
}

/// The same with an arrival. What was pressed before it sets nothing, and a button that is still down is no press.
fn arrivals() -> impl Iterator<Item = Example> {
    let together = [(0, 4, 0x00), (0, 5, 0x00), (0, 9, 0x00), (0, 10, 0x15), (0, 20, 0x15)];
    let before = [(4, 8, 0x00), (4, 9, 0x00), (4, 10, 0x15)];
    let same_tick = [(5, 9, 0x00), (5, 10, 0x1D)];
    let after = [(6, 9, 0x00), (6, 10, 0x15), (6, 11, 0x3D)];
    let all = together.into_iter().chain(before).chain(same_tick).chain(after);
    all.map(|(begins, until, status)| {
        let name = format!("a press {} ticks into an arrival, tick {}", begins, until);
        example(name, &[&told(), &press_into(0xBF, begins, until)], vec![Reads(0x10, status)])
    })
}

/// What the outputs show of a press and a presence change that begin together.
fn together() -> Vec<Example> {
    let leaves = |until| [enabled(), press_into(0xFF, 0, until)].concat();
    let arrives = |until| [told(), press_into(0xBF, 0, until)].concat();
    vec![
        example("a removal with a press: the press", &[&leaves(5)], vec![Outputs(0x021), Reads(0x14, 0x2C)]),
        example("a removal with a press: the removal", &[&leaves(10)], vec![Outputs(0x001), Reads(0x14, 0x0C)]),
        example("an arrival with a press: the press", &[&arrives(5)], vec![Outputs(0)]),
        example("an arrival with a press: the arrival", &[&arrives(10)], vec![Outputs(0x041)]),
        example("an arrival with a press: another", &[&arrives(10), &release(), &press()], vec![Reads(0x10, 0x3D)]),
    ]
}

pub fn examples() -> Vec<Example> {
    let listed = [presses(), lengths(), counts(), presses_and_presence(), together()].into_iter().flatten();
    listed.chain(beside_presence()).chain(removals()).chain(arrivals()).collect()
}
