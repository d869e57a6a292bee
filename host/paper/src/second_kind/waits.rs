//! "Bay moves": the insertion time-out. While it runs there is no device for anybody but the lamp.

use super::{second, AFTER_N};
use crate::words::{byte, pins, reset, START, STOP, TICK};
use crate::{hold, ticks, w, Story, N, OWN, R};

/// SFR with ITO 1, 80 ticks.
const SHORTEST: u8 = 0x20;

/// BCER of a bay whose host hears of devices, and of the button too.
const TOLD: u8 = 0x04;
const TOLD_ALL: u8 = 0x0C;

/// SFR and the control of bay 0 are written, and nothing is in the bays.
fn waiting(name: impl Into<String>, features: u8, control: u8) -> Story {
    second(name).words(&[N]).words(&w(0xFC, features)).words(&w(0x10, control))
}

/// A USB device makes contact with bay 0, and its wait of 80 ticks begins with the last of these words.
fn begun(name: impl Into<String>, control: u8) -> Story {
    waiting(name, SHORTEST, control).words(&hold(0xBF, 10)).reads(0x14, 0x00)
}

/// Each ITO in either bay: no device until the last tick.
fn lengths() -> impl Iterator<Item = Story> {
    (1..8).flat_map(|timeout| {
        let length = 80 * usize::from(timeout);
        let sfr = timeout << 5;
        let of_bay = |bay: usize, control, status, levels| {
            second(format!("ITO {} in bay {}", timeout, bay))
                .words(&[N])
                .words(&w(0xFC, sfr))
                .words(&w(control, TOLD))
                .words(&hold(levels, 10))
                .reads_only(&[&AFTER_N[..], &[(0xFC, sfr), (control, TOLD)]].concat())
                .words(&ticks(length - 1))
                .reads_only(&[&AFTER_N[..], &[(0xFC, sfr), (control, TOLD)]].concat())
                .words(&[TICK])
                .reads_only(&[&AFTER_N[..], &[(0xFC, sfr), (control, TOLD), (status, 0x15)]].concat())
        };
        vec![of_bay(0, 0x10, 0x14, 0xBF), of_bay(1, 0x18, 0x20, 0xFB)]
    })
}

/// What begins a wait, and what doesn't.
fn beginnings() -> Vec<Story> {
    vec![
        waiting("ITO 0", 0x1F, TOLD).words(&hold(0xBF, 9)).reads(0x14, 0x00).words(&[TICK]).reads(0x14, 0x15),
        second("SFR unwritten").words(&[N]).words(&w(0x10, TOLD)).words(&hold(0xBF, 10)).reads(0x14, 0x15),
        // It is there from the RESET on, and no contact is new.
        second("a device at RESET doesn't wait")
            .words(&[R])
            .words(&w(0xFC, 0xE0))
            .reads(0x14, 0x05)
            .words(&ticks(30))
            .reads(0x14, 0x05)
            .words(&w(0x10, TOLD))
            .reads(0x14, 0x15),
        second("a second contact doesn't wait")
            .words(&[R])
            .words(&w(0xFC, 0xE0))
            .words(&w(0x14, 0x04))
            .words(&hold(0x3F, 10))
            .reads(0x14, 0x07),
        second("contacts that change over don't wait")
            .words(&[R])
            .words(&w(0xFC, 0xE0))
            .words(&w(0x14, 0x04))
            .words(&w(0x10, 0x20))
            .words(&hold(0x7F, 10))
            .reads(0x14, 0x26),
        begun("both contacts at once", TOLD)
            .words(&[N])
            .words(&w(0xFC, SHORTEST))
            .words(&w(0x10, TOLD))
            .words(&hold(0x3F, 89))
            .reads(0x14, 0x00)
            .words(&[TICK])
            .reads(0x14, 0x17),
        begun("a second device waits too", TOLD)
            .words(&ticks(80))
            .reads(0x14, 0x15)
            .words(&hold(0xFF, 10))
            .reads(0x14, 0x04)
            .words(&w(0x14, 0x04))
            .words(&hold(0xBF, 89))
            .reads(0x14, 0x00)
            .words(&[TICK])
            .reads(0x14, 0x15),
    ]
}

/// Nobody hears of a device within its wait: not of it, nor of its going.
fn unseen() -> Vec<Story> {
    vec![
        begun("a device gone within the wait changes no register", 0xAE)
            .reads(0x10, 0xAE)
            .words(&hold(0xFF, 10))
            .reads(0x14, 0x00)
            .reads(0x10, 0xAE)
            .outputs(0x080)
            .words(&ticks(100))
            .reads(0x14, 0x00)
            .reads(0x10, 0xAE),
        begun("a device gone and back waits anew", TOLD)
            .words(&hold(0xFF, 10))
            .words(&hold(0xBF, 89))
            .reads(0x14, 0x00)
            .words(&[TICK])
            .reads(0x14, 0x15),
        begun("a removal that bounces", TOLD)
            .words(&hold(0xFF, 9))
            .words(&hold(0xBF, 70))
            .reads(0x14, 0x00)
            .words(&[TICK])
            .reads(0x14, 0x15),
        begun("a press within the wait sets nothing", TOLD_ALL)
            .words(&hold(0x9F, 5))
            .reads(0x14, 0x00)
            .words(&ticks(75))
            .reads(0x14, 0x15)
            .words(&hold(0xBF, 5))
            .reads(0x14, 0x15)
            .words(&hold(0x9F, 5))
            .reads(0x14, 0x3D),
        begun("a press a tick after the wait", TOLD_ALL).words(&ticks(76)).words(&hold(0x9F, 5)).reads(0x14, 0x3D),
        begun("a press a tick before its end", TOLD_ALL)
            .words(&ticks(74))
            .words(&hold(0x9F, 5))
            .reads(0x14, 0x00)
            .words(&[TICK])
            .reads(0x14, 0x15),
        begun("a press in the last tick without DEVSTSCHG_EN", 0x08)
            .words(&ticks(75))
            .words(&hold(0x9F, 5))
            .reads(0x14, 0x0D)
            .outputs(0x001),
        begun("the wait's end without DEVSTSCHG_EN", 0x00)
            .words(&ticks(79))
            .reads(0x14, 0x00)
            .ticking(1, 0)
            .reads(0x14, 0x05)
            .ticking(100, 0)
            .reads(0x14, 0x05),
        begun("nSL shows in a wait", TOLD).words(&w(0x0C, 0x12)).words(&[pins(0xAF)]).reads(0x14, 0x80),
    ]
}

/// No write of BCER ends a wait or finds a device in it.
fn written() -> Vec<Story> {
    let mut all: Vec<Story> = (1..=4)
        .map(|state| {
            let control = state << 4 | TOLD;
            begun(format!("request {} within the wait", state), TOLD)
                .words(&w(0x10, control))
                .reads(0x10, control)
                .reads(0x14, 0x00)
                .words(&ticks(79))
                .reads(0x14, 0x00)
                .words(&[TICK])
                .reads(0x10, control)
                .reads(0x14, 0x15)
        })
        .collect();
    all.extend([
        begun("power within the wait", TOLD)
            .words(&w(0x10, 0x85))
            .reads(0x10, 0x84)
            .words(&ticks(80))
            .reads(0x10, 0x84)
            .words(&w(0x10, 0x85))
            .reads(0x10, 0x85),
        begun("DEVSTSCHG_EN cleared and set within the wait", TOLD)
            .words(&w(0x10, 0x00))
            .words(&ticks(40))
            .words(&w(0x10, TOLD))
            .reads(0x14, 0x00)
            .words(&ticks(39))
            .reads(0x14, 0x00)
            .words(&[TICK])
            .reads(0x14, 0x15),
        begun("DEVSTSCHG_EN set for the last tick", 0x00)
            .words(&ticks(79))
            .words(&w(0x10, TOLD))
            .reads(0x14, 0x00)
            .words(&[TICK])
            .reads(0x14, 0x15),
        begun("DEVSTSCHG_EN cleared for the last tick", TOLD)
            .words(&ticks(79))
            .words(&w(0x10, 0x00))
            .words(&[TICK])
            .reads(0x14, 0x05),
        begun("BSTR written within the wait", TOLD).words(&w(0x14, 0xFF)).words(&ticks(80)).reads(0x14, 0x15),
        begun("SFR written again within the wait", TOLD)
            .words(&w(0xFC, 0xE0))
            .words(&ticks(79))
            .reads(0x14, 0x00)
            .words(&[TICK])
            .reads(0x14, 0x15),
    ]);
    all
}

/// One contact of two comes or goes within the wait.
fn contacts() -> Vec<Story> {
    let both = |name: &str| waiting(name, SHORTEST, TOLD).words(&hold(0x3F, 10)).reads(0x14, 0x00);
    vec![
        begun("1394 beside USB within the wait", TOLD)
            .words(&hold(0x3F, 79))
            .reads(0x14, 0x00)
            .words(&[TICK])
            .reads(0x14, 0x17),
        begun("1394 beside USB in its last tick", TOLD).words(&ticks(70)).words(&hold(0x3F, 10)).reads(0x14, 0x17),
        both("one of two drops within the wait")
            .words(&hold(0x7F, 79))
            .reads(0x14, 0x00)
            .words(&[TICK])
            .reads(0x14, 0x16),
        both("one of two drops in its last tick").words(&ticks(70)).words(&hold(0xBF, 10)).reads(0x14, 0x15),
        both("both drop, one by one")
            .words(&hold(0xBF, 10))
            .words(&hold(0xFF, 10))
            .words(&ticks(100))
            .reads(0x14, 0x00),
    ]
}

/// RESET and the closing of the bay end a wait, and each bay waits for itself.
fn bays() -> Vec<Story> {
    let in_bay_1 = |name: &str| {
        second(name)
            .words(&[N])
            .words(&w(0xFC, SHORTEST))
            .words(&w(0x18, TOLD))
            .words(&hold(0xFB, 10))
            .reads(0x20, 0x00)
            .outputs(0x004)
    };
    vec![
        begun("RESET within the wait", TOLD).words(&[R]).reads(0x14, 0x05).words(&w(0x10, TOLD)).reads(0x14, 0x15),
        begun("RESET within the wait, with nothing in the bay", TOLD).words(&[N]).words(&ticks(100)).reads(0x14, 0x00),
        begun("bay 1 closed within bay 0's wait", TOLD)
            .words(&w(0x0C, 0x01))
            .words(&ticks(79))
            .reads(0x14, 0x00)
            .words(&[TICK])
            .reads(0x14, 0x15),
        in_bay_1("bay 1's wait").words(&ticks(79)).reads(0x20, 0x00).words(&[TICK]).reads(0x20, 0x15),
        in_bay_1("bay 1 closed within its wait")
            .words(&w(0x0C, 0x01))
            .outputs(0)
            .ticking(100, 0)
            .reads(0x20, 0x00)
            .words(&[reset(0, 0xFB)])
            .reads(0x20, 0x05)
            .ticking(100, 0)
            .reads(0x20, 0x05),
        in_bay_1("count 0 within bay 1's wait").words(&w(0x0C, 0x00)).words(&ticks(80)).reads(0x20, 0x15),
        in_bay_1("bay 0's device later than bay 1's")
            .words(&w(0x10, TOLD))
            .words(&hold(0xBB, 79))
            .reads(0x14, 0x00)
            .reads(0x20, 0x00)
            .words(&[TICK])
            .reads(0x14, 0x00)
            .reads(0x20, 0x15)
            .words(&ticks(9))
            .reads(0x14, 0x00)
            .words(&[TICK])
            .reads(0x14, 0x15),
        // A TICK counts wherever it falls.
        begun("a wait within a transfer", TOLD)
            .words(&[START, byte(OWN), byte(0x08)])
            .words(&ticks(79))
            .reads(0x14, 0x00)
            .words(&[TICK])
            .reads(0x14, 0x15)
            .words(&[byte(0x11), STOP])
            .reads(0x08, 0x11),
    ]
}

/// What is seen is as in the first kind: presence bits, removals and presses.
fn seen() -> Vec<Story> {
    let both = |name: &str| second(name).words(&[reset(0, 0x3F)]).words(&w(0x14, 0x04)).words(&w(0x10, 0x20));
    vec![
        both("one of two drops").words(&hold(0xBF, 10)).reads(0x14, 0x25).reads(0x10, 0x20),
        both("both drop").words(&hold(0xFF, 10)).reads(0x14, 0x04).reads(0x10, 0x00),
        second("removal cuts power, drops the request and keeps the lock")
            .words(&[R])
            .words(&w(0x10, 0xA1))
            .words(&hold(0xFF, 10))
            .reads(0x14, 0x04)
            .reads(0x10, 0x80)
            .outputs(0x080),
        second("REMREQ_EN over a press")
            .words(&[R])
            .words(&w(0x10, 0x20))
            .words(&hold(0x9F, 5))
            .reads(0x14, 0x2D)
            .words(&w(0x10, 0x08))
            .reads(0x14, 0x3D),
        second("a press in Empty")
            .words(&[R])
            .words(&w(0x10, 0x08))
            .words(&hold(0x9F, 5))
            .reads(0x14, 0x0D)
            .outputs(0x001),
        second("a press in Inserted").words(&[R]).words(&w(0x10, 0x1C)).words(&hold(0x9F, 5)).reads(0x14, 0x3D),
        second("a second press, not cleared")
            .words(&[R])
            .words(&w(0x10, 0x2C))
            .words(&hold(0x9F, 5))
            .words(&w(0x10, 0x2C))
            .reads(0x14, 0x2D)
            .words(&hold(0xBF, 5))
            .words(&hold(0x9F, 5))
            .reads(0x14, 0x2D),
    ]
}

pub fn stories() -> Vec<Story> {
    let listed = [beginnings(), unseen(), written(), contacts(), bays(), seen()].into_iter().flatten();
    lengths().chain(listed).collect()
}
