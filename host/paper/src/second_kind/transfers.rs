//! "Bus transfers": what goes on, what it does at once, and what ends a transfer.

use super::{second, AFTER_N};
use crate::words::{byte, pins, read, take, START, STOP, TICK, TIMEOUT};
use crate::{hold, read_all, record, w, w_all, Story, N, OWN, R};

/// A write after its register byte, the data byte that may follow, and a read after its own read byte.
const NUMBERED: [u16; 3] = [START, byte(OWN), byte(0x10)];
const WRITTEN: u16 = byte(0x02);
const READING: [u16; 5] = [START, byte(OWN), byte(0x00), START, byte(OWN + 1)];

/// The replies of the last words, with no output on.
fn replies(story: Story, replies: &[u32]) -> Story {
    let byte = |reply| if reply == 4 { 0xFF } else { 0 };
    story.records(replies.iter().map(|&reply| record(0, reply, byte(reply), 0)).collect())
}

fn writes() -> Vec<Story> {
    let none = [&NUMBERED[..], &[STOP]].concat();
    vec![
        replies(second("a write of no bytes").words(&[N]).words(&none), &[0, 1, 1, 0])
            .reads_only(&AFTER_N)
            .words(&read(OWN, 0x00))
            .gives(0x60, 0),
        second("each data byte at once")
            .words(&[N])
            .words(&[START, byte(OWN), byte(0x08)])
            .reads(0x08, 0)
            .words(&[byte(0x11)])
            .acked(0)
            .reads_from(0x08, &[0x11, 0])
            .words(&[byte(0x22)])
            .acked(0)
            .reads_from(0x08, &[0x11, 0x22, 0])
            .words(&[STOP])
            .reads_from(0x08, &[0x11, 0x22, 0]),
        second("PINS and TICK between data bytes")
            .words(&[N])
            .words(&[START, pins(0xEF), byte(OWN), TICK, byte(0x08), pins(0xFE), byte(0x11), TICK])
            .words(&[pins(0xFF), byte(0x22)])
            .acked(0)
            .reads_from(0x08, &[0x11, 0x22, 0]),
        second("a write from FCh over FFh to 08h")
            .words(&[N])
            .words(&w_all(0xFC, &[0x40, 1, 2, 3, 4, 5, 6, 7, 8, 9, 10, 11, 0x34]))
            .reads_only(&[&AFTER_N[..], &[(0xFC, 0x40), (0x08, 0x34)]].concat()),
        second("every data byte is ACKed")
            .words(&[N])
            .words(&w_all(0x22, &[0xFF; 0x80]))
            .records([vec![record(0, 1, 0, 0); 0x80], vec![record(0, 0, 0, 0)]].concat())
            .reads_only(&AFTER_N),
        // Bay 1 is closed by the first byte, so that the last one finds it so.
        second("a bay closed by an earlier byte")
            .words(&[N])
            .words(&w_all(0x0C, &[0x01, 0, 0, 0, 0x02, 0, 0, 0, 0, 0, 0, 0, 0x02]))
            .reads(0x0C, 0x01)
            .reads(0x10, 0x02)
            .reads(0x18, 0x00),
    ]
}

fn reads() -> Vec<Story> {
    let value = |address| AFTER_N.iter().find(|register| register.0 == address).map_or(0, |register| register.1);
    let from_fe = |count: usize| (0..count).map(move |place| record(0, 3, value(0xFE_u8.wrapping_add(place as u8)), 0));
    let seen = [R, START, byte(OWN), byte(0x14), START, byte(OWN + 1)];
    vec![
        second("a read of one byte").words(&[N]).words(&read_all(0x01, 1)).gives(0x12, 0),
        second("a read of 300 bytes").words(&[N]).words(&read_all(0xFE, 300)).records(from_fe(300).collect()),
        // DEVSTSCHG is read and stays.
        second("a reading changes nothing")
            .words(&[R])
            .words(&read_all(0x14, 1))
            .gives(0x05, 0)
            .words(&read_all(0x10, 8))
            .reads_only(&[&AFTER_N[..], &[(0x14, 0x05)]].concat()),
        second("the first byte is read at the own read byte")
            .words(&seen[..5])
            .words(&hold(0xFF, 10))
            .words(&[byte(OWN + 1), pins(0xBF)])
            .words(&hold(0xBF, 10))
            .reads(0x14, 0x05)
            .words(&[take(false)])
            .gives(0x04, 0),
        second("PINS and TICK between bytes leave the number")
            .words(&[N])
            .words(&READING)
            .words(&[TICK, take(true), pins(0xEE), TICK, take(true), pins(0xFF)])
            .words(&[take(false)])
            .gives(0x00, 0),
        second("a byte read ahead and never taken")
            .words(&seen)
            .words(&[STOP])
            .reads(0x14, 0x05)
            .words(&read_all(0x13, 1))
            .gives(0x00, 0)
            .reads(0x14, 0x05),
    ]
}

/// A transfer open so far, the event that ends it, and that event's reply; no output is on.
fn endings() -> Vec<Story> {
    let opened = &NUMBERED[..1];
    let addressed = &NUMBERED[..2];
    let written = [&NUMBERED[..], &[WRITTEN]].concat();
    let again = &READING[..4];
    let taken = [&READING[..], &[take(true)]].concat();
    let by_start = [("an own write byte", addressed), ("a data byte", &written), ("the second START", again)];
    let starts = by_start.into_iter().chain([("a START", opened), ("an own read byte", &READING), ("a TAKE", &taken)]);
    let takes = [("a START", opened), ("an own write byte", addressed), ("a register byte", &NUMBERED)];
    let takes = takes.into_iter().chain([("a data byte", &written[..]), ("the second START", again)]);
    let stops = [("a START", opened), ("an own write byte", addressed), ("the second START", again)];
    let stops = stops.into_iter().chain([("an own read byte", &READING[..]), ("a TAKE", &taken)]);
    let bytes = [
        ("a START", opened, OWN + 1),
        ("a START", opened, OWN + 2),
        ("a START", opened, 0x00),
        ("a START", opened, 0x19),
        ("the second START", again, OWN),
        ("the second START", again, OWN + 3),
        ("the second START", again, 0x00),
        ("an own read byte", &READING, 0x00),
        ("an own read byte", &READING, OWN),
        ("a TAKE", &taken, OWN + 1),
    ];
    let named = |event: &str, after: &str| format!("{} after {}", event, after);
    let mut all: Vec<Story> = starts.map(|(after, open)| ended(named("START", after), open, START, 0)).collect();
    all.extend(takes.map(|(after, open)| ended(named("TAKE", after), open, take(true), 4)));
    all.extend(stops.map(|(after, open)| ended(named("STOP", after), open, STOP, 0)));
    all.extend(bytes.map(|(after, open, value)| ended(named(&format!("{:02X}h", value), after), open, byte(value), 2)));
    all.extend(
        [opened, addressed, &NUMBERED, &written, again, &READING, &taken]
            .map(|open| ended(format!("TIMEOUT after {} events", open.len()), open, TIMEOUT, 0)),
    );
    all
}

/// The event ends the transfer, is spent and opens nothing: neither an address byte nor a data byte nor a TAKE goes on.
/// What was written before stands, and the next START opens a transfer.
fn ended(name: String, open: &[u16], event: u16, reply: u32) -> Story {
    let kept = if open.contains(&WRITTEN) { 0x02 } else { 0x00 };
    let tails = [(byte(OWN), 2), (byte(OWN + 1), 2), (byte(0x80), 2), (take(true), 4), (take(false), 4)];
    let ended = tails.into_iter().fold(second(name), |story, (tail, no)| {
        replies(story.words(&[N]).words(open).words(&[event, tail]), &[reply, no]).reads(0x10, kept)
    });
    ended.words(&READING).words(&[take(false)]).gives(0x60, 0)
}

/// .. and so does a RESET.
fn resets() -> Vec<Story> {
    let reset_into = |name: &str, open: &[u16]| {
        second(format!("RESET {}", name)).words(&[N]).words(open).words(&[N]).reads_only(&AFTER_N)
    };
    let written = [&NUMBERED[..], &[WRITTEN]].concat();
    vec![
        replies(reset_into("after a START", &NUMBERED[..1]).words(&[byte(OWN)]), &[2]),
        replies(reset_into("after a register byte", &NUMBERED).words(&[byte(0x02)]), &[2]),
        replies(reset_into("after a data byte", &written).words(&[byte(0x02)]), &[2]),
        replies(reset_into("inside a read", &READING).words(&[take(true)]), &[4]),
    ]
}

/// What stands when a transfer has ended, and what comes next.
fn afterwards() -> Vec<Story> {
    let written = [&[R][..], &NUMBERED, &[byte(0x81)]].concat();
    let stands = |name: &str, events: &[u16]| {
        second(format!("a data byte stands: {}", name))
            .words(&written)
            .words(events)
            .words(&[byte(0x00)])
            .not_acked(0x180)
            .reads(0x10, 0x81)
    };
    vec![
        stands("TAKE", &[take(false)]),
        stands("START", &[START]),
        stands("TIMEOUT", &[TIMEOUT]),
        stands("STOP", &[STOP]),
        second("a START after a closed read").words(&[N]).words(&read_all(0x00, 2)).words(&[START, byte(OWN)]).acked(0),
        second("a STOP and a START after a closed read")
            .words(&[N])
            .words(&read_all(0x00, 2))
            .words(&[STOP, START, byte(OWN)])
            .acked(0),
        second("a second TAKE without ACK").words(&[N]).words(&read_all(0x00, 2)).words(&[take(true)]).gives_nothing(0),
        second("no transfer is open").words(&[N, byte(OWN)]).not_acked(0).words(&[take(true)]).gives_nothing(0),
        // The number lives in its transfer.
        second("the number is gone after a STOP")
            .words(&[N])
            .words(&w_all(0x01, &[]))
            .words(&[START, byte(OWN + 1)])
            .not_acked(0),
        second("a refused word leaves the transfer")
            .words(&[N])
            .words(&READING)
            .words(&[0x6002, 0x0001, take(false)])
            .records(vec![record(2, 0, 0, 0), record(2, 0, 0, 0), record(0, 3, 0x60, 0)]),
        second("a refused word comes with the outputs")
            .words(&[R])
            .words(&w(0x10, 0xA1))
            .words(&[0xFFFF])
            .records(vec![record(2, 0, 0, 0x1C0)]),
    ]
}

pub fn stories() -> Vec<Story> {
    [writes(), reads(), endings(), resets(), afterwards()].into_iter().flatten().collect()
}
