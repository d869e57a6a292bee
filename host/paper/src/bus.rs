//! "Bus commands": what continues a command, what ends it, and which event decides.

use crate::words::{byte, pins, read, take, START, STOP, TICK, TIMEOUT};
use crate::Expected::{Reads, Records};
use crate::{example, hold, record, w, Example, Expected, N, OWN, R};

/// The last word's reply, where no output is on.
fn replies(reply: u32, byte: u8) -> Vec<Expected> {
    vec![Records(vec![record(0, reply, byte, 0)])]
}

fn ack() -> Vec<Expected> {
    replies(1, 0)
}

fn no_ack() -> Vec<Expected> {
    replies(2, 0)
}

fn drives(value: u8) -> Vec<Expected> {
    replies(3, value)
}

fn drives_nothing() -> Vec<Expected> {
    replies(4, 0xFF)
}

pub fn examples() -> Vec<Example> {
    let without_stop = &w(0x14, 0x04)[..4];
    let open_read = &read(OWN, 0x10);
    let device = hold(0xBF, 10);
    let read_id = &read(OWN, 0x00);
    vec![
        example("a write without its STOP", &[&[R], without_stop], vec![Reads(0x10, 0x05)]),
        example("a write, TIMEOUT, STOP", &[&[R], without_stop, &[TIMEOUT, STOP]], vec![Reads(0x10, 0x05)]),
        example("a write, START, STOP", &[&[R], without_stop, &[START, STOP]], vec![Reads(0x10, 0x05)]),
        example("a write, TAKE, STOP", &[&[R], without_stop, &[take(true), STOP]], vec![Reads(0x10, 0x05)]),
        example("a write, RESET, STOP", &[&[R], without_stop, &[R, STOP]], vec![Reads(0x10, 0x05)]),
        example(
            "PINS and TICK inside a write",
            &[&[N], &w(0x14, 0x04)[..2], &[pins(0xEF), TICK], &w(0x14, 0x04)[2..], &[pins(0xFF)]],
            vec![Reads(0x14, 0x04)],
        ),
        example("a read, decided before the pins", &[&[N], &open_read[..5], &device, &[take(true)]], drives(0x00)),
        example("a read, decided after the pins", &[&[N], &open_read[..4], &device, &open_read[4..]], drives(0x05)),
        example("a misplaced START is spent", &[&[R, START, START, byte(OWN)]], no_ack()),
        example(".. and opens nothing: the next one does", &[&[R, START, START, START, byte(OWN)]], ack()),
        example("the read byte first", &[&[R, START, byte(OWN + 1)]], no_ack()),
        example("no START", &[&[R, byte(OWN)]], no_ack()),
        example("TAKE after the address", &[&[R, START, byte(OWN), take(true)]], drives_nothing()),
        example("the write byte after the second START", &[&[R], &read_id[..4], &[byte(OWN)]], no_ack()),
        example("a read", &[&[R], read_id], drives(0x55)),
        example("a second TAKE", &[&[R], read_id, &[take(false)]], drives_nothing()),
        example("a STOP in the place of the TAKE", &[&[R], &read_id[..5], &[STOP, take(false)]], drives_nothing()),
        example("a second data byte", &[&[R], without_stop, &[byte(0x04)]], no_ack()),
        example(
            "the other docks' addresses",
            &[&[0xC4BF, START, byte(0x90)], &[START, byte(0x92)], &[0xC8BF, START, byte(0x94), byte(0x00)]],
            vec![Records([0, 0, 2, 0, 1, 0, 0, 1, 1].map(|reply| record(0, reply, 0, 0)).to_vec())],
        ),
    ]
}
