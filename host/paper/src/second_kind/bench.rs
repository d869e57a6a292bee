//! "Bench examples": Q1 to Q25 and the trace.

use super::{second, AFTER_N};
use crate::words::{byte, pins, reset, take, START, TIMEOUT};
use crate::{hold, read_all, record, ticks, w, w_all, Story, N, OWN, R};

/// RESET with a USB device in bay 1, and with the security lock of bay 0.
const DEVICE_IN_BAY_1: u16 = 0xC0FB;
const LOCKED_BAY_0: u16 = 0xC0EF;

const TRACE: [u16; 18] = [
    0xC0FF, 0x0000, 0x4090, 0x400B, 0x4077, 0x4012, 0x4055, 0x2000, 0x0000, 0x4090, 0x400A, 0x0000, 0x4091, 0x6001,
    0x6001, 0x6001, 0x6000, 0x6000,
];
const REPLIES: [u32; 18] = [0, 0, 1, 1, 1, 1, 1, 0, 0, 1, 1, 0, 1, 3, 3, 3, 3, 4];
/// What the TAKEs give, which are the last words.
const GIVEN: [u8; 5] = [0x00, 0x77, 0x12, 0x00, 0xFF];
const RECORD_OF_SECOND_TAKE: [u8; 4] = [0x06, 0xEE, 0x00, 0x00];

fn after_reset() -> Vec<Story> {
    vec![
        second("Q1").reads_only(&[]).outputs(0).words(&[N]).reads_only(&AFTER_N).outputs(0),
        second("Q2, Q3")
            .words(&[R])
            .reads(0x14, 0x05)
            .reads(0x10, 0x00)
            .words(&w(0x10, 0x04))
            .reads(0x14, 0x15)
            .outputs(0x041),
        second("Q3, instead").words(&[R]).words(&w(0x10, 0x24)).reads(0x14, 0x25),
        second("Q4")
            .words(&[R])
            .words(&w(0x10, 0x01))
            .reads(0x10, 0x00)
            .words(&w(0x10, 0x81))
            .reads(0x10, 0x81)
            .outputs(0x180)
            .words(&[N])
            .words(&w(0x10, 0x81))
            .reads(0x10, 0x80),
    ]
}

fn registers() -> Vec<Story> {
    vec![
        second("Q5")
            .words(&[N])
            .words(&w_all(0x08, &[0x34, 0x12, 0x78]))
            .words(&w_all(0x08, &[0xFF, 0xFF, 0xFF, 0x56]))
            .reads_from(0x08, &[0x34, 0x12, 0x78, 0x56])
            .words(&[N])
            .reads_from(0x08, &[0x34, 0x12, 0x78, 0x56])
            .words(&w(0x08, 0x99))
            .reads_from(0x08, &[0x99, 0x12, 0x78, 0x56]),
        second("Q6")
            .words(&[N])
            .words(&w(0x0C, 0x1F))
            .words(&w(0x0C, 0x01))
            .reads(0x0C, 0x12)
            .words(&[N])
            .words(&w(0x0C, 0x13))
            .reads(0x0C, 0x12)
            .words(&[N])
            .words(&w(0x0C, 0x00))
            .words(&w(0x0C, 0x12))
            .reads(0x0C, 0x00)
            .words(&[N])
            .words(&w(0x0D, 0x11))
            .words(&w(0x0C, 0xE1))
            .reads_from(0x0C, &[0x01, 0x00]),
        second("Q7")
            .words(&[LOCKED_BAY_0])
            .reads(0x14, 0x00)
            .words(&w(0x0C, 0x12))
            .reads(0x14, 0x80)
            .words(&[pins(0xFF)])
            .reads(0x14, 0x00),
        second("Q8")
            .words(&[N])
            .words(&w(0x15, 0x0A))
            .reads(0x15, 0x02)
            .words(&[N])
            .reads(0x15, 0x02)
            .words(&w(0x15, 0x01))
            .words(&w_all(0x20, &[0xFF, 0x01]))
            .reads(0x15, 0x02)
            .reads(0x21, 0x01),
        second("Q9")
            .words(&[DEVICE_IN_BAY_1])
            .words(&w(0x21, 0x02))
            .words(&w(0x0C, 0x01))
            .words(&w(0x18, 0xAD))
            .reads(0x18, 0x00)
            .reads_from(0x20, &[0x00, 0x00])
            .words(&[DEVICE_IN_BAY_1])
            .reads(0x18, 0x00)
            .reads_from(0x20, &[0x05, 0x02]),
    ]
}

fn transfers() -> Vec<Story> {
    let begun = [R, START, byte(OWN), byte(0x10), byte(0x81)];
    let opened = |register| [R, START, byte(OWN), byte(register), START, byte(OWN + 1)];
    vec![
        second("Q10")
            .words(&[N])
            .words(&read_all(0xFF, 3))
            .records([0x00, 0x60, 0x12].map(|value| record(0, 3, value, 0)).to_vec())
            .words(&[START, byte(OWN + 1)])
            .not_acked(0)
            .words(&[N])
            .words(&w_all(0xFC, &[0x40, 1, 2, 3, 4]))
            .reads_from(0xFC, &[0x40, 0, 0, 0, 0x60]),
        second("Q11")
            .words(&begun)
            .acked(0x180)
            .reads(0x10, 0x81)
            .words(&[START, byte(OWN)])
            .not_acked(0x180)
            .reads(0x10, 0x81),
        second("Q11, TIMEOUT for START").words(&begun).words(&[TIMEOUT, byte(OWN)]).not_acked(0x180).reads(0x10, 0x81),
        second("Q12")
            .words(&opened(0x14))
            .words(&hold(0xFF, 10))
            .reads(0x14, 0x04)
            .words(&[take(true)])
            .gives(0x05, 0)
            .words(&[take(false)])
            .gives(0x00, 0)
            .words(&[take(false)])
            .gives_nothing(0)
            .words(&opened(0x13))
            .words(&[take(true)])
            .gives(0x00, 0)
            .words(&hold(0xFF, 10))
            .words(&[take(false)])
            .gives(0x05, 0),
    ]
}

fn lamps_and_locks() -> Vec<Story> {
    let unlocked = |features| {
        second(format!("Q14, FC={:02X}", features))
            .words(&[N])
            .words(&w(0xFC, features))
            .words(&w(0x10, 0x80))
            .outputs(0)
            .words(&w(0x10, 0x00))
            .outputs(0x080)
    };
    vec![
        second("Q13")
            .words(&[R])
            .words(&w(0x10, 0x04))
            .outputs(0x041)
            .ticking(49, 0x041)
            .ticking(50, 0x001)
            .ticking(50, 0x041)
            .ticking(50, 0x001)
            .ticking(50, 0x041)
            .ticking(50, 0x001)
            .ticking(1, 0x041),
        second("Q14").words(&[N]).words(&w(0x10, 0x80)).outputs(0x080).words(&w(0x10, 0x00)).outputs(0),
        unlocked(0x02).ticking(4, 0x080).ticking(1, 0),
        unlocked(0x1F).ticking(1199, 0x080).ticking(1, 0),
        second("Q15")
            .words(&[R])
            .words(&w(0x10, 0xA1))
            .outputs(0x1C0)
            .words(&w(0xFC, 0x02))
            .reads(0x10, 0x20)
            .outputs(0x040)
            .words(&w(0x10, 0x81))
            .words(&w(0xFC, 0x00))
            .reads(0x10, 0xA1)
            .reads(0xFC, 0x02),
    ]
}

fn waits() -> Vec<Story> {
    vec![
        second("Q16")
            .words(&[N])
            .words(&w(0xFC, 0x20))
            .words(&w(0x10, 0x04))
            .words(&hold(0xBF, 10))
            .reads(0x14, 0x00)
            .outputs(0x040)
            .words(&w(0x10, 0xA5))
            .words(&w(0x10, 0x04))
            .reads(0x10, 0x24)
            .reads(0x14, 0x00)
            .words(&ticks(79))
            .reads(0x14, 0x00)
            .words(&ticks(1))
            .reads(0x14, 0x15)
            .outputs(0x001),
        second("Q16, without any w 10 and with PINS 9F")
            .words(&[N])
            .words(&w(0xFC, 0x20))
            .words(&[pins(0x9F)])
            .ticking(10, 0)
            .reads(0x14, 0x00)
            .ticking(79, 0)
            .reads(0x14, 0x00)
            .ticking(1, 0)
            .reads(0x14, 0x05),
        second("Q17")
            .words(&[N])
            .words(&w(0xFC, 0x40))
            .words(&w(0x10, 0x04))
            .words(&hold(0xBF, 10))
            .words(&hold(0xFF, 9))
            .outputs(0x040)
            .ticking(1, 0)
            .reads(0x14, 0x00)
            .ticking(150, 0)
            .reads(0x14, 0x00),
    ]
}

fn bays() -> Vec<Story> {
    let left = |control| {
        second(format!("Q19, w 10={:02X}", control))
            .words(&[R])
            .words(&w(0x14, 0x04))
            .words(&w(0x10, control))
            .words(&hold(0xFF, 10))
    };
    vec![
        second("Q18")
            .words(&[R])
            .words(&w(0x10, 0x2C))
            .words(&hold(0x9F, 4))
            .reads(0x14, 0x25)
            .words(&ticks(1))
            .reads(0x14, 0x3D)
            .outputs(0x021)
            .words(&[N])
            .words(&w(0x10, 0x08))
            .words(&hold(0xDF, 10))
            .reads(0x14, 0x00)
            .words(&[R])
            .words(&w(0x10, 0x48))
            .words(&hold(0x9F, 10))
            .reads(0x14, 0x4D),
        left(0x40).reads(0x14, 0x00).reads(0x10, 0x00),
        left(0x42).reads(0x14, 0x04).reads(0x10, 0x02),
        second("Q20, straps")
            .words(&[reset(0xF, 0xFF), START, byte(0x96)])
            .acked(0)
            .reads(0x10, 0x00)
            .words(&[reset(0xF, 0xFF), START, byte(0x90)])
            .not_acked(0),
        second("Q20, kinds")
            .names_none(0)
            .names_none(3)
            .words(&[N])
            .names(1)
            .reads(0x00, 0x60)
            .words(&ticks(3))
            .reads(0x00, 0x60)
            .words(&[N])
            .reads(0x00, 0x55),
    ]
}

fn ends_of_a_wait() -> Vec<Story> {
    let waits = |name: &str, control| {
        second(format!("Q21, {}", name)).words(&[N]).words(&w(0xFC, 0x20)).words(&w(0x10, control))
    };
    vec![
        waits("a removal", 0x04).words(&hold(0xBF, 80)).words(&hold(0xFF, 10)).reads(0x14, 0x00).outputs(0),
        waits("a press", 0x0C).words(&hold(0xBF, 85)).words(&hold(0x9F, 5)).reads(0x14, 0x1D).outputs(0x001),
        waits("the contacts change over", 0x04)
            .words(&hold(0x7F, 30))
            .words(&hold(0xBF, 10))
            .reads(0x14, 0x00)
            .words(&ticks(50))
            .reads(0x14, 0x15),
        second("Q22")
            .words(&[N])
            .words(&w(0xFC, 0x20))
            .words(&hold(0xBF, 10))
            .outputs(0)
            .words(&w(0x10, 0x04))
            .outputs(0x040)
            .reads(0x14, 0x00)
            .words(&w(0x10, 0x00))
            .words(&ticks(80))
            .reads(0x14, 0x05)
            .words(&w(0x10, 0x04))
            .reads(0x14, 0x15),
    ]
}

fn the_last() -> Vec<Story> {
    vec![
        second("Q23")
            .words(&[N])
            .words(&w(0xFC, 0x04))
            .words(&w(0x10, 0x80))
            .words(&w(0x10, 0x00))
            .ticking(7, 0x080)
            .words(&w(0x10, 0x80))
            .outputs(0x080)
            .words(&w(0x10, 0x00))
            .outputs(0x080)
            .ticking(9, 0x080)
            .ticking(1, 0),
        second("Q24")
            .words(&[N])
            .words(&w(0x08, 0x34))
            .words(&w(0x15, 0x02))
            .names(1)
            .words(&[N])
            .names(2)
            .words(&[N])
            .reads(0x08, 0x34)
            .reads(0x15, 0x02)
            .words(&w(0x15, 0x01))
            .reads(0x15, 0x02)
            .words(&w(0x08, 0x01))
            .reads(0x08, 0x01)
            .words(&[N])
            .words(&w(0x0C, 0x01))
            .words(&w(0x21, 0x05))
            .words(&[N])
            .words(&w(0x21, 0x03))
            .reads(0x21, 0x03),
        second("Q25")
            .words(&[R])
            .words(&w(0x10, 0x04))
            .words(&[START, byte(OWN), byte(0x10)])
            .names(1)
            .words(&[byte(0x24)])
            .acked(0x041)
            .reads(0x14, 0x25)
            .words(&[R, byte(0x24)])
            .not_acked(0)
            .reads(0x00, 0x55),
    ]
}

fn trace() -> Story {
    let without_byte = TRACE.len() - GIVEN.len();
    let bytes = vec![0; without_byte].into_iter().chain(GIVEN);
    let lines: Vec<[u8; 4]> = REPLIES.into_iter().zip(bytes).map(|(reply, byte)| record(0, reply, byte, 0)).collect();
    // The second TAKE is the fourth word from the end.
    let from_second_take = [&[RECORD_OF_SECOND_TAKE], &lines[without_byte + 2..]].concat();
    second("the trace").words(&TRACE).records(lines).records(from_second_take)
}

pub fn stories() -> Vec<Story> {
    let mut all = after_reset();
    all.extend(registers());
    all.extend(transfers());
    all.extend(lamps_and_locks());
    all.extend(waits());
    all.extend(bays());
    all.extend(ends_of_a_wait());
    all.extend(the_last());
    all.push(trace());
    all
}
