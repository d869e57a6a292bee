//! "Bench examples": P1 to P12, those after them that are about words, and the trace of twelve words.

use crate::words::{byte, pins, read, take, START, STOP};
use crate::Expected::{Outputs, Reads, Records};
use crate::{example, hold, record, ticks, w, Example, N, OWN, R};

/// RESET with nothing anywhere, in the pulsing lock mode, with the short pulse.
const N_PULSING: u16 = 0xD1FF;
/// R with straps 1100: the own address byte is 96h.
const R_STRAPS_1100: u16 = 0xCCBF;

const TRACE: [u16; 12] =
    [0xC0BF, 0x0000, 0x4090, 0x4014, 0x4004, 0x2000, 0x0000, 0x4090, 0x4010, 0x0000, 0x4091, 0x6000];

/// Reply, byte and outputs of the trace's lines.
const TRACED: [(u32, u8, u32); 12] = [
    (0, 0, 0),
    (0, 0, 0),
    (1, 0, 0),
    (1, 0, 0),
    (1, 0, 0),
    (0, 0, 0x041),
    (0, 0, 0x041),
    (1, 0, 0x041),
    (1, 0, 0x041),
    (0, 0, 0x041),
    (1, 0, 0x041),
    (3, 0x15, 0x041),
];

const LAST_OF_TRACE: [u8; 4] = [0x06, 0x2A, 0x41, 0x00];

fn numbered() -> Vec<Example> {
    let trial = [&[N][..], &w(0x14, 0x04), &[pins(0xBF)]].concat();
    let bounced = [&trial[..], &ticks(5), &[pins(0xFF)], &hold(0xBF, 9)].concat();
    let removal = |value| [&[R][..], &w(0x10, 0x04), &w(0x14, value), &hold(0xFF, 10)].concat();
    let unlock = [&[N_PULSING][..], &w(0x14, 0x80), &w(0x14, 0x00)].concat();
    vec![
        example("P1", &[&[R]], vec![Reads(0x10, 0x05)]),
        example("P2", &[&[R], &w(0x14, 0x04)], vec![Reads(0x10, 0x15)]),
        example("P3", &[&[R], &w(0x14, 0x24)], vec![Reads(0x10, 0x25)]),
        example("P4, unlocked", &[&[R], &w(0x14, 0x01)], vec![Reads(0x14, 0x00)]),
        example("P4, locked", &[&[R], &w(0x14, 0x01), &w(0x14, 0x81)], vec![Reads(0x14, 0x81)]),
        example("P5", &[&[N], &w(0x14, 0x81)], vec![Reads(0x14, 0x80)]),
        example("P6, nine ticks", &[&trial, &ticks(9)], vec![Reads(0x10, 0x00)]),
        example("P6, ten ticks", &[&trial, &ticks(10)], vec![Reads(0x10, 0x15)]),
        example("P7", &[&bounced], vec![Reads(0x10, 0x00)]),
        example("P8", &[&removal(0x40)], vec![Reads(0x10, 0x00), Reads(0x14, 0x00)]),
        example("P9", &[&removal(0x42)], vec![Reads(0x10, 0x04), Reads(0x14, 0x02)]),
        example("P10", &[&[N], &w(0x0C, 0x12), &w(0x0C, 0x01)], vec![Reads(0x0C, 0x12)]),
        example("P11", &[&[N], &w(0x0C, 0xE1)], vec![Reads(0x0C, 0x01)]),
        // Lock pin 1 rests high in this mode.
        example("P12, at once", &[&unlock], vec![Outputs(0x008)]),
        example("P12, eleven ticks", &[&unlock, &ticks(11)], vec![Outputs(0x008)]),
        example("P12, twelve ticks", &[&unlock, &ticks(12)], vec![Outputs(0x088)]),
    ]
}

/// But for a batch's answer bytes, which stand with the batch, and for a phase of 200, which no words lead to: the
/// damage test writes it into an image.
fn others() -> Vec<Example> {
    let two_data_bytes = [R, START, byte(OWN), byte(0x14), byte(0x04), byte(0x04), STOP];
    let acked = || vec![Records(vec![record(0, 1, 0, 0)])];
    let not_acked = || vec![Records(vec![record(0, 2, 0, 0)])];
    vec![
        example("two data bytes", &[&two_data_bytes], vec![Reads(0x10, 0x05), Reads(0x14, 0x00)]),
        example("41h", &[&[R], &w(0x41, 0xFF)], vec![Reads(0x41, 0x00)]),
        example("41h on the bus", &[&[N], &read(OWN, 0x41)], vec![Records(vec![record(0, 3, 0, 0)])]),
        example("straps 1100, 96h", &[&[R_STRAPS_1100, START, byte(0x96)]], acked()),
        example("straps 1100, 90h", &[&[R_STRAPS_1100, START, byte(0x90)]], not_acked()),
    ]
}

fn trace() -> Vec<Example> {
    let lines = TRACED.iter().map(|&(reply, byte, outputs)| record(0, reply, byte, outputs)).collect();
    vec![
        example("the trace, line by line", &[&TRACE], vec![Records(lines), Reads(0x10, 0x15)]),
        example("the trace's last record", &[&TRACE], vec![Records(vec![LAST_OF_TRACE])]),
        example("the trace, its TAKE with ACK", &[&TRACE[..11], &[take(true)]], vec![Records(vec![LAST_OF_TRACE])]),
    ]
}

pub fn examples() -> Vec<Example> {
    [numbered(), others(), trace()].into_iter().flatten().collect()
}
