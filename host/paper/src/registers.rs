//! "Registers": what each reads, what a write changes, and what RESET leaves.

use crate::words::{pins, reset, reset_short, write};
use crate::Expected::{Outputs, Reads};
use crate::{example, hold, w, Example, N, R};

/// R of a dock that was built on the short pulse.
const R_SHORT: u16 = reset_short(0x0, 0xBF);

/// RESET in the pulsing lock mode with a USB device in bay 1.
const DEVICE_IN_BAY_1: u16 = reset(0x1, 0xFB);

fn fixed() -> impl Iterator<Item = Example> {
    let readings = [(0x00, 0x55), (0x01, 0x10), (0x04, 0x01), (0x02, 0x00), (0x41, 0x00), (0x43, 0x00), (0xFF, 0x00)];
    readings.into_iter().map(|(address, value)| {
        let name = format!("{:02X}h is fixed", address);
        example(name, &[&[R], &w(address, 0xAA)], vec![Reads(address, value)])
    })
}

fn dbccr() -> Vec<Example> {
    vec![
        example("DBCCR, first 0", &[&[N], &w(0x0C, 0x00), &w(0x0C, 0x13)], vec![Reads(0x0C, 0x00)]),
        example("DBCCR after RESET", &[&[N], &w(0x0C, 0x00), &[N], &w(0x0C, 0x13)], vec![Reads(0x0C, 0x13)]),
        example("DBCCR, every bit", &[&[N], &w(0x0C, 0xFF)], vec![Reads(0x0C, 0x13)]),
        example("RESET clears DBCCR", &[&[N], &w(0x0C, 0x13), &[N]], vec![Reads(0x0C, 0x00)]),
    ]
}

/// Count 1 closes bay 1. Lock pin 0 is high at rest in the pulsing mode; bay 1 shows nothing.
fn closed_bay() -> Vec<Example> {
    let closed = [&[DEVICE_IN_BAY_1][..], &w(0x1C, 0xAD), &w(0x0C, 0x01)].concat();
    let empty = || vec![Reads(0x18, 0), Reads(0x1C, 0), Outputs(0x080)];
    let mut all = vec![
        example("count 1", &[&closed], empty()),
        example("count 1, then a write", &[&closed, &w(0x1C, 0xFF), &w(0x18, 0x0C)], empty()),
        example("count 1, then pins and ticks", &[&closed, &hold(0xF2, 10)], empty()),
        example("count 1, then RESET", &[&closed, &[DEVICE_IN_BAY_1]], vec![Reads(0x18, 0x05), Outputs(0x088)]),
        example("count 1 leaves bay 0", &[&[R], &w(0x0C, 0x11), &w(0x14, 0x20)], vec![Reads(0x10, 0x25)]),
    ];
    all.extend([0, 2, 3].into_iter().map(|count| {
        let expected = vec![Reads(0x18, 0x05), Outputs(0x088)];
        example(format!("count {} closes nothing", count), &[&[DEVICE_IN_BAY_1], &w(0x0C, count)], expected)
    }));
    all
}

fn bstr() -> Vec<Example> {
    let pressed = [&[reset(0, 0x3F)][..], &hold(0x1F, 5)].concat();
    vec![
        example("BSTR, both devices", &[&[reset(0, 0x3F)]], vec![Reads(0x10, 0x07), Reads(0x18, 0x00)]),
        example("BSTR, 1394", &[&[reset(0, 0xF7)]], vec![Reads(0x10, 0x00), Reads(0x18, 0x06)]),
        example("BSTR, nSL after RESET", &[&[reset(0, 0xFE)]], vec![Reads(0x10, 0x00), Reads(0x18, 0x80)]),
        example("BSTR, nSL at once", &[&[N, pins(0xEF)]], vec![Reads(0x10, 0x80), Reads(0x18, 0x00)]),
        example("BSTR, pressed", &[&pressed], vec![Reads(0x10, 0x0F)]),
        example("BSTR, 04h written", &[&pressed, &w(0x10, 0x04)], vec![Reads(0x10, 0x0B)]),
        example("BSTR, 08h written", &[&pressed, &w(0x10, 0x08)], vec![Reads(0x10, 0x07)]),
        example("BSTR, F3h written", &[&pressed, &w(0x10, 0xF3)], vec![Reads(0x10, 0x0F)]),
    ]
}

fn bcer() -> Vec<Example> {
    let mut all: Vec<Example> = [0x00, 0x50, 0x60, 0x70]
        .into_iter()
        .map(|value| {
            let expected = vec![Reads(0x10, 0x25), Reads(0x14, 0x20)];
            example(
                format!("request {:02X}h keeps the old one", value),
                &[&[R], &w(0x14, 0x20), &w(0x14, value)],
                expected,
            )
        })
        .collect();
    all.extend([0x02, 0x04, 0x08, 0x80].into_iter().map(|bit| {
        let expected = vec![Reads(0x14, 0x00), Reads(0x1C, bit)];
        example(format!("BCER {:02X}h reads back", bit), &[&[N], &w(0x1C, bit)], expected)
    }));
    all.extend([
        example(
            "a request without a device is stored",
            &[&[N], &w(0x14, 0x30)],
            vec![Reads(0x14, 0x30), Reads(0x10, 0)],
        ),
        example("power goes with its lock", &[&[R], &w(0x14, 0x81), &w(0x14, 0x01)], vec![Reads(0x14, 0x00)]),
        example("power goes if not written", &[&[R], &w(0x14, 0x81), &w(0x14, 0x80)], vec![Reads(0x14, 0x80)]),
    ]);
    all
}

fn letr() -> impl Iterator<Item = Example> {
    (0..4).map(|code| {
        example(format!("LETR {}", code), &[&[N], &w(0x40, 0xFC | code)], vec![Reads(0x40, code), Reads(0x14, 0)])
    })
}

/// LETR's start is the RESET's alone, with all straps and whatever LETR was before.
fn letr_starts() -> impl Iterator<Item = Example> {
    (0..16).flat_map(|straps| {
        let levels = 0x11 * straps;
        let own = 0x90 + 2 * (straps >> 2);
        let long = reset(straps, levels);
        let short = reset_short(straps, levels);
        let written = |first| [&[first][..], &write(own, 0x40, 0x02)].concat();
        let name = |what: &str| format!("straps {:X}h: LETR {}", straps, what);
        vec![
            example(name("starts at 1"), &[&written(short), &[long]], vec![Reads(0x40, 1)]),
            example(name("starts at 0"), &[&written(long), &[short]], vec![Reads(0x40, 0)]),
            example(name("is written"), &[&written(short)], vec![Reads(0x40, 2)]),
        ]
    })
}

/// All that RESET sets back, after a life in both bays. LETR starts at 1, and with bit 12 of the RESET at 0 (document 02,
/// request 4).
fn after_reset(name: &str, reset: u16, letr: u8) -> Example {
    let life = [&[R][..], &w(0x40, 0x02), &w(0x42, 0x55), &w(0x14, 0xAF), &w(0x1C, 0xCF), &hold(0x9D, 5)].concat();
    let zeros = [0x0C, 0x14, 0x18, 0x1C, 0x42].map(|address| Reads(address, 0));
    let mut expected = vec![Reads(0x10, 0x05), Reads(0x40, letr), Outputs(0)];
    expected.extend(zeros);
    example(name, &[&life, &[reset]], expected)
}

pub fn examples() -> Vec<Example> {
    let mut all: Vec<Example> = fixed().collect();
    all.extend(dbccr());
    all.extend(closed_bay());
    all.extend(bstr());
    all.extend(bcer());
    all.extend(letr());
    all.push(after_reset("RESET after a life", R, 1));
    all.push(after_reset("RESET after a life, short pulse", R_SHORT, 0));
    all.extend(letr_starts());
    all
}
