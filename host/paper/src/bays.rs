//! "Bay moves": debounce, presence, and the moves of a BCER write. The button's are beside these.

use crate::words::{pins, reset, TICK};
use crate::Expected::{Outputs, Reads};
use crate::{example, hold, w, Example, N, R};

fn presence() -> Vec<Example> {
    let both = [&[reset(0, 0x3F)][..], &w(0x10, 0x04), &w(0x14, 0x20)].concat();
    let leaves = hold(0xFF, 10);
    vec![
        example("1394 of two drops", &[&both, &hold(0xBF, 10)], vec![Reads(0x10, 0x25)]),
        example("USB of two drops", &[&both, &hold(0x7F, 10)], vec![Reads(0x10, 0x26)]),
        example("both drop", &[&both, &leaves], vec![Reads(0x10, 0x04), Reads(0x14, 0x00)]),
        example("the second drops later", &[&both, &hold(0x7F, 5), &hold(0xFF, 5)], vec![Reads(0x10, 0x26)]),
        example(
            "a device comes without DEVSTSCHG_EN",
            &[&[N], &hold(0xFB, 10)],
            vec![Reads(0x18, 0x05), Reads(0x10, 0), Outputs(0)],
        ),
        example(
            "removal cuts power, drops the request and keeps the lock",
            &[&[R], &w(0x14, 0xA1), &leaves],
            vec![Reads(0x10, 0x04), Reads(0x14, 0x80), Outputs(0x080)],
        ),
        example("a quiet removal", &[&[R], &w(0x10, 0x04), &w(0x14, 0x40), &leaves], vec![Reads(0x10, 0x00)]),
        example("REMEVTWAK_EN", &[&[R], &w(0x10, 0x04), &w(0x14, 0x42), &leaves], vec![Reads(0x10, 0x04)]),
        example("removal from Enabled", &[&[R], &w(0x10, 0x04), &w(0x14, 0x20), &leaves], vec![Reads(0x10, 0x04)]),
        example(
            "one of two drops in Removal Allowed",
            &[&both, &w(0x14, 0x40), &hold(0x7F, 10)],
            vec![Reads(0x10, 0x46)],
        ),
    ]
}

fn debounce() -> Vec<Example> {
    let nine = [&[N][..], &hold(0xBF, 9)].concat();
    vec![
        example("nine ticks", &[&nine], vec![Reads(0x10, 0x00)]),
        example("ten ticks", &[&nine, &[TICK]], vec![Reads(0x10, 0x05)]),
        example("nine ticks of 1394", &[&[N], &hold(0x7F, 9)], vec![Reads(0x10, 0x00)]),
        example("ten ticks of 1394", &[&[N], &hold(0x7F, 10)], vec![Reads(0x10, 0x06)]),
        example("nine ticks of a removal", &[&[R], &hold(0xFF, 9)], vec![Reads(0x10, 0x05)]),
        example("the same level again keeps the count", &[&nine, &[pins(0xBF), TICK]], vec![Reads(0x10, 0x05)]),
        example("another input keeps its own count", &[&nine, &[pins(0x3F), TICK]], vec![Reads(0x10, 0x05)]),
        example("back and forth", &[&nine, &[pins(0xFF), pins(0xBF), TICK]], vec![Reads(0x10, 0x00)]),
        example("RESET clears the count", &[&nine, &[N, pins(0xBF), TICK]], vec![Reads(0x10, 0x00)]),
    ]
}

fn written_moves() -> Vec<Example> {
    vec![
        example("DEVSTSCHG_EN in Empty", &[&[R], &w(0x14, 0x04)], vec![Reads(0x10, 0x15)]),
        example("DEVSTSCHG_EN in Empty without a device", &[&[N], &w(0x14, 0x04)], vec![Reads(0x10, 0x00)]),
        example("DEVSTSCHG_EN in Enabled", &[&[R], &w(0x14, 0x20), &w(0x14, 0x04)], vec![Reads(0x10, 0x25)]),
        example("a request before DEVSTSCHG_EN", &[&[R], &w(0x14, 0x44)], vec![Reads(0x10, 0x45)]),
    ]
}

pub fn examples() -> Vec<Example> {
    [presence(), debounce(), written_moves()].into_iter().flatten().collect()
}
