//! "Outputs": power, lock pins with their pulses, lamps with their phase, the interrupt.

use crate::words::{reset, reset_short};
use crate::Expected::{Outputs, Reads};
use crate::{example, hold, ticks, w, Example, R};

fn lock_straps() -> impl Iterator<Item = Example> {
    let straps = [(0x0, 0x00, 0x000), (0x1, 0x00, 0x088), (0x2, 0x80, 0x088), (0x3, 0x00, 0x088)];
    straps.into_iter().map(|(straps, control, outputs)| {
        let expected = vec![Reads(0x14, control), Reads(0x1C, control), Outputs(outputs)];
        example(format!("lock straps {:02b}", straps), &[&[reset(straps, 0xFF)]], expected)
    })
}

/// The pulse of bay 1 for each lock time: its last tick, its end, and what another write makes of it.
fn pulses(code: u8, length: usize) -> Vec<Example> {
    let unlock = [&w(0x1C, 0x80)[..], &w(0x1C, 0x00)].concat();
    let begun = [&[reset(0x1, 0xFF)][..], &w(0x40, code), &unlock].concat();
    let name = |what: &str| format!("lock time {}: {}", code, what);
    vec![
        example(name("at once"), &[&begun], vec![Outputs(0x080)]),
        example(name("its last tick"), &[&begun, &ticks(length - 1)], vec![Outputs(0x080)]),
        example(name("its end"), &[&begun, &ticks(length)], vec![Outputs(0x088)]),
        example(name("restarted"), &[&begun, &ticks(5), &unlock, &ticks(length - 1)], vec![Outputs(0x080)]),
        example(name("restarted, its end"), &[&begun, &ticks(5), &unlock, &ticks(length)], vec![Outputs(0x088)]),
        example(name("0 over 0"), &[&begun, &ticks(5), &w(0x1C, 0x00), &ticks(length - 5)], vec![Outputs(0x088)]),
        example(name("locked"), &[&begun, &ticks(5), &w(0x1C, 0x80), &ticks(length - 6)], vec![Outputs(0x080)]),
    ]
}

/// The pulse of bay 0 with no write of LETR: 50 ticks, and 12 where bit 12 of the RESET says so (document 02, request 4).
fn pulses_unwritten(name: &str, reset: u16, length: usize) -> Vec<Example> {
    let begun = [&[reset][..], &w(0x14, 0x80), &w(0x14, 0x00)].concat();
    vec![
        example(format!("{}: at once", name), &[&begun], vec![Outputs(0x008)]),
        example(format!("{}: its last tick", name), &[&begun, &ticks(length - 1)], vec![Outputs(0x008)]),
        example(format!("{}: its end", name), &[&begun, &ticks(length)], vec![Outputs(0x088)]),
    ]
}

/// Both lamps at each edge of the phase.
fn lamps() -> impl Iterator<Item = Example> {
    let edges = [(0, true), (99, true), (100, false), (199, false), (200, true), (299, true), (300, false)];
    edges.into_iter().map(|(count, lit)| {
        let asked = [&[reset(0, 0xBB)][..], &w(0x14, 0x10), &w(0x1C, 0x30)].concat();
        let expected = vec![Outputs(if lit { 0x042 } else { 0 })];
        example(format!("Inserted and Removal Requested after {} ticks", count), &[&asked, &ticks(count)], expected)
    })
}

fn power_and_interrupt() -> Vec<Example> {
    let both = reset(0, 0xBB);
    let pressed = [&[both][..], &hold(0x99, 5), &w(0x10, 0x04), &w(0x18, 0x04)].concat();
    vec![
        example("Enabled is steady", &[&[R], &w(0x14, 0x20), &ticks(150)], vec![Outputs(0x040)]),
        example("Removal Allowed is dark", &[&[R], &w(0x14, 0x40)], vec![Outputs(0)]),
        example("power and lock of bay 0", &[&[both], &w(0x14, 0x81)], vec![Outputs(0x180)]),
        example("power and lock of bay 1", &[&[both], &w(0x1C, 0x81)], vec![Outputs(0x018)]),
        example("DEVSTSCHG without its enable", &[&[both]], vec![Outputs(0)]),
        example("DEVSTSCHG with its enable", &[&[both], &w(0x1C, 0x44)], vec![Outputs(0x001)]),
        example("DEVSTSCHG with the other enable", &[&[both], &w(0x1C, 0x4A)], vec![Outputs(0)]),
        example("REMREQ_STS without its enable", &[&pressed, &w(0x1C, 0x46)], vec![Outputs(0)]),
        example("REMREQ_STS with its enable", &[&pressed, &w(0x1C, 0x48)], vec![Outputs(0x001)]),
    ]
}

pub fn examples() -> Vec<Example> {
    let mut all: Vec<Example> = lock_straps().collect();
    for (code, length) in [(0, 12), (1, 50), (2, 100), (3, 200)] {
        all.extend(pulses(code, length));
    }
    all.extend(pulses_unwritten("LETR unwritten", reset(0x1, 0xFF), 50));
    all.extend(pulses_unwritten("LETR unwritten, short pulse", reset_short(0x1, 0xFF), 12));
    let fixed_mode = [&[reset(0x0, 0xFF)][..], &w(0x14, 0x80), &w(0x14, 0x00)].concat();
    all.push(example("no pulse in LOCK_MODE 0", &[&fixed_mode, &w(0x14, 0x80)], vec![Outputs(0x080)]));
    all.extend(lamps());
    all.extend(power_and_interrupt());
    all
}
