//! 42h, the wait for cartridges that seat slowly (document 02, request 6). With one above 0 a device that the host is
//! to hear of leaves its bay Empty while a count runs, and is Inserted at the count's end.

use crate::words::{pins, read, reset, reset_short, write, START, STOP, TICK, TIMEOUT};
use crate::Expected::{Outputs, Reads, Records};
use crate::{example, hold, record, ticks, w, Example, N, OWN, R};

/// The wait of most examples. A press fits into it, and a removal that begins in its first two ticks.
const WAIT: u8 = 12;
/// One that is still far from its end when a removal is accepted.
const LONG: u8 = 30;

/// BCER of a bay whose host hears of devices, and of the button too.
const TOLD: u8 = 0x04;
const TOLD_ALL: u8 = 0x0C;

/// A USB device comes into bay 0, under this wait: the last word is the TICK that accepts it. BSTR reads 05h.
fn arrives(wait: u8, control: u8) -> Vec<u16> {
    [&[N][..], &w(0x42, wait), &w(0x14, control), &hold(0xBF, 10)].concat()
}

/// DEVSTSCHG_EN rises over the device in bay 0, under this wait. BSTR reads 05h.
fn rises(wait: u8, control: u8) -> Vec<u16> {
    [&[R][..], &w(0x42, wait), &w(0x14, control)].concat()
}

/// The wait of most examples, two ticks of it gone.
fn begun() -> Vec<u16> {
    [arrives(WAIT, TOLD), ticks(2)].concat()
}

/// The same in bay 1.
fn begun_in_bay_1() -> Vec<u16> {
    [&[N][..], &w(0x42, WAIT), &w(0x1C, TOLD), &hold(0xFB, 12)].concat()
}

fn register() -> Vec<Example> {
    let written = [&[N][..], &w(0x42, 0xA5)].concat();
    let value = |value| vec![Reads(0x42, value)];
    let mut all = vec![
        example("42h, a second write", &[&written, &w(0x42, 0x5A)], value(0x5A)),
        example("42h, 0 written", &[&written, &w(0x42, 0x00)], value(0x00)),
        example("42h without the STOP", &[&written, &w(0x42, 0x5A)[..4]], value(0xA5)),
        example("42h on the bus", &[&written, &read(OWN, 0x42)], vec![Records(vec![record(0, 3, 0xA5, 0)])]),
        example("42h and LETR", &[&written, &w(0x40, 0xFE)], vec![Reads(0x42, 0xA5), Reads(0x40, 2)]),
        example(
            "42h's neighbours",
            &[&written, &w(0x41, 0xFF), &w(0x43, 0xFF)],
            vec![Reads(0x41, 0), Reads(0x42, 0xA5), Reads(0x43, 0)],
        ),
        example("42h, bay 1 closed", &[&written, &w(0x0C, 0x01)], value(0xA5)),
        example(".. and then written", &[&written, &w(0x0C, 0x01), &w(0x42, 0x5A)], value(0x5A)),
        example("42h before any RESET", &[&w(0x42, 0xA5)], value(0)),
        example(".. and after the first", &[&w(0x42, 0xA5), &[N]], value(0)),
    ];
    all.extend([0x00, 0x01, 0x02, 0x04, 0x08, 0x10, 0x20, 0x40, 0x80, 0xFF].into_iter().map(|value| {
        let expected = vec![Reads(0x42, value), Reads(0x40, 1), Reads(0x0C, 0), Reads(0x14, 0), Outputs(0)];
        example(format!("42h, {:02X}h", value), &[&[N], &w(0x42, value)], expected)
    }));
    all
}

/// Whatever the straps, and with either start of LETR.
fn starts_at_0() -> impl Iterator<Item = Example> {
    (0..16).flat_map(|straps| {
        let written = [&[reset(straps, 0xFF)][..], &write(0x90 + 2 * (straps >> 2), 0x42, 0xA5)].concat();
        let name = |what: &str| format!("straps {:X}h: 42h after {}", straps, what);
        vec![
            example(name("a write"), &[&written], vec![Reads(0x42, 0xA5)]),
            example(name("a RESET"), &[&written, &[reset(straps, 0xFF)]], vec![Reads(0x42, 0)]),
            example(name("a RESET, short pulse"), &[&written, &[reset_short(straps, 0xFF)]], vec![Reads(0x42, 0)]),
        ]
    })
}

/// The count's last tick and the one before, from an arrival and from the enable. Phase is 10 at the arrival and 0 at
/// the enable, and the lamp of Inserted is lit below 100: these are the outputs at the two ends.
fn lengths() -> impl Iterator<Item = Example> {
    let waits = [
        (1, 0x041, 0x041),
        (2, 0x041, 0x041),
        (5, 0x041, 0x041),
        (12, 0x041, 0x041),
        (99, 0x001, 0x041),
        (128, 0x001, 0x001),
        (200, 0x041, 0x041),
        (254, 0x041, 0x041),
        (255, 0x041, 0x041),
    ];
    waits.into_iter().flat_map(|(wait, from_arrival, from_enable)| {
        let length = usize::from(wait);
        let waits = || vec![Reads(0x10, 0x05), Reads(0x14, 0x04), Reads(0x42, wait), Outputs(0x001)];
        let over = |outputs| vec![Reads(0x10, 0x15), Reads(0x14, 0x04), Reads(0x42, wait), Outputs(outputs)];
        let name = |what: &str| format!("wait {}, {}", wait, what);
        vec![
            example(name("arrival"), &[&arrives(wait, TOLD)], waits()),
            example(name("arrival: its last tick but one"), &[&arrives(wait, TOLD), &ticks(length - 1)], waits()),
            example(name("arrival: its last tick"), &[&arrives(wait, TOLD), &ticks(length)], over(from_arrival)),
            example(name("enable"), &[&rises(wait, TOLD)], waits()),
            example(name("enable: its last tick but one"), &[&rises(wait, TOLD), &ticks(length - 1)], waits()),
            example(name("enable: its last tick"), &[&rises(wait, TOLD), &ticks(length)], over(from_enable)),
        ]
    })
}

fn lengths_in_bay_1() -> impl Iterator<Item = Example> {
    [1, 2, 12, 255].into_iter().flat_map(|wait| {
        let begun = [&[N][..], &w(0x42, wait), &w(0x1C, TOLD), &hold(0xFB, 10)].concat();
        let length = usize::from(wait);
        let name = |what: &str| format!("wait {} in bay 1, {}", wait, what);
        vec![
            example(name("last tick but one"), &[&begun, &ticks(length - 1)], vec![Reads(0x18, 0x05), Outputs(0x001)]),
            example(name("last tick"), &[&begun, &ticks(length)], vec![Reads(0x18, 0x15), Outputs(0x005)]),
        ]
    })
}

/// What is in 42h when the device is accepted or the enable rises, and where no count begins.
fn beginnings() -> Vec<Example> {
    let nine = [&w(0x14, TOLD)[..], &hold(0xBF, 9)].concat();
    let in_time = [&[N][..], &nine, &w(0x42, 3), &[TICK]].concat();
    let untold = [&[N][..], &w(0x42, 3), &hold(0xBF, 30)].concat();
    let over_a_press = [&[R][..], &hold(0x9F, 5), &w(0x42, 3), &w(0x14, TOLD_ALL)].concat();
    let by_1394 = [&[N][..], &w(0x42, 3), &w(0x14, TOLD), &hold(0x7F, 10)].concat();
    let by_both = [&[N][..], &w(0x42, 3), &w(0x14, TOLD), &hold(0x3F, 10)].concat();
    // USB is accepted in the tenth tick and 1394 in the twelfth: the count is the first one's.
    let one_by_one = [&[N][..], &w(0x42, 3), &w(0x14, TOLD), &hold(0xBF, 2), &hold(0x3F, 8)].concat();
    let asked_before = [&[N][..], &w(0x42, 3), &w(0x14, 0x24), &hold(0xBF, 10)].concat();
    vec![
        example("no wait, arrival", &[&arrives(0, TOLD)], vec![Reads(0x10, 0x15), Outputs(0x041)]),
        example("no wait, enable", &[&rises(0, TOLD)], vec![Reads(0x10, 0x15), Outputs(0x041)]),
        example("42h written before the arrival's tick", &[&in_time, &ticks(2)], vec![Reads(0x10, 0x05)]),
        example(".. its end", &[&in_time, &ticks(3)], vec![Reads(0x10, 0x15)]),
        example("42h at 0 by then", &[&[N], &w(0x42, 3), &nine, &w(0x42, 0), &[TICK]], vec![Reads(0x10, 0x15)]),
        example("42h after the arrival", &[&[N], &nine, &[TICK], &w(0x42, 3)], vec![Reads(0x10, 0x15)]),
        example("an arrival that nobody hears of", &[&untold], vec![Reads(0x10, 0x05), Outputs(0)]),
        example(".. and then the enable", &[&untold, &w(0x14, TOLD), &ticks(2)], vec![Reads(0x10, 0x05)]),
        example(".. and its end", &[&untold, &w(0x14, TOLD), &ticks(3)], vec![Reads(0x10, 0x15)]),
        example("the enable without a device", &[&[N], &w(0x42, 3), &w(0x14, TOLD), &ticks(30)], vec![Reads(0x10, 0)]),
        example("both enables over a press", &[&over_a_press], vec![Reads(0x10, 0x0D), Outputs(0x001)]),
        example(".. its end", &[&over_a_press, &ticks(3)], vec![Reads(0x10, 0x1D), Outputs(0x041)]),
        example("a 1394 device waits", &[&by_1394, &ticks(2)], vec![Reads(0x10, 0x06)]),
        example(".. its end", &[&by_1394, &ticks(3)], vec![Reads(0x10, 0x16)]),
        example("both bits at once wait", &[&by_both, &ticks(2)], vec![Reads(0x10, 0x07)]),
        example(".. its end", &[&by_both, &ticks(3)], vec![Reads(0x10, 0x17)]),
        example("one bit, then the other", &[&one_by_one, &ticks(2)], vec![Reads(0x10, 0x07)]),
        example(".. its end", &[&one_by_one, &ticks(3)], vec![Reads(0x10, 0x17)]),
        // The stored request was made without a device, and moves nothing.
        example("an older request", &[&asked_before, &ticks(2)], vec![Reads(0x10, 0x05), Reads(0x14, 0x24)]),
        example(".. its end", &[&asked_before, &ticks(3)], vec![Reads(0x10, 0x15), Reads(0x14, 0x24)]),
    ]
}

/// A write that asks for a state as it raises DEVSTSCHG_EN over a device, and the enable in another state than Empty.
fn no_beginnings() -> impl Iterator<Item = Example> {
    (1..=4).flat_map(|state| {
        let in_state = state << 4 | 0x05;
        let asked = rises(WAIT, state << 4 | TOLD);
        let told_later = [&[R][..], &w(0x42, WAIT), &w(0x14, state << 4), &w(0x14, TOLD)].concat();
        vec![
            example(format!("request {} with the enable", state), &[&asked], vec![Reads(0x10, in_state)]),
            example(".. and no count", &[&asked, &ticks(40)], vec![Reads(0x10, in_state)]),
            example(format!("the enable in state {}", state), &[&told_later, &ticks(40)], vec![Reads(0x10, in_state)]),
        ]
    })
}

/// A request that asks for nothing leaves the enable its count.
fn empty_requests() -> impl Iterator<Item = Example> {
    [0x04, 0x54, 0x64, 0x74].into_iter().flat_map(|control| {
        let raised = rises(WAIT, control);
        let name = |what: &str| format!("the enable by {:02X}h, {}", control, what);
        vec![
            example(name("waits"), &[&raised, &ticks(11)], vec![Reads(0x10, 0x05), Reads(0x14, 0x04)]),
            example(name("its end"), &[&raised, &ticks(12)], vec![Reads(0x10, 0x15), Reads(0x14, 0x04)]),
        ]
    })
}

/// Each thing that ends the count, with ticks enough to show that nothing follows.
fn endings() -> Vec<Example> {
    let cleared = [&begun()[..], &w(0x14, 0x00)].concat();
    let in_last_tick = [&arrives(WAIT, TOLD)[..], &ticks(11)].concat();
    let long = [arrives(LONG, TOLD), ticks(2)].concat();
    let removed = [&long[..], &hold(0xFF, 10)].concat();
    let closed = [&begun_in_bay_1()[..], &w(0x0C, 0x01)].concat();
    let again = [&begun()[..], &[R], &w(0x42, WAIT), &w(0x14, TOLD)].concat();
    let nothing = || vec![Reads(0x18, 0), Reads(0x1C, 0), Outputs(0)];
    vec![
        example("the enable cleared", &[&cleared, &ticks(40)], vec![Reads(0x10, 0x05), Reads(0x14, 0), Outputs(0)]),
        example(".. by 88h", &[&begun(), &w(0x14, 0x88), &ticks(40)], vec![Reads(0x10, 0x05), Outputs(0x080)]),
        example(".. and set: all of the wait", &[&cleared, &w(0x14, TOLD), &ticks(11)], vec![Reads(0x10, 0x05)]),
        example(".. its end", &[&cleared, &w(0x14, TOLD), &ticks(12)], vec![Reads(0x10, 0x15)]),
        example("cleared before the last tick", &[&in_last_tick, &w(0x14, 0), &ticks(40)], vec![Reads(0x10, 0x05)]),
        example("cleared after it", &[&in_last_tick, &[TICK], &w(0x14, 0), &ticks(40)], vec![Reads(0x10, 0x15)]),
        example("nine ticks of a removal", &[&long, &hold(0xFF, 9)], vec![Reads(0x10, 0x05)]),
        example("a removal", &[&removed], vec![Reads(0x10, 0x04), Reads(0x14, 0x04), Outputs(0x001)]),
        example(".. and nothing follows", &[&removed, &ticks(40)], vec![Reads(0x10, 0x04), Outputs(0x001)]),
        example(".. and all of the wait", &[&removed, &hold(0xBF, 10), &ticks(29)], vec![Reads(0x10, 0x05)]),
        example(".. its end", &[&removed, &hold(0xBF, 10), &ticks(30)], vec![Reads(0x10, 0x15)]),
        example("bay 1 waits", &[&begun_in_bay_1(), &ticks(9)], vec![Reads(0x18, 0x05), Outputs(0x001)]),
        example(".. its end", &[&begun_in_bay_1(), &ticks(10)], vec![Reads(0x18, 0x15), Outputs(0x005)]),
        example("bay 1 closed", &[&closed], nothing()),
        example(".. and nothing follows", &[&closed, &ticks(40)], nothing()),
        example(".. after RESET too", &[&closed, &[reset(0, 0xFB)], &ticks(40)], vec![Reads(0x18, 0x05), Outputs(0)]),
        example("RESET", &[&begun(), &[R], &ticks(40)], vec![Reads(0x10, 0x05), Reads(0x42, 0), Outputs(0)]),
        example(".. and the enable at once", &[&begun(), &[R], &w(0x14, TOLD)], vec![Reads(0x10, 0x15)]),
        example(".. and all of the wait", &[&again, &ticks(11)], vec![Reads(0x10, 0x05)]),
        example(".. its end", &[&again, &ticks(12)], vec![Reads(0x10, 0x15)]),
        example("RESET before the last tick", &[&in_last_tick, &[R], &ticks(40)], vec![Reads(0x10, 0x05)]),
    ]
}

/// A count of bays that closes none ends nothing.
fn other_bay_counts() -> impl Iterator<Item = Example> {
    [0x00, 0x02, 0x13].into_iter().flat_map(|count| {
        let written = [&begun_in_bay_1()[..], &w(0x0C, count)].concat();
        let name = |what: &str| format!("DBCCR {:02X}h in bay 1's wait{}", count, what);
        vec![
            example(name(""), &[&written, &ticks(9)], vec![Reads(0x18, 0x05), Outputs(0x001)]),
            example(name(": its end"), &[&written, &ticks(10)], vec![Reads(0x18, 0x15), Outputs(0x005)]),
        ]
    })
}

/// A driver's request moves at once, with the enable and without, and the count's end moves nothing.
fn requests() -> impl Iterator<Item = Example> {
    (1..=4).flat_map(|state| {
        let in_state = state << 4 | 0x05;
        let asked = [&begun()[..], &w(0x14, state << 4 | TOLD)].concat();
        let untold = [&begun()[..], &w(0x14, state << 4)].concat();
        let in_last_tick = [&arrives(WAIT, TOLD)[..], &ticks(11), &w(0x14, state << 4 | TOLD), &[TICK]].concat();
        let name = |what: &str| format!("request {} {}", state, what);
        vec![
            example(name("in the wait"), &[&asked], vec![Reads(0x10, in_state)]),
            example(name("in the wait, its end"), &[&asked, &ticks(10)], vec![Reads(0x10, in_state)]),
            example(name("in the wait, later"), &[&asked, &ticks(40)], vec![Reads(0x10, in_state)]),
            example(name("in the wait, untold"), &[&untold, &ticks(40)], vec![Reads(0x10, in_state)]),
            example(name("before the last tick"), &[&in_last_tick], vec![Reads(0x10, in_state)]),
        ]
    })
}

/// Inserted by a request: that its count has ended shows where a press has moved the bay on.
fn moved_on() -> Vec<Example> {
    let inserted = [&begun()[..], &w(0x14, 0x1C), &hold(0x9F, 5)].concat();
    let at_once = [&rises(WAIT, 0x1C)[..], &hold(0x9F, 5)].concat();
    vec![
        example("Inserted in the wait, and a press", &[&inserted], vec![Reads(0x10, 0x3D)]),
        example(".. stays", &[&inserted, &ticks(40)], vec![Reads(0x10, 0x3D)]),
        example("Inserted with the enable, and a press", &[&at_once], vec![Reads(0x10, 0x3D)]),
        example(".. stays", &[&at_once, &ticks(40)], vec![Reads(0x10, 0x3D)]),
    ]
}

/// Something happens two ticks into a wait of 30 and takes some of its ticks. BSTR in the last tick but one, and at the
/// end.
fn goes_on(name: &str, control: u8, words: &[u16], waits: u8, over: u8) -> Vec<Example> {
    let taken = words.iter().filter(|&&word| word == TICK).count();
    let until = |left: usize| [&arrives(LONG, control)[..], &ticks(2), words, &ticks(28 - taken - left)].concat();
    vec![
        example(format!("{} in the wait", name), &[&until(1)], vec![Reads(0x10, waits)]),
        example(format!("{} in the wait: its end", name), &[&until(0)], vec![Reads(0x10, over)]),
    ]
}

/// What the count goes on through, by the driver.
fn driven_through() -> Vec<Example> {
    let pressed = [&hold(0x9F, 5)[..], &w(0x14, TOLD_ALL)].concat();
    let of_device = |name, words: &[u16]| goes_on(name, TOLD, words, 0x05, 0x15);
    [
        of_device("nothing", &[]),
        of_device("42h raised", &w(0x42, 0xFF)),
        of_device("42h lowered", &w(0x42, 3)),
        of_device("42h at 1", &w(0x42, 1)),
        of_device("42h at 0", &w(0x42, 0)),
        of_device("42h as it was", &w(0x42, LONG)),
        of_device("the enable, 1 over 1,", &w(0x14, TOLD)),
        of_device("REMREQ_EN", &w(0x14, TOLD_ALL)),
        goes_on("REMREQ_EN cleared", TOLD_ALL, &w(0x14, TOLD), 0x05, 0x15),
        goes_on("REMREQ_EN over a press", TOLD, &pressed, 0x0D, 0x1D),
        of_device("REMEVTWAK_EN", &w(0x14, 0x06)),
        of_device("power", &w(0x14, 0x85)),
        of_device("request 5", &w(0x14, 0x54)),
        of_device("request 6", &w(0x14, 0x64)),
        of_device("request 7", &w(0x14, 0x74)),
        goes_on("BSTR cleared", TOLD, &w(0x10, 0x0C), 0x01, 0x11),
        of_device("BSTR, F3h,", &w(0x10, 0xF3)),
        of_device("LETR", &w(0x40, 0x03)),
        of_device("DBCCR", &w(0x0C, 0x12)),
        of_device("bay 1 closed", &w(0x0C, 0x01)),
        of_device("a control of bay 1", &w(0x1C, 0x10)),
        of_device("a read", &[&read(OWN, 0x42)[..], &[STOP]].concat()),
        of_device("a cut write", &[START, TIMEOUT]),
        of_device("a refused word", &[0xA001, 0xFFFF]),
    ]
    .into_iter()
    .flatten()
    .collect()
}

/// .. and at the inputs. A press sets REMREQ_STS, since a device is there, and moves nothing, since the bay is Empty.
fn sampled_through() -> Vec<Example> {
    let away_and_back = [&hold(0xFF, 9)[..], &[pins(0xBF)]].concat();
    let released = [hold(0x9F, 5), hold(0xBF, 5)].concat();
    let both = [&[N][..], &w(0x42, LONG), &w(0x14, TOLD), &hold(0x3F, 10)].concat();
    let left_alone = |levels| [&both[..], &w(0x10, 0x04), &hold(levels, 10)].concat();
    let through = [
        goes_on("1394 beside USB", TOLD, &hold(0x3F, 10), 0x07, 0x17),
        goes_on("a device of bay 1", TOLD, &hold(0xBB, 10), 0x05, 0x15),
        goes_on("a removal of nine ticks", TOLD, &away_and_back, 0x05, 0x15),
        goes_on("the same levels", TOLD, &[pins(0xBF)], 0x05, 0x15),
        goes_on("nSL", TOLD, &[pins(0xAF)], 0x85, 0x95),
        goes_on("a press", TOLD_ALL, &hold(0x9F, 5), 0x0D, 0x1D),
        goes_on("a press without its enable", TOLD, &hold(0x9F, 5), 0x0D, 0x1D),
        goes_on("a press and a release", TOLD_ALL, &released, 0x0D, 0x1D),
    ];
    let of_two = vec![
        example("1394 of two drops in the wait", &[&left_alone(0xBF), &ticks(19)], vec![Reads(0x10, 0x05)]),
        example(".. its end", &[&left_alone(0xBF), &ticks(20)], vec![Reads(0x10, 0x15)]),
        example("USB of two drops in the wait", &[&left_alone(0x7F), &ticks(19)], vec![Reads(0x10, 0x06)]),
        example(".. its end", &[&left_alone(0x7F), &ticks(20)], vec![Reads(0x10, 0x16)]),
        example("both drop in the wait", &[&left_alone(0xFF), &ticks(40)], vec![Reads(0x10, 0x04)]),
    ];
    through.into_iter().flatten().chain(of_two).collect()
}

/// A press that is accepted in this tick after the arrival, with both enables: after so many ticks, BSTR and outputs.
/// Only after the end does it move the bay.
fn presses_at_the_end() -> impl Iterator<Item = Example> {
    let before = [(11, 10, 0x05, 0x001), (11, 11, 0x0D, 0x001), (11, 12, 0x1D, 0x041), (11, 40, 0x1D, 0x041)];
    let last_tick = [(12, 11, 0x05, 0x001), (12, 12, 0x1D, 0x041), (12, 13, 0x1D, 0x041), (12, 40, 0x1D, 0x041)];
    let after = [(13, 11, 0x05, 0x001), (13, 12, 0x15, 0x041), (13, 13, 0x3D, 0x021), (13, 40, 0x3D, 0x021)];
    let all = before.into_iter().chain(last_tick).chain(after);
    all.map(|(pressed, tick, status, outputs)| {
        let begins = pressed - 5;
        let words = [arrives(WAIT, TOLD_ALL), ticks(begins), hold(0x9F, tick - begins)].concat();
        let name = format!("wait 12, a press in tick {}: after {}", pressed, tick);
        example(name, &[&words], vec![Reads(0x10, status), Outputs(outputs)])
    })
}

/// The same with a removal, which is accepted in its tenth tick and comes first.
fn removals_at_the_end() -> impl Iterator<Item = Example> {
    let before = [(11, 10, 0x05, 0x001), (11, 11, 0x04, 0x001), (11, 12, 0x04, 0x001), (11, 40, 0x04, 0x001)];
    let last_tick = [(12, 11, 0x05, 0x001), (12, 12, 0x04, 0x001), (12, 13, 0x04, 0x001), (12, 40, 0x04, 0x001)];
    let after = [(13, 11, 0x05, 0x001), (13, 12, 0x15, 0x041), (13, 13, 0x04, 0x001), (13, 40, 0x04, 0x001)];
    let all = before.into_iter().chain(last_tick).chain(after);
    all.map(|(removed, tick, status, outputs)| {
        let begins = removed - 10;
        let words = [arrives(WAIT, TOLD), ticks(begins), hold(0xFF, tick - begins)].concat();
        let name = format!("wait 12, a removal in tick {}: after {}", removed, tick);
        example(name, &[&words], vec![Reads(0x10, status), Outputs(outputs)])
    })
}

/// A wait of one tick, which a press or a removal must be ahead of; and more than one thing in the last tick.
fn last_ticks() -> Vec<Example> {
    let told = |wait| [&[N][..], &w(0x42, wait), &w(0x14, TOLD_ALL)].concat();
    let with_arrival = [&told(1)[..], &hold(0xBF, 5), &hold(0x9F, 5)].concat();
    let pressed_into = |begins| [&told(1)[..], &hold(0xBF, begins), &hold(0x9F, 11 - begins)].concat();
    let leaving = |gone| [&[R][..], &w(0x42, 1), &hold(0xFF, gone), &w(0x14, TOLD), &[TICK]].concat();
    let seen = [&arrives(WAIT, TOLD_ALL)[..], &w(0x10, 0x04), &ticks(2)].concat();
    let untold_press = [&arrives(WAIT, TOLD)[..], &ticks(7), &hold(0x9F, 5)].concat();
    let both = [&told(WAIT)[..], &hold(0x3F, 10), &w(0x10, 0x04), &ticks(2)].concat();
    vec![
        example("wait 1, a press with the arrival", &[&with_arrival], vec![Reads(0x10, 0x0D)]),
        example(".. its end", &[&with_arrival, &[TICK]], vec![Reads(0x10, 0x1D), Outputs(0x041)]),
        example("wait 1, a press in its tick", &[&pressed_into(6)], vec![Reads(0x10, 0x1D), Outputs(0x041)]),
        example(".. stays", &[&pressed_into(6), &ticks(40)], vec![Reads(0x10, 0x1D)]),
        example("wait 1, a press after it", &[&pressed_into(7)], vec![Reads(0x10, 0x15)]),
        example(".. moves", &[&pressed_into(7), &[TICK]], vec![Reads(0x10, 0x3D), Outputs(0x021)]),
        example("wait 1, a removal in its tick", &[&leaving(9)], vec![Reads(0x10, 0x04), Outputs(0x001)]),
        example(".. and nothing follows", &[&leaving(9), &ticks(40)], vec![Reads(0x10, 0x04)]),
        example("wait 1, a removal after it", &[&leaving(8)], vec![Reads(0x10, 0x15), Outputs(0x041)]),
        example(".. as ever", &[&leaving(8), &[TICK]], vec![Reads(0x10, 0x04), Outputs(0x001)]),
        // The device is gone by this tick's presence, so that the press sets nothing.
        example("a removal and a press", &[&seen, &hold(0xFF, 5), &hold(0xDF, 5)], vec![Reads(0x10, 0x04)]),
        example("1394 in the last tick", &[&seen, &hold(0x3F, 10)], vec![Reads(0x10, 0x17), Outputs(0x041)]),
        example("1394 and a press", &[&seen, &hold(0x3F, 5), &hold(0x1F, 5)], vec![Reads(0x10, 0x1F)]),
        example("one of two drops in the last tick", &[&both, &hold(0xBF, 10)], vec![Reads(0x10, 0x15)]),
        // The status bit stays for the driver, who moves the bay by the enable as ever.
        example("a press in the last tick, untold", &[&untold_press], vec![Reads(0x10, 0x1D), Outputs(0x041)]),
        example(".. and REMREQ_EN", &[&untold_press, &w(0x14, TOLD_ALL)], vec![Reads(0x10, 0x3D), Outputs(0x021)]),
    ]
}

/// DEVSTSCHG and the interrupt come with the device, and not again at the end; the lamps are Empty's until then.
fn telling() -> Vec<Example> {
    let seen = [&arrives(WAIT, TOLD)[..], &w(0x10, 0x04)].concat();
    let coming = [&[N][..], &w(0x42, 2), &w(0x14, TOLD), &hold(0xBF, 12)].concat();
    let outputs = [0x000, 0x001, 0x001, 0x041].map(|outputs| record(0, 0, 0, outputs));
    let powered = [&begun()[..], &w(0x14, 0x85)].concat();
    let mut all = vec![
        example("wait 2, tick by tick", &[&coming], vec![Records(outputs.to_vec())]),
        example("DEVSTSCHG cleared in the wait", &[&seen], vec![Reads(0x10, 0x01), Outputs(0)]),
        example(".. its last tick but one", &[&seen, &ticks(11)], vec![Reads(0x10, 0x01), Outputs(0)]),
        example(".. its end", &[&seen, &ticks(12)], vec![Reads(0x10, 0x11), Outputs(0x040)]),
        example("power in the wait", &[&powered], vec![Reads(0x10, 0x05), Reads(0x14, 0x85), Outputs(0x181)]),
        example(".. its end", &[&powered, &ticks(10)], vec![Reads(0x10, 0x15), Outputs(0x1C1)]),
    ];
    // Phase is 10 at the arrival: the edges of the lit half, and the middle of both.
    all.extend([0, 40, 89, 90, 140, 189, 190, 240].into_iter().map(|count| {
        let name = format!("wait 255, dark after {} ticks", count);
        example(name, &[&arrives(255, TOLD), &ticks(count)], vec![Reads(0x10, 0x05), Outputs(0x001)])
    }));
    all
}

/// Each bay counts for itself, from what 42h was as its own count began.
fn bays() -> impl Iterator<Item = Example> {
    let together = [&[N][..], &w(0x42, 5), &w(0x14, TOLD), &w(0x1C, TOLD), &hold(0xBB, 10)].concat();
    let begun = [&[reset(0, 0xBB)][..], &w(0x42, 5), &w(0x14, TOLD), &ticks(2)].concat();
    let one_more = [&begun[..], &w(0x42, 9), &w(0x1C, TOLD)].concat();
    // Bay 0's device goes as bay 1's comes, and both are accepted in one tick.
    let exchanged = [&[reset(0, 0xBF)][..], &w(0x42, 30), &w(0x14, TOLD), &w(0x1C, TOLD), &hold(0xFB, 10)].concat();
    let ended = [&one_more[..], &w(0x14, 0x00)].concat();
    let closed = [&one_more[..], &w(0x0C, 0x01)].concat();
    let at = move |name: &str, begun: &[u16], after: &[(usize, u8, u8)]| -> Vec<Example> {
        let one = |&(count, bay_0, bay_1): &(usize, u8, u8)| {
            let expected = vec![Reads(0x10, bay_0), Reads(0x18, bay_1)];
            example(format!("{}: after {}", name, count), &[begun, &ticks(count)], expected)
        };
        after.iter().map(one).collect()
    };
    let listed = [
        at("both bays wait", &together, &[(0, 0x05, 0x05), (4, 0x05, 0x05), (5, 0x15, 0x15)]),
        at("bay 1 later, with 9", &one_more, &[(2, 0x05, 0x05), (3, 0x15, 0x05), (8, 0x15, 0x05), (9, 0x15, 0x15)]),
        at("bay 0's count ended", &ended, &[(3, 0x05, 0x05), (8, 0x05, 0x05), (9, 0x05, 0x15), (40, 0x05, 0x15)]),
        at("bay 1 closed in both waits", &closed, &[(2, 0x05, 0), (3, 0x15, 0), (40, 0x15, 0)]),
        at("a device for another", &exchanged, &[(0, 0x04, 0x05), (29, 0x04, 0x05), (30, 0x04, 0x15)]),
    ];
    listed.into_iter().flatten()
}

/// A TICK counts wherever it falls, as inside a command.
fn inside_commands() -> Vec<Example> {
    let reading = read(OWN, 0x10);
    let until = |count| [&begun()[..], &reading[..4], &ticks(count), &reading[4..]].concat();
    let drives = |value, outputs| vec![Records(vec![record(0, 3, value, outputs)])];
    let clear = w(0x14, 0x00);
    let cut = [&begun()[..], &clear[..4], &ticks(10), &clear[4..]].concat();
    vec![
        example("a read before the end", &[&until(9)], drives(0x05, 0x001)),
        example("a read from the end on", &[&until(10)], drives(0x15, 0x041)),
        example(
            "a read decided before the end",
            &[&begun(), &reading[..5], &ticks(10), &reading[5..]],
            drives(5, 0x041),
        ),
        example("a write decided after the end", &[&cut], vec![Reads(0x10, 0x15), Reads(0x14, 0)]),
    ]
}

pub fn examples() -> Vec<Example> {
    let of_register = register().into_iter().chain(starts_at_0());
    let begun = lengths().chain(lengths_in_bay_1()).chain(beginnings()).chain(no_beginnings()).chain(empty_requests());
    let ended = endings().into_iter().chain(requests()).chain(moved_on());
    let gone_on = driven_through().into_iter().chain(other_bay_counts()).chain(sampled_through());
    let at_the_end = presses_at_the_end().chain(removals_at_the_end()).chain(last_ticks());
    let seen = telling().into_iter().chain(bays()).chain(inside_commands());
    of_register.chain(begun).chain(ended).chain(gone_on).chain(at_the_end).chain(seen).collect()
}
