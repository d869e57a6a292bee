//! "Naming the kind", and "State": what a RESET puts in force, and what it keeps.

use super::{second, AFTER_N};
use crate::words::{byte, read, reset, reset_short, take, write, START, STOP, TICK};
use crate::{hold, read_all, record, w, w_all, Story, N, OWN, R};

/// What is not 0 in the first kind after N.
const FIRST_AFTER_N: [(u8, u8); 4] = [(0x00, 0x55), (0x01, 0x10), (0x04, 0x01), (0x40, 0x01)];

fn names() -> Vec<Story> {
    let before = [TICK, START, byte(OWN), 0xE001, STOP];
    let refused = [3, 3, 3, 2, 3].map(|number| record(number, 0, 0, 0)).to_vec();
    vec![
        Story::new("no name").words(&[N]).reads_only(&FIRST_AFTER_N),
        Story::new("kind 1 named").names(1).words(&[N]).reads_only(&FIRST_AFTER_N),
        second("before the first RESET").words(&before).records(refused).reads_only(&[]).outputs(0),
        second("the last name counts: 1").names(1).words(&[N]).reads(0x00, 0x55),
        Story::new("the last name counts: 2").names(1).names(2).words(&[N]).reads(0x00, 0x60),
        second("the name stays").words(&[N, N]).words(&ticks_and_resets()).reads(0x00, 0x60),
        Story::new("the second kind is named after a RESET")
            .words(&[R])
            .names(2)
            .reads(0x00, 0x55)
            .words(&w(0x14, 0x04))
            .reads(0x10, 0x15)
            .outputs(0x041)
            .words(&[R])
            .reads(0x00, 0x60)
            .reads(0x10, 0x00)
            .reads(0x14, 0x05)
            .outputs(0),
    ]
}

fn ticks_and_resets() -> Vec<u16> {
    [hold(0xBF, 20), vec![R], hold(0xFF, 20), vec![N]].concat()
}

/// A number that is no kind's changes nothing: not the name before it, nor the open transfer.
fn no_kinds() -> impl Iterator<Item = Story> {
    [0, 3, 4, 12, 0x82, 0xFF].into_iter().flat_map(|number| {
        let story = |what: &str| second(format!("kind {} {}", number, what));
        vec![
            story("leaves the name").names_none(number).words(&[N]).reads(0x00, 0x60),
            Story::new(format!("kind {} in a fresh state", number)).names_none(number).words(&[N]).reads(0x00, 0x55),
            story("leaves the kind and the transfer")
                .words(&[R])
                .words(&[START, byte(OWN), byte(0x10)])
                .names_none(number)
                .outputs(0)
                .reads_only(&[&AFTER_N[..], &[(0x14, 0x05)]].concat())
                .words(&[byte(0x04)])
                .acked(0x041)
                .words(&[N])
                .reads(0x00, 0x60),
        ]
    })
}

/// A name changes nothing before the RESET, wherever it comes.
fn inside_commands() -> Vec<Story> {
    let opened = [START, byte(OWN), byte(0x00), START, byte(OWN + 1)];
    vec![
        second("a name inside a read")
            .words(&[N])
            .words(&opened)
            .names(1)
            .words(&[take(true)])
            .gives(0x60, 0)
            .names(2)
            .words(&[take(true)])
            .gives(0x12, 0)
            .names(1)
            .words(&[take(false)])
            .gives(0x00, 0),
        Story::new("a name inside a write of the first kind")
            .words(&[R])
            .words(&w(0x14, 0x04)[..4])
            .names(2)
            .reads(0x10, 0x05)
            .words(&[STOP])
            .reads(0x10, 0x15),
        Story::new("a name before a second data byte of the first kind")
            .words(&[R])
            .words(&w(0x14, 0x04)[..4])
            .names(2)
            .words(&[byte(0x04)])
            .not_acked(0)
            .words(&[STOP])
            .reads(0x10, 0x05),
        Story::new("a name inside a read of the first kind")
            .words(&[N])
            .words(&opened)
            .names(2)
            .words(&[take(true)])
            .gives(0x55, 0)
            .words(&[take(false)])
            .gives_nothing(0),
        second("a name inside a wait")
            .words(&[N])
            .words(&w(0xFC, 0x20))
            .words(&w(0x10, 0x04))
            .words(&hold(0xBF, 10))
            .names(1)
            .words(&hold(0xBF, 79))
            .reads(0x14, 0x00)
            .words(&[TICK])
            .reads(0x14, 0x15),
    ]
}

/// A RESET into the first kind: it is as if the second had never been.
fn into_the_first() -> Vec<Story> {
    let lived = || {
        second("a life")
            .words(&[N])
            .words(&w_all(0x08, &[0x11, 0x22, 0x33, 0x44, 0x11]))
            .words(&w(0xFC, 0x22))
            .words(&w(0x15, 0x05))
            .words(&hold(0xBF, 20))
            .words(&w(0x10, 0x84))
            .names(1)
    };
    let as_story = |name: &str, story: Story| Story { name: format!("into the first kind: {}", name), ..story };
    vec![
        as_story("its registers", lived().words(&[N]).reads_only(&FIRST_AFTER_N).outputs(0)),
        as_story("LETR by bit 12", lived().words(&[reset_short(0, 0xFF)]).reads_only(&FIRST_AFTER_N[..3])),
        as_story("LOCK_DEF", lived().words(&[reset(0x2, 0xFF)]).reads(0x14, 0x80).reads(0x1C, 0x80).outputs(0x088)),
        as_story("LOCK_MODE", lived().words(&[reset(0x1, 0xFF)]).outputs(0x088)),
        as_story("no wait", lived().words(&[R]).words(&w(0x14, 0x04)).reads(0x10, 0x15).outputs(0x041)),
        as_story("a write at its STOP", lived().words(&[R]).words(&w(0x14, 0x04)[..4]).reads(0x10, 0x05)),
        as_story("no rising number", lived().words(&[N]).words(&read(OWN, 0x00)).gives(0x55, 0)),
        as_story(
            "one byte only",
            lived().words(&[N]).words(&read_all(0x00, 2)).records(vec![record(0, 3, 0x55, 0), record(0, 4, 0xFF, 0)]),
        ),
        as_story("the lamps' half", lived().words(&[R]).words(&w(0x14, 0x04)).ticking(99, 0x041).ticking(1, 0x001)),
        as_story("nSL without SECLOCK", lived().words(&[reset(0, 0xEF)]).reads(0x10, 0x80)),
    ]
}

/// Writes to the second kind's addresses while the first is in force count for nothing.
fn unseen() -> Story {
    second("write-once bytes in the first kind")
        .names(1)
        .words(&[N])
        .words(&w(0x08, 0x11))
        .words(&w(0x15, 0x01))
        .words(&w(0x21, 0x01))
        .words(&w(0xFC, 0x20))
        .reads_only(&FIRST_AFTER_N)
        .names(2)
        .words(&[N])
        .reads_only(&AFTER_N)
        .words(&w(0x08, 0x22))
        .words(&w(0x15, 0x02))
        .words(&w(0x21, 0x03))
        .words(&w(0xFC, 0x40))
        .reads_only(&[&AFTER_N[..], &[(0x08, 0x22), (0x15, 0x02), (0x21, 0x03), (0xFC, 0x40)]].concat())
}

/// What only the first kind has is gone at a RESET into the second, and is as after any RESET on the way back.
fn into_the_second() -> impl Iterator<Item = Story> {
    [reset(0, 0xFF), reset_short(0, 0xFF)].into_iter().map(|word| {
        Story::new(format!("into the second kind by {:04X}h", word))
            .words(&[N])
            .words(&w(0x40, 0x03))
            .words(&w(0x42, 0x55))
            .words(&w(0x0C, 0x11))
            .names(2)
            .words(&[word])
            .reads_only(&AFTER_N)
            .words(&w(0x40, 0x03))
            .words(&w(0x42, 0x55))
            .reads_only(&AFTER_N)
            .words(&w(0x0C, 0x10))
            .reads(0x0C, 0x10)
            .names(1)
            .words(&[N])
            .reads_only(&FIRST_AFTER_N)
    })
}

/// AD from the straps; LOCK_DEF and LOCK_MODE mean nothing, nor does bit 12.
fn straps() -> impl Iterator<Item = Story> {
    (0..16).flat_map(|straps| {
        let own = 0x90 + 2 * (straps >> 2);
        [reset(straps, 0xFF), reset_short(straps, 0xFF)].into_iter().map(move |word| {
            let other = [START, byte(0x90 + (own + 2) % 8)];
            second(format!("RESET {:04X}h", word))
                .words(&[word])
                .reads_only(&AFTER_N)
                .outputs(0)
                .words(&other)
                .not_acked(0)
                .words(&read(own, 0x01))
                .gives(0x12, 0)
                .words(&write(own, 0x10, 0x80))
                .outputs(0x080)
                .words(&write(own, 0x10, 0x00))
                .outputs(0)
        })
    })
}

pub fn stories() -> Vec<Story> {
    let named = names().into_iter().chain(no_kinds()).chain(inside_commands());
    named.chain(into_the_first()).chain([unseen()]).chain(into_the_second()).chain(straps()).collect()
}
