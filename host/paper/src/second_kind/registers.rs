//! "Registers": what each reads, which writes it takes, and what a RESET leaves.

use super::{second, AFTER_N};
use crate::words::{pins, reset};
use crate::{hold, ticks, w, w_all, Story, N, R};

/// RESET with a USB device in bay 1.
const DEVICE_IN_BAY_1: u16 = reset(0, 0xFB);

/// The registers after N, and these beside them or in their place.
fn with(changed: &[(u8, u8)]) -> Vec<(u8, u8)> {
    [changed, &AFTER_N].concat()
}

fn is_named(address: u8) -> bool {
    matches!(address, 0x08..=0x0C | 0x10 | 0x14 | 0x15 | 0x18 | 0x20 | 0x21 | 0xFC)
}

/// An address that isn't named takes no write, nor do the vendor and the revision.
fn fixed() -> Story {
    let others = (0..=0xFF).filter(|&address| !is_named(address));
    let written = others
        .fold(second("writes to the other addresses").words(&[N]), |story, address| story.words(&w(address, 0xFF)));
    written.reads_only(&AFTER_N).outputs(0)
}

fn subsystem() -> Vec<Story> {
    let mut all = vec![
        second("08h-0Bh in a fresh controller").words(&[N]).reads_from(0x08, &[0; 4]),
        second("08h-0Bh in one write and over it")
            .words(&[N])
            .words(&w_all(0x08, &[1, 2, 3, 4]))
            .words(&w_all(0x08, &[5, 6, 7, 8]))
            .reads_from(0x08, &[1, 2, 3, 4]),
    ];
    all.extend((0x08..=0x0B).map(|address| {
        second(format!("{:02X}h, 0 is a write", address))
            .words(&[N])
            .words(&w(address, 0x00))
            .words(&w(address, 0xFF))
            .reads_only(&AFTER_N)
            .words(&[N])
            .words(&w(address, 0xFF))
            .reads_only(&with(&[(address, 0xFF)]))
            .words(&w(address, 0x00))
            .reads_only(&with(&[(address, 0xFF)]))
            .words(&[R, N])
            .reads_only(&with(&[(address, 0xFF)]))
    }));
    all
}

/// All counts with their upper bits, once after each RESET.
fn capabilities() -> Vec<Story> {
    let mut all: Vec<Story> = (0..=0x0F)
        .map(|count| {
            let stored = count.min(2);
            second(format!("bay count {}", count))
                .words(&[N])
                .words(&w(0x0C, count))
                .reads_only(&with(&[(0x0C, stored)]))
                .words(&w(0x0C, 0x12))
                .reads(0x0C, stored)
                .words(&[N])
                .reads(0x0C, 0x02)
                .words(&w(0x0C, 0xF0 | count))
                .reads(0x0C, 0x10 | stored)
        })
        .collect();
    all.push(
        second("0Dh-0Fh and 0Ch")
            .words(&[N])
            .words(&w_all(0x0D, &[0x11, 0x11, 0x11]))
            .reads_only(&AFTER_N)
            .words(&w(0x0C, 0x10))
            .reads_only(&with(&[(0x0C, 0x10)])),
    );
    all
}

/// Count 1 closes bay 1, and no other does.
fn closed() -> Vec<Story> {
    let filled = |name: &str| {
        second(name)
            .words(&[DEVICE_IN_BAY_1])
            .words(&w(0x18, 0xAD))
            .words(&w(0x18, 0x0F))
            .words(&w(0x20, 0x0C))
            .words(&hold(0xF9, 5))
            .reads(0x18, 0x2E)
            .reads(0x20, 0x39)
            .outputs(0x003)
    };
    let mut all = vec![
        filled("bay 1 closed")
            .words(&w(0x15, 0x04))
            .words(&w(0x0C, 0x01))
            .outputs(0)
            .words(&w_all(0x18, &[0xFF; 4]))
            .words(&w_all(0x20, &[0xFF; 4]))
            .words(&hold(0xF0, 20))
            .reads_only(&with(&[(0x0C, 0x01), (0x15, 0x04)]))
            .outputs(0)
            .words(&[DEVICE_IN_BAY_1])
            .reads_only(&with(&[(0x15, 0x04), (0x20, 0x05)]))
            .words(&w(0x21, 0x02))
            .reads(0x21, 0x02),
        second("bay 1 closed, bay 0 as ever")
            .words(&[reset(0, 0xBB)])
            .words(&w(0x0C, 0x01))
            .words(&w(0x10, 0x24))
            .words(&w(0x15, 0x03))
            .reads_only(&with(&[(0x0C, 0x01), (0x10, 0x24), (0x14, 0x25), (0x15, 0x03)]))
            .outputs(0x041),
        second("BAY_FF of a bay closed and opened, in the controller's life")
            .words(&[N])
            .words(&w(0x21, 0x02))
            .words(&w(0x0C, 0x01))
            .reads(0x21, 0x00)
            .words(&[N])
            .words(&w(0x21, 0x05))
            .reads(0x21, 0x02),
    ];
    all.extend([0x00, 0x02, 0x03, 0x0F].map(|count| {
        second(format!("count {} closes nothing", count))
            .words(&[DEVICE_IN_BAY_1])
            .words(&w(0x0C, count))
            .words(&w(0x21, 0x02))
            .words(&w(0x18, 0x2E))
            .reads(0x18, 0x2E)
            .reads_from(0x20, &[0x25, 0x02])
            .outputs(0x005)
    }));
    all
}

fn status() -> Vec<Story> {
    let pressed = |name: &str| second(name).words(&[reset(0, 0x3F)]).words(&hold(0x1F, 5)).reads(0x14, 0x0F);
    let locked = |name: &str, capabilities| {
        second(name).words(&[reset(0, 0xEE)]).words(&w(0x0C, capabilities)).words(&[pins(0xEE)])
    };
    vec![
        second("BSTR, 1394 in bay 1").words(&[reset(0, 0xF7)]).reads_only(&with(&[(0x20, 0x06)])),
        second("BSTR, both in bay 0").words(&[reset(0, 0x3F)]).reads_only(&with(&[(0x14, 0x07)])),
        pressed("BSTR, 04h written").words(&w(0x14, 0x04)).reads(0x14, 0x0B),
        pressed("BSTR, 08h written").words(&w(0x14, 0x08)).reads(0x14, 0x07),
        pressed("BSTR, 0Ch written").words(&w(0x14, 0x0C)).reads(0x14, 0x03),
        pressed("BSTR, F3h written").words(&w(0x14, 0xF3)).reads(0x14, 0x0F),
        locked("nSL without SECLOCK", 0x02).reads(0x14, 0x00).reads(0x20, 0x00),
        locked("nSL with SECLOCK", 0x12).reads(0x14, 0x80).reads(0x20, 0x80),
        locked("nSL with SECLOCK and one bay", 0x11).reads(0x14, 0x80).reads(0x20, 0x00),
        locked("nSL after RESET", 0x12).words(&[reset(0, 0xEE)]).reads(0x14, 0x00).reads(0x20, 0x00),
    ]
}

fn control() -> Vec<Story> {
    let mut all: Vec<Story> = [0x00, 0x50, 0x60, 0x70]
        .into_iter()
        .map(|value| {
            second(format!("request {:02X}h keeps the old one", value))
                .words(&[R])
                .words(&w(0x10, 0x20))
                .words(&w(0x10, value))
                .reads(0x10, 0x20)
                .reads(0x14, 0x25)
        })
        .collect();
    all.extend([0x02, 0x04, 0x08, 0x30, 0x80].map(|value| {
        second(format!("BCER1 {:02X}h", value)).words(&[N]).words(&w(0x18, value)).reads_only(&with(&[(0x18, value)]))
    }));
    all.push(
        second("power goes with its lock")
            .words(&[R])
            .words(&w(0x10, 0x81))
            .words(&w(0x10, 0x01))
            .reads(0x10, 0x00)
            .outputs(0),
    );
    all
}

/// Once in the controller's life, whatever bits 7-3 are.
fn form_factors() -> impl Iterator<Item = Story> {
    [(0x15, 0x14), (0x21, 0x20)].into_iter().flat_map(|(address, status)| {
        let story = |what: &str| second(format!("{:02X}h, {}", address, what)).words(&[N]);
        let mut all: Vec<Story> = (0..8)
            .map(|form_factor| {
                story(&format!("{} with every other bit", form_factor))
                    .words(&w(address, 0xF8 | form_factor))
                    .reads_only(&with(&[(address, form_factor)]))
                    .words(&w(address, !form_factor))
                    .reads_only(&with(&[(address, form_factor)]))
                    .words(&[N])
                    .words(&w(address, !form_factor))
                    .reads_only(&with(&[(address, form_factor)]))
            })
            .collect();
        all.extend([
            story("beside BSTR").words(&w_all(status, &[0xFF, 0x05, 0x06, 0x07])).reads_only(&with(&[(address, 0x05)])),
            story("neighbours don't count")
                .words(&w(status, 0xFF))
                .words(&w_all(status + 2, &[0xFF, 0xFF]))
                .words(&w(address, 0x03))
                .reads_only(&with(&[(address, 0x03)])),
        ]);
        all
    })
}

fn features() -> Vec<Story> {
    let locked =
        |name: &str| second(name).words(&[reset(0, 0xBB)]).words(&w(0x10, 0xA1)).words(&w(0x18, 0xC3)).outputs(0x1D8);
    vec![
        second("SFR reads back").words(&[N]).words(&w(0xFC, 0xFF)).reads_only(&with(&[(0xFC, 0xFF)])),
        second("SFR, 0 is a write").words(&[N]).words(&w(0xFC, 0x00)).words(&w(0xFC, 0xFF)).reads(0xFC, 0x00),
        second("SFR after RESET").words(&[N]).words(&w(0xFC, 0x5A)).words(&[N]).reads_only(&AFTER_N),
        second("SFR once after each RESET")
            .words(&[N])
            .words(&w(0xFC, 0x5A))
            .words(&[N])
            .words(&w(0xFC, 0xA5))
            .words(&w(0xFC, 0x5A))
            .reads(0xFC, 0xA5),
        second("FDh-FFh and FCh")
            .words(&[N])
            .words(&w_all(0xFD, &[0x11, 0x11, 0x11]))
            .reads_only(&AFTER_N)
            .words(&w(0xFC, 0x40))
            .reads_only(&with(&[(0xFC, 0x40)])),
        locked("SFR's first write and both locks")
            .words(&w(0xFC, 0x02))
            .outputs(0x040)
            .reads(0x10, 0x20)
            .reads(0x18, 0x42),
        locked("SFR's first write without SOL")
            .words(&w(0xFC, 0x00))
            .outputs(0x040)
            .reads(0x10, 0x20)
            .reads(0x18, 0x42),
        locked("SFR's first write starts no pulse").words(&w(0xFC, 0x1F)).ticking(100, 0x040),
        locked("SFR's first write leaves the states").words(&w(0xFC, 0x1F)).reads(0x14, 0x25).reads(0x20, 0x45),
        locked("SFR's neighbours leave the locks").words(&w_all(0xFD, &[0xFF; 3])).outputs(0x1D8),
        second("SFR's second write leaves the locks")
            .words(&[R])
            .words(&w(0xFC, 0x00))
            .words(&w(0x10, 0xA1))
            .words(&w(0xFC, 0x02))
            .reads(0x10, 0xA1)
            .outputs(0x1C0),
    ]
}

/// All that a RESET sets back and all that it keeps, after a life in both bays.
fn after_reset() -> Story {
    second("RESET after a life")
        .words(&[reset(0, 0xBB)])
        .words(&w_all(0x08, &[1, 2, 3, 4, 0x10]))
        .words(&w(0xFC, 0x32))
        .words(&w(0x15, 0x01))
        .words(&w(0x21, 0x06))
        .words(&w(0x10, 0xAF))
        .words(&w(0x10, 0x0F))
        .words(&w(0x18, 0xCF))
        .words(&hold(0x88, 5))
        .words(&ticks(7))
        .words(&[R])
        .reads_only(&with(&[(0x08, 1), (0x09, 2), (0x0A, 3), (0x0B, 4), (0x14, 0x05), (0x15, 0x01), (0x21, 0x06)]))
        .outputs(0)
        .words(&w(0x10, 0x04))
        .ticking(49, 0x041)
        .ticking(1, 0x001)
}

pub fn stories() -> Vec<Story> {
    let map = [fixed()].into_iter().chain(subsystem()).chain(capabilities()).chain(closed());
    let bays = status().into_iter().chain(control()).chain(form_factors());
    map.chain(bays).chain(features()).chain([after_reset()]).collect()
}
