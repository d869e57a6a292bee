//! "Outputs": the lock pulse by SOL and SPD, the lamps at 1 Hz, power and the interrupt.

use super::second;
use crate::words::{reset, write};
use crate::{hold, ticks, w, Story, N, R};

/// Bay 0 and bay 1: the address of BCER, and the lock pin.
const LOCKS: [(u8, u16); 2] = [(0x10, 0x080), (0x18, 0x008)];

/// Locked under this SFR, which shows nothing, and unlocked.
fn unlocked(name: impl Into<String>, features: u8, control: u8, pin: u16) -> Story {
    second(name)
        .words(&[N])
        .words(&w(0xFC, features))
        .words(&w(control, 0x80))
        .outputs(0)
        .words(&w(control, 0x00))
        .outputs(pin)
}

/// SOL x 5 and SOL x 80 ticks, in either bay.
fn pulses() -> impl Iterator<Item = Story> {
    let all = (1..=15).flat_map(|solenoid| [(solenoid, 0, 5), (solenoid, 1, 80)]);
    all.flat_map(|(solenoid, long, unit)| {
        let length = usize::from(solenoid) * unit;
        LOCKS.into_iter().enumerate().map(move |(bay, (control, pin))| {
            let name = format!("SOL {}, SPD {}, bay {}", solenoid, long, bay);
            unlocked(name, solenoid << 1 | long, control, pin).ticking(length - 1, pin.into()).ticking(1, 0)
        })
    })
}

fn locks() -> Vec<Story> {
    let level = |features| {
        second(format!("level mode, SFR {:02X}h", features))
            .words(&[N])
            .words(&w(0xFC, features))
            .words(&w(0x10, 0x80))
            .ticking(10, 0x080)
            .words(&w(0x18, 0x80))
            .ticking(10, 0x088)
            .words(&w(0x10, 0x00))
            .ticking(10, 0x008)
            .words(&w(0x18, 0x00))
            .ticking(10, 0)
    };
    let running = |name: &str| unlocked(name, 0x04, 0x10, 0x080).ticking(7, 0x080);
    vec![
        level(0x00),
        level(0x01),
        level(0xE1),
        second("0 over 0 starts none").words(&[N]).words(&w(0xFC, 0x04)).words(&w(0x10, 0x00)).ticking(20, 0),
        running("0 over 0 leaves a running pulse").words(&w(0x10, 0x00)).ticking(2, 0x080).ticking(1, 0),
        running("a 1 leaves a running pulse").words(&w(0x10, 0x80)).ticking(2, 0x080).ticking(1, 0),
        running("RESET ends a pulse").words(&[N]).ticking(10, 0),
        running("SFR's second write leaves a pulse").words(&w(0xFC, 0x1F)).ticking(2, 0x080).ticking(1, 0),
        running("each bay has its own")
            .words(&w(0x18, 0x80))
            .words(&w(0x18, 0x00))
            .ticking(2, 0x088)
            .ticking(7, 0x008)
            .ticking(1, 0),
        second("bay 1 closed within its pulse")
            .words(&[N])
            .words(&w(0xFC, 0x04))
            .words(&w(0x18, 0x80))
            .words(&w(0x18, 0x00))
            .outputs(0x008)
            .words(&w(0x0C, 0x01))
            .ticking(20, 0),
        // With a device in the bay: the pulse is the pin's, and power goes with LOCK_CTL.
        second("power and a pulse")
            .words(&[R])
            .words(&w(0xFC, 0x02))
            .words(&w(0x10, 0x81))
            .outputs(0x100)
            .words(&w(0x10, 0x01))
            .outputs(0x080)
            .ticking(4, 0x080)
            .ticking(1, 0),
        // LOCK_DEF and LOCK_MODE are set.
        second("the straps have no say in the pulse")
            .words(&[reset(0x3, 0xFF)])
            .outputs(0)
            .words(&write(0x90, 0xFC, 0x02))
            .outputs(0)
            .words(&write(0x90, 0x10, 0x80))
            .words(&write(0x90, 0x10, 0x00))
            .outputs(0x080)
            .ticking(4, 0x080)
            .ticking(1, 0),
    ]
}

fn lamps() -> Vec<Story> {
    let in_states =
        |name: &str, first, other| second(name).words(&[reset(0, 0xBB)]).words(&w(0x10, first)).words(&w(0x18, other));
    vec![
        in_states("Inserted and Removal Requested", 0x10, 0x30)
            .outputs(0x042)
            .ticking(49, 0x042)
            .ticking(50, 0)
            .ticking(50, 0x042)
            .ticking(50, 0)
            .ticking(50, 0x042),
        in_states("Removal Requested and Inserted", 0x30, 0x10).ticking(49, 0x024).ticking(50, 0).ticking(50, 0x024),
        in_states("Enabled is steady, Removal Allowed dark", 0x20, 0x40).ticking(250, 0x040),
        second("Empty over a device is dark").words(&[R]).ticking(250, 0),
        // The phase is 10 as the wait begins, and it is over in tick 170.
        second("found, and not yet seen")
            .words(&[N])
            .words(&w(0xFC, 0x40))
            .words(&w(0x10, 0x04))
            .words(&hold(0xBF, 9))
            .outputs(0)
            .ticking(40, 0x040)
            .ticking(50, 0)
            .ticking(50, 0x040)
            .ticking(20, 0)
            .reads(0x14, 0x00)
            .ticking(30, 0x001)
            .reads(0x14, 0x15)
            .ticking(1, 0x041),
        second("found, and not yet seen, in bay 1")
            .words(&[N])
            .words(&w(0xFC, 0x40))
            .words(&w(0x18, 0x04))
            .words(&hold(0xFB, 9))
            .outputs(0)
            .ticking(40, 0x004)
            .ticking(50, 0),
        second("found, where nobody is told")
            .words(&[N])
            .words(&w(0xFC, 0x40))
            .words(&w(0x10, 0x0A))
            .words(&hold(0xBF, 9))
            .ticking(160, 0),
    ]
}

fn power_and_interrupt() -> Vec<Story> {
    let both = |name: &str| second(name).words(&[reset(0, 0xBB)]);
    let pressed = |name: &str| both(name).words(&hold(0x99, 5)).words(&w(0x14, 0x04)).words(&w(0x20, 0x04));
    vec![
        both("power and lock of bay 0").words(&w(0x10, 0x81)).outputs(0x180),
        both("power and lock of bay 1").words(&w(0x18, 0x81)).outputs(0x018),
        both("DEVSTSCHG without its enable").words(&w(0x18, 0x4A)).outputs(0),
        both("DEVSTSCHG with its enable").words(&w(0x18, 0x44)).outputs(0x001).words(&w(0x20, 0x04)).outputs(0),
        pressed("REMREQ_STS without its enable").words(&w(0x18, 0x46)).outputs(0),
        pressed("REMREQ_STS with its enable")
            .words(&w(0x18, 0x48))
            .outputs(0x001)
            .words(&ticks(20))
            .outputs(0x001)
            .words(&w(0x18, 0x40))
            .outputs(0),
    ]
}

pub fn stories() -> Vec<Story> {
    pulses().chain(locks()).chain(lamps()).chain(power_and_interrupt()).collect()
}
