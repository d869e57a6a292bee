//! A controller as 74 bytes, and back. Every fit state has one image, and no other bytes give it.
//!
//! In order: the version of the layout; the flags, each 0 or 1, of the controller and of either bay; the numbers, of
//! the controller and of either bay; the command in progress with the two bytes that it may hold, 0 where it has none.
//! Both ways go through the bytes from the first to the last, so that no place is counted out by hand.

use crate::bay::{Bay, Control, State, DEBOUNCED, NSL};
use crate::bus::Command;
use crate::second::{Once, Registers};
use crate::{Controller, Kind};
use std::ops::Range;

/// The length of an image.
pub const STATE_BYTES: usize = 74;

const VERSION: u8 = 4;

/// The flags, and the command in progress.
const FLAGS: Range<usize> = 1..41;
const PROGRESS: Range<usize> = 71..STATE_BYTES;

/// The last of each number that the paper calls fit, in both kinds; that of a debounce count follows from its input.
/// Any byte is a wait in 42h, one of 08h to 0Bh, or SFR.
const MOST_STRAPS: u8 = 15;
const MOST_BAY_COUNT: u8 = 3;
const MOST_LOCK_TIME: u8 = 3;
const MOST_PHASE: u8 = 199;
const MOST_FORM_FACTOR: u8 = 7;
const MOST_REQUEST: u8 = 4;

/// The last of what the kinds have in different ranges: a bay's pulse and its wait, in ticks.
struct MostTicks {
    pulse: u16,
    wait: u16,
}

fn most_ticks(kind: Kind) -> MostTicks {
    match kind {
        Kind::First => MostTicks { pulse: 200, wait: 255 },
        Kind::Second => MostTicks { pulse: 1200, wait: 560 },
    }
}

impl Controller {
    pub fn image(&self) -> [u8; STATE_BYTES] {
        let mut image = Writer { bytes: [0; STATE_BYTES], next: 0 };
        let Registers { subsystem, features, form_factors } = self.second;
        image.put(VERSION);
        image.flags(&[self.started, self.kind == Kind::Second, self.named == Kind::Second]);
        image.flags(&[self.capabilities_written, self.security_lock]);
        image.flags(&subsystem.map(|byte| byte.written));
        image.flags(&form_factors.map(|byte| byte.written));
        image.flags(&[features.written]);
        self.bays.iter().for_each(|bay| image.bay_flags(bay));
        image.numbers(&[self.straps, self.bay_count, self.lock_time, self.wait_time, self.phase]);
        image.numbers(&subsystem.map(|byte| byte.value));
        image.numbers(&form_factors.map(|byte| byte.value));
        image.numbers(&[features.value]);
        self.bays.iter().for_each(|bay| image.bay_numbers(bay));
        image.numbers(&progress(self.command));
        image.bytes
    }

    /// The controller that has this image; none where the bytes are no image, or that of a state that is not fit.
    pub fn from_image(bytes: &[u8]) -> Option<Controller> {
        if !is_image(bytes) {
            return None;
        }
        let mut image = Reader { bytes, next: FLAGS.start };
        let started = image.flag();
        let [kind, named] = [image.kind(), image.kind()];
        let [capabilities_written, security_lock] = [image.flag(), image.flag()];
        let mut second = Registers::default();
        image.written(&mut second.subsystem);
        image.written(&mut second.form_factors);
        second.features.written = image.flag();
        let mut bays = [image.bay_flags(), image.bay_flags()];
        let straps = image.number(MOST_STRAPS)?;
        let bay_count = image.number(MOST_BAY_COUNT)?;
        let lock_time = image.number(MOST_LOCK_TIME)?;
        let wait_time = image.take();
        let phase = image.number(MOST_PHASE)?;
        for byte in &mut second.subsystem {
            byte.value = image.take();
        }
        for byte in &mut second.form_factors {
            byte.value = image.number(MOST_FORM_FACTOR)?;
        }
        second.features.value = image.take();
        for bay in &mut bays {
            image.bay_numbers(bay, most_ticks(kind))?;
        }
        let command = command([image.take(), image.take(), image.take()])?;
        Some(Controller {
            started,
            kind,
            named,
            straps,
            command,
            security_lock,
            bay_count,
            capabilities_written,
            lock_time,
            wait_time,
            second,
            phase,
            bays,
        })
    }
}

/// Whether the bytes are the image of a state, fit or not.
pub fn is_image(bytes: &[u8]) -> bool {
    bytes.len() == STATE_BYTES
        && bytes[0] == VERSION
        && bytes[FLAGS].iter().all(|&flag| flag <= 1)
        && matches!(bytes[PROGRESS], [number, first, second] if command([number, first, second]).is_some())
}

/// The command's number and its bytes.
fn progress(command: Command) -> [u8; 3] {
    match command {
        Command::Idle => [0, 0, 0],
        Command::Opened => [1, 0, 0],
        Command::Addressed => [2, 0, 0],
        Command::Register(register) => [3, register, 0],
        Command::Data { register, value } => [4, register, value],
        Command::Restarted(register) => [5, register, 0],
        Command::Driving(value) => [6, value, 0],
        Command::Writing(register) => [7, register, 0],
        Command::Reading { register, value } => [8, register, value],
    }
}

/// The command that has this number and these bytes, whichever kind it is of.
fn command(progress: [u8; 3]) -> Option<Command> {
    Some(match progress {
        [0, 0, 0] => Command::Idle,
        [1, 0, 0] => Command::Opened,
        [2, 0, 0] => Command::Addressed,
        [3, register, 0] => Command::Register(register),
        [4, register, value] => Command::Data { register, value },
        [5, register, 0] => Command::Restarted(register),
        [6, value, 0] => Command::Driving(value),
        [7, register, 0] => Command::Writing(register),
        [8, register, value] => Command::Reading { register, value },
        _ => return None,
    })
}

struct Writer {
    bytes: [u8; STATE_BYTES],
    next: usize,
}

impl Writer {
    fn put(&mut self, byte: u8) {
        self.bytes[self.next] = byte;
        self.next += 1;
    }

    fn numbers(&mut self, numbers: &[u8]) {
        numbers.iter().for_each(|&number| self.put(number));
    }

    fn flags(&mut self, flags: &[bool]) {
        flags.iter().for_each(|&flag| self.put(u8::from(flag)));
    }

    fn bay_flags(&mut self, bay: &Bay) {
        self.flags(&DEBOUNCED.map(|input| bay.levels & input.bit != 0));
        self.flags(&DEBOUNCED.map(|input| bay.accepted & input.bit != 0));
        let control = bay.control;
        self.flags(&[bay.levels & NSL != 0, bay.remreq_status, bay.devstschg, control.lock]);
        self.flags(&[control.remreq_enable, control.devstschg_enable, control.remevtwak_enable, control.power]);
    }

    fn bay_numbers(&mut self, bay: &Bay) {
        self.numbers(&bay.counts);
        self.numbers(&[bay.state as u8, bay.request]);
        self.numbers(&bay.pulse.to_be_bytes());
        self.numbers(&bay.wait.to_be_bytes());
    }
}

/// Over bytes that are an image.
struct Reader<'a> {
    bytes: &'a [u8],
    next: usize,
}

impl Reader<'_> {
    fn take(&mut self) -> u8 {
        let byte = self.bytes[self.next];
        self.next += 1;
        byte
    }

    fn flag(&mut self) -> bool {
        self.take() == 1
    }

    fn kind(&mut self) -> Kind {
        if self.flag() {
            Kind::Second
        } else {
            Kind::First
        }
    }

    fn written(&mut self, bytes: &mut [Once]) {
        bytes.iter_mut().for_each(|byte| byte.written = self.flag());
    }

    fn number(&mut self, most: u8) -> Option<u8> {
        Some(self.take()).filter(|&number| number <= most)
    }

    /// Two bytes, the high one first.
    fn ticks(&mut self, most: u16) -> Option<u16> {
        Some(u16::from_be_bytes([self.take(), self.take()])).filter(|&ticks| ticks <= most)
    }

    fn levels(&mut self) -> u8 {
        DEBOUNCED.iter().fold(0, |levels, input| if self.flag() { levels | input.bit } else { levels })
    }

    /// A bay with its flags read, and its numbers not yet.
    fn bay_flags(&mut self) -> Bay {
        let mut bay = Bay::empty();
        bay.levels = self.levels();
        bay.accepted = self.levels();
        if self.flag() {
            bay.levels |= NSL;
        }
        bay.remreq_status = self.flag();
        bay.devstschg = self.flag();
        bay.control = Control {
            lock: self.flag(),
            remreq_enable: self.flag(),
            devstschg_enable: self.flag(),
            remevtwak_enable: self.flag(),
            power: self.flag(),
        };
        bay
    }

    fn bay_numbers(&mut self, bay: &mut Bay, most: MostTicks) -> Option<()> {
        for (count, input) in bay.counts.iter_mut().zip(DEBOUNCED) {
            *count = self.number(input.ticks - 1)?;
        }
        bay.state = State::of_number(self.take())?;
        bay.request = self.number(MOST_REQUEST)?;
        bay.pulse = self.ticks(most.pulse)?;
        bay.wait = self.ticks(most.wait)?;
        Some(())
    }
}
