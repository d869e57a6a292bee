//! Devices that wait before they are Inserted, or seen at all, and what happens to them meanwhile. Words come without
//! anything between, so that things fall into the ticks that they are meant for.

use super::map::{CAPABILITIES, FEATURES, WAIT};
use super::{Writer, BOTH, BUTTON, BUTTON_TICKS, PRESENCE, PRESENCE_TICKS};
use model::Kind;
use paper::words::TICK;

/// All inputs but nSL, which none of this is about.
const DEBOUNCED: u8 = 0xEE;

/// BCER with DEVSTSCHG_EN, and often with REMREQ_EN, by which a press could move the bay; and without DEVSTSCHG_EN.
const TOLD: [u8; 6] = [0x04, 0x04, 0x0C, 0x0C, 0x06, 0x8D];
const UNTOLD: [u8; 3] = [0x00, 0x08, 0x80];

/// ITO's unit in ticks.
const TIMEOUT_TICKS: usize = 80;

/// Where something is not to happen.
const NEVER: usize = usize::MAX;

/// A count by its ticks, from 0 on. Ten go by before the first that lowers it: the last of the ten accepts the device,
/// or DEVSTSCHG_EN is written after it.
struct Plan {
    bay: usize,
    wait: usize,
    /// The host is told of devices before this one comes.
    told: bool,
    /// The device comes before tick 0; else it is there already.
    arrives: bool,
    /// The levels of the device.
    device: u8,
    /// An input changes before this tick, by these levels.
    changes_at: usize,
    changed: u8,
    /// The driver does something before this tick.
    acts_at: usize,
    /// A device comes into the other bay, or goes, before this tick.
    other_at: usize,
}

impl Writer<'_> {
    /// A device waits, from its arrival or in the first kind from the enable over it, until its count has ended or a
    /// little longer.
    pub(super) fn seat_slowly(&mut self) {
        let plan = self.plan();
        self.prepare(&plan);
        let more = self.random.below(3);
        for tick in 0..PRESENCE_TICKS + plan.wait + more {
            self.before_tick(&plan, tick);
            self.put(TICK);
        }
        if self.kind() == Kind::First && self.random.one_in(2) {
            self.quietly(WAIT, 0);
        }
    }

    fn plan(&mut self) -> Plan {
        let bay = self.random.below(2);
        let wait = match self.kind() {
            Kind::First => self.wait_time().into(),
            Kind::Second => TIMEOUT_TICKS * self.timeout(),
        };
        let told = self.random.one_in(2);
        let arrives = told || self.kind() == Kind::Second;
        let device = self.random.pick(&PRESENCE) >> (4 * bay);
        let (changed, changes_at) = self.change(bay, device, wait, arrives);
        let end = PRESENCE_TICKS + wait;
        let acts_at = if self.random.one_in(4) { NEVER } else { self.random.between(PRESENCE_TICKS, end) };
        let other_at = if self.random.one_in(3) { self.random.below(end) } else { NEVER };
        Plan { bay, wait, told, arrives, device, changes_at, changed, acts_at, other_at }
    }

    /// ITO as it is, or mostly the shortest.
    fn timeout(&mut self) -> usize {
        let there = self.timeout_there();
        if there > 0 && self.random.one_in(2) {
            return there;
        }
        let any = self.random.between(3, 7);
        self.random.pick(&[1, 1, 1, 1, 1, 1, 1, 1, 1, 2, 2, any])
    }

    fn timeout_there(&self) -> usize {
        usize::from(self.dock.reading(FEATURES) >> 5)
    }

    /// A press, a removal or one presence bit, so that its level is accepted in the count's last tick or in the one
    /// before or after, or anywhere in it; a removal can't begin before the device has arrived.
    fn change(&mut self, bay: usize, device: u8, wait: usize, arrives: bool) -> (u8, usize) {
        let bit = self.random.pick(&[0x80, 0x40]) >> (4 * bay);
        let (changed, takes) = match self.random.below(4) {
            0 => return (0, NEVER),
            1 => (device, PRESENCE_TICKS),
            2 => (bit, PRESENCE_TICKS),
            _ => (BUTTON >> (4 * bay), BUTTON_TICKS),
        };
        let last = PRESENCE_TICKS + wait - 1 + self.random.pick(&[0, 1, 1, 2]);
        let anywhere = self.random.between(PRESENCE_TICKS, last.max(PRESENCE_TICKS));
        let accepted = if self.random.one_in(4) { anywhere } else { last };
        let soonest = if arrives && changed & device != 0 { PRESENCE_TICKS } else { 0 };
        (changed, accepted.saturating_sub(takes).max(soonest))
    }

    /// Both bays without devices and their buttons up, the other one told of devices or not; where the enable is to
    /// begin the count, the device is there and nobody hears of it.
    fn prepare(&mut self, plan: &Plan) {
        let other = 1 - plan.bay;
        self.clear_inputs(plan);
        let control = if plan.told { self.random.pick(&TOLD) } else { self.random.pick(&UNTOLD) };
        self.quietly(self.map().controls[plan.bay], control);
        let of_other = self.random.pick(&[0x00, 0x04, 0x0C]);
        self.quietly(self.map().controls[other], of_other);
        if !plan.arrives {
            self.store_levels(self.levels & !plan.device);
            self.run(PRESENCE_TICKS);
        }
        if !self.random.one_in(4) {
            self.quietly(self.map().statuses[plan.bay], 0x0C);
        }
        if self.kind() == Kind::First {
            self.quietly(WAIT, plan.wait as u8);
        }
    }

    /// By ticks, or where SFR has to be written anew by a RESET.
    fn clear_inputs(&mut self, plan: &Plan) {
        let levels = self.levels | DEBOUNCED;
        if self.kind() == Kind::First || plan.wait == TIMEOUT_TICKS * self.timeout_there() {
            self.store_levels(levels);
            return self.run(PRESENCE_TICKS);
        }
        self.reset_into_the_same(levels);
        let features = (plan.wait / TIMEOUT_TICKS) as u8 * 0x20 | self.features() & 0x1F;
        self.quietly(FEATURES, features);
    }

    fn before_tick(&mut self, plan: &Plan, tick: usize) {
        if tick == 0 && plan.arrives {
            self.store_levels(self.levels & !plan.device);
        }
        if tick == PRESENCE_TICKS && plan.told && self.random.one_in(3) {
            // The driver has seen it: what is told from here on is told again.
            self.quietly(self.map().statuses[plan.bay], 0x04);
        }
        if tick == PRESENCE_TICKS && !plan.told && (self.kind() == Kind::First || self.random.one_in(2)) {
            // Now and then with a request, and then the first kind has no count.
            let request = if self.random.one_in(8) { self.random.below(8) as u8 } else { 0 };
            let told = self.random.pick(&TOLD);
            self.quietly(self.map().controls[plan.bay], request << 4 | told);
        }
        if tick == plan.changes_at {
            self.store_levels(self.levels ^ plan.changed);
        }
        if tick == plan.acts_at {
            self.act(plan);
        }
        if tick == plan.other_at {
            let device = self.random.pick(&PRESENCE) >> (4 * (1 - plan.bay));
            self.store_levels(self.levels ^ device);
        }
    }

    /// What ends a count, and what must not.
    fn act(&mut self, plan: &Plan) {
        let control = self.map().controls[plan.bay];
        let told = self.random.pick(&TOLD);
        match self.random.below(16) {
            0 => {
                let untold = self.random.pick(&UNTOLD);
                self.quietly(control, untold);
            }
            1 | 2 => {
                let request = self.random.between(1, 7) as u8;
                self.quietly(control, request << 4 | told);
            }
            3..=5 => self.quietly(control, told),
            6 => {
                let cleared = self.random.pick(&[0x04, 0x08, 0x0C, 0xF3]);
                self.quietly(self.map().statuses[plan.bay], cleared);
            }
            7..=9 => self.write_wait(),
            10..=12 => {
                let count = self.random.pick(&[0x01, 0x01, 0x02]);
                self.quietly(CAPABILITIES, count);
            }
            13 | 14 => self.bounce(plan.bay),
            _ => {
                let reset = self.reset_word_here();
                self.put(reset);
            }
        }
    }

    /// A new value where the wait comes from, which leaves a running count alone; SFR doesn't even take it.
    fn write_wait(&mut self) {
        match self.kind() {
            Kind::First => {
                let wait = self.wait_time();
                self.quietly(WAIT, wait);
            }
            Kind::Second => {
                let features = self.features();
                self.quietly(FEATURES, features);
            }
        }
    }

    /// The device is gone for less time than it takes.
    fn bounce(&mut self, bay: usize) {
        let before = self.levels;
        self.store_levels(before | BOTH >> (4 * bay));
        self.ticks(&[0, 1, PRESENCE_TICKS - 1]);
        self.store_levels(before);
    }
}
