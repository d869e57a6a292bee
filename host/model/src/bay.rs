//! One bay: its inputs with their debouncing, its state, its two registers and its four outputs.

/// The bits of a bay's four levels; 0 is asserted.
const N1394: u8 = 8;
const NUSB: u8 = 4;
const NREMREQ: u8 = 2;
pub(crate) const NSL: u8 = 1;

const PRESENCE: u8 = N1394 | NUSB;
const ANY_DEBOUNCED: u8 = PRESENCE | NREMREQ;

/// For so many ticks a level must differ from the accepted one, and is then accepted itself: a button is to feel quick.
const PRESENCE_TICKS: u8 = 10;
const BUTTON_TICKS: u8 = 5;

/// A debounced input: its bit among the levels, and its ticks. A count below them is fit.
#[derive(Clone, Copy)]
pub(crate) struct Input {
    pub(crate) bit: u8,
    pub(crate) ticks: u8,
}

pub(crate) const DEBOUNCED: [Input; 3] = [
    Input { bit: N1394, ticks: PRESENCE_TICKS },
    Input { bit: NUSB, ticks: PRESENCE_TICKS },
    Input { bit: NREMREQ, ticks: BUTTON_TICKS },
];

/// What the kind in force makes of a bay. The bay knows no more of the kinds than this, so that one bay serves both.
#[derive(Clone, Copy)]
pub(crate) struct Rules {
    /// The ticks that a device has to wait, 0 for none.
    pub(crate) wait: u16,
    /// Whether there is no device before its wait is over. Else there is, and only the bay is Inserted later.
    pub(crate) wait_hides: bool,
    /// The ticks of an unlocking pulse; 0 where there is none and the lock pin follows LOCK_CTL.
    pub(crate) pulse: u16,
    /// The lock pin's level within a pulse, and the other one outside.
    pub(crate) pulse_high: bool,
    /// Whether a lamp that flashes is lit.
    pub(crate) lit: bool,
    /// Whether BSTR shows nSL.
    pub(crate) shows_security_lock: bool,
}

#[derive(Clone, Copy, PartialEq, Eq, Debug)]
pub(crate) enum State {
    Empty,
    Inserted,
    Enabled,
    RemovalRequested,
    RemovalAllowed,
}

impl State {
    pub(crate) fn of_number(number: u8) -> Option<State> {
        match number {
            0 => Some(State::Empty),
            1 => Some(State::Inserted),
            2 => Some(State::Enabled),
            3 => Some(State::RemovalRequested),
            4 => Some(State::RemovalAllowed),
            _ => None,
        }
    }

    /// The state that a request asks for; 0 and 5 to 7 ask for none.
    fn requested(request: u8) -> Option<State> {
        State::of_number(request).filter(|&state| state != State::Empty)
    }

    /// Whether the removal button means anything here.
    pub(crate) fn takes_removal_request(self) -> bool {
        matches!(self, State::Inserted | State::Enabled)
    }
}

/// The control bits of BCER, apart from the request.
#[derive(Clone, Copy, Default, PartialEq, Eq, Debug)]
pub(crate) struct Control {
    pub(crate) lock: bool,
    pub(crate) remreq_enable: bool,
    pub(crate) devstschg_enable: bool,
    pub(crate) remevtwak_enable: bool,
    pub(crate) power: bool,
}

/// The accepted levels are of the three debounced inputs; nSL has none.
#[derive(Clone, PartialEq, Eq, Debug)]
pub struct Bay {
    pub(crate) levels: u8,
    pub(crate) accepted: u8,
    pub(crate) counts: [u8; DEBOUNCED.len()],
    pub(crate) state: State,
    pub(crate) remreq_status: bool,
    pub(crate) devstschg: bool,
    pub(crate) request: u8,
    pub(crate) control: Control,
    pub(crate) pulse: u16,
    /// The ticks until the bay is Inserted or its device is seen; 0 where no count runs.
    pub(crate) wait: u16,
}

impl Bay {
    /// A bay after RESET with these four levels, and LOCK_CTL as the straps make it.
    pub fn reset(levels: u8, lock: bool) -> Bay {
        let mut bay = Bay {
            levels,
            accepted: levels & ANY_DEBOUNCED,
            counts: [0; DEBOUNCED.len()],
            state: State::Empty,
            remreq_status: false,
            devstschg: false,
            request: 0,
            control: Control { lock, ..Control::default() },
            pulse: 0,
            wait: 0,
        };
        bay.devstschg = bay.contact();
        bay
    }

    /// A bay with nothing in it and nothing set: all levels high.
    pub fn empty() -> Bay {
        Bay::reset(0x0F, false)
    }

    /// Whether something is accepted as being in the bay, be it seen or not.
    fn contact(&self) -> bool {
        self.accepted & PRESENCE != PRESENCE
    }

    /// The bits of the presence inputs that show a device.
    fn shown(&self, rules: Rules) -> u8 {
        if rules.wait_hides && self.wait > 0 {
            0
        } else {
            !self.accepted & PRESENCE
        }
    }

    fn present(&self, rules: Rules) -> bool {
        self.shown(rules) != 0
    }

    /// New levels; an input that is back at its accepted level starts counting afresh.
    pub fn pins(&mut self, levels: u8) {
        self.levels = levels;
        for (count, input) in self.counts.iter_mut().zip(DEBOUNCED) {
            if (levels ^ self.accepted) & input.bit == 0 {
                *count = 0;
            }
        }
    }

    pub fn tick(&mut self, rules: Rules) {
        if (self.levels ^ self.accepted) & ANY_DEBOUNCED != 0 || self.wait > 0 {
            self.settle(rules);
        }
        self.pulse = self.pulse.saturating_sub(1);
    }

    /// One tick for inputs that differ from their accepted level and for a count that runs, and the move that may
    /// follow.
    fn settle(&mut self, rules: Rules) {
        let before = self.accepted;
        let was_shown = self.shown(rules);
        let was_present = self.present(rules);
        let had_contact = self.contact();
        self.debounce();
        if rules.wait_hides {
            self.wait_unseen(had_contact, rules.wait);
        }
        if self.shown(rules) != was_shown {
            self.tell_change(was_present && !self.present(rules));
        }
        let moved = self.seat(was_present, rules);
        let button_down = (self.accepted ^ before) & NREMREQ != 0 && self.accepted & NREMREQ == 0;
        if button_down && self.present(rules) {
            self.pressed(moved);
        }
    }

    fn debounce(&mut self) {
        let differing = self.levels ^ self.accepted;
        for (count, input) in self.counts.iter_mut().zip(DEBOUNCED) {
            if differing & input.bit == 0 {
                continue;
            }
            *count += 1;
            if *count == input.ticks {
                self.accepted ^= input.bit;
                *count = 0;
            }
        }
    }

    /// The wait of a device that nobody sees yet: new contact begins it, and lost contact ends it.
    fn wait_unseen(&mut self, had_contact: bool, ticks: u16) {
        if self.wait > 0 {
            self.wait = if self.contact() { self.wait - 1 } else { 0 };
        } else if self.contact() && !had_contact {
            self.wait = ticks;
        }
    }

    /// Either presence bit has changed.
    fn tell_change(&mut self, leaving: bool) {
        let silent = leaving && self.state == State::RemovalAllowed && !self.control.remevtwak_enable;
        if !silent {
            self.devstschg = true;
        }
    }

    /// A device leaves or comes, or else the count of one that is seen goes on. Says whether that gave the bay a state.
    fn seat(&mut self, was_present: bool, rules: Rules) -> bool {
        if was_present && !self.present(rules) {
            self.leave();
            return true;
        }
        let arriving = !was_present && self.present(rules);
        if arriving && self.control.devstschg_enable {
            return self.insert(rules);
        }
        !rules.wait_hides && self.wait_on()
    }

    fn leave(&mut self) {
        self.state = State::Empty;
        self.request = 0;
        self.control.power = false;
        self.wait = 0;
    }

    /// A device that the host is to hear of is Inserted at once, or after the wait that begins here; one that was unseen
    /// has waited already. Says whether that gave the bay a state.
    fn insert(&mut self, rules: Rules) -> bool {
        if rules.wait > 0 && !rules.wait_hides {
            self.wait = rules.wait;
            return false;
        }
        self.state = State::Inserted;
        true
    }

    /// A count that runs falls by one, and at 0 the bay is Inserted. Says whether it is.
    fn wait_on(&mut self) -> bool {
        if self.wait == 0 {
            return false;
        }
        self.wait -= 1;
        let over = self.wait == 0;
        if over {
            self.state = State::Inserted;
        }
        over
    }

    /// A press with a device in the bay, by this tick's presence. It counts as a request only if the last one was
    /// cleared and nothing moved the bay in this tick.
    fn pressed(&mut self, moved: bool) {
        let fresh = !self.remreq_status;
        self.remreq_status = true;
        if self.control.remreq_enable && fresh && !moved && self.state.takes_removal_request() {
            self.state = State::RemovalRequested;
        }
    }

    /// BSTR.
    pub fn status(&self, rules: Rules) -> u8 {
        let locked = rules.shows_security_lock && self.levels & NSL == 0;
        let has_1394 = self.shown(rules) & N1394 != 0;
        let has_usb = self.shown(rules) & NUSB != 0;
        u8::from(locked) << 7
            | (self.state as u8) << 4
            | u8::from(self.remreq_status) << 3
            | u8::from(self.devstschg) << 2
            | u8::from(has_1394) << 1
            | u8::from(has_usb)
    }

    /// Writing 1 to a sticky bit of BSTR clears it.
    pub fn write_status(&mut self, value: u8) {
        if value & 0x08 != 0 {
            self.remreq_status = false;
        }
        if value & 0x04 != 0 {
            self.devstschg = false;
        }
    }

    /// BCER.
    pub fn control(&self) -> u8 {
        u8::from(self.control.lock) << 7
            | self.request << 4
            | u8::from(self.control.remreq_enable) << 3
            | u8::from(self.control.devstschg_enable) << 2
            | u8::from(self.control.remevtwak_enable) << 1
            | u8::from(self.control.power)
    }

    /// A write to BCER. No write ends the wait of a device that nobody sees.
    pub fn write_control(&mut self, value: u8, rules: Rules) {
        let old = self.control;
        let lock = value & 0x80 != 0;
        self.control = Control {
            lock,
            remreq_enable: value & 0x08 != 0,
            devstschg_enable: value & 0x04 != 0,
            remevtwak_enable: value & 0x02 != 0,
            power: value & 0x01 != 0 && lock && self.present(rules),
        };
        let requested = State::requested(value >> 4 & 7);
        if let Some(state) = requested {
            self.request = state as u8;
        }
        self.written_move(requested, old, rules);
        if !self.control.devstschg_enable && !rules.wait_hides {
            self.wait = 0;
        }
        if old.lock && !lock && rules.pulse > 0 {
            self.pulse = rules.pulse;
        }
    }

    /// The one move of a BCER write: the first that applies. DEVSTSCHG_EN over a device may only begin the wait for its
    /// own.
    fn written_move(&mut self, requested: Option<State>, old: Control, rules: Rules) {
        let devstschg_rises = !old.devstschg_enable && self.control.devstschg_enable;
        let remreq_rises = !old.remreq_enable && self.control.remreq_enable;
        if let (Some(state), true) = (requested, self.present(rules)) {
            self.state = state;
            self.wait = 0;
        } else if devstschg_rises && self.state == State::Empty && self.present(rules) {
            self.insert(rules);
        } else if remreq_rises && self.remreq_status && self.state.takes_removal_request() {
            self.state = State::RemovalRequested;
        }
    }

    /// The lock goes as the solenoid is set up anew: power goes with it, and there is no pulse.
    pub fn unlock(&mut self) {
        self.control.lock = false;
        self.control.power = false;
        self.pulse = 0;
    }

    /// Power, lock pin, green and yellow, bits 3 to 0.
    pub fn outputs(&self, rules: Rules) -> u16 {
        let lock_pin = if rules.pulse > 0 { (self.pulse > 0) == rules.pulse_high } else { self.control.lock };
        let (green, yellow) = match self.state {
            State::Empty => (rules.lit && self.recognized(rules), false),
            State::Inserted => (rules.lit, false),
            State::Enabled => (true, false),
            State::RemovalRequested => (false, rules.lit),
            State::RemovalAllowed => (false, false),
        };
        u16::from(self.control.power) << 3 | u16::from(lock_pin) << 2 | u16::from(green) << 1 | u16::from(yellow)
    }

    /// Whether the user is to see that a device was found, though the host doesn't see it yet.
    fn recognized(&self, rules: Rules) -> bool {
        rules.wait_hides && self.wait > 0 && self.control.devstschg_enable
    }

    pub fn interrupts(&self) -> bool {
        self.remreq_status && self.control.remreq_enable || self.devstschg && self.control.devstschg_enable
    }
}
