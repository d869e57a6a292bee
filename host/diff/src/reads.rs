//! Bytes that an open read holds, as rules on them differ: one that is told too long or not long enough, as none where it
//! is 00h, or read again at a tick.

use crate::image::{Image, DRIVING, READING};
use crate::situations::situations;
use model::{unpack, Event};

situations!(
    Reads,
    "held bytes",
    First: "in the first kind",
    Second: "in the second",
    Zero: "of 00h",
    Next: "after a TAKE with ACK",
    OverPins: "over pins",
    OverTick: "over a tick",
    Start: "ended by a START",
    Stop: "by a STOP",
    Byte: "by a BYTE",
    Take: "by a TAKE",
    Reset: "by a RESET",
    Timeout: "by a TIMEOUT",
);

fn held(image: Image) -> Option<u8> {
    match (image.is_second(), image.progress()) {
        (false, [DRIVING, value, _]) | (true, [READING, _, value]) => Some(value),
        _ => None,
    }
}

impl Reads {
    /// A word between these two images.
    pub fn count(&mut self, word: u16, before: Image, after: Image) {
        match (unpack(word), held(before), held(after)) {
            (Some(_), None, Some(value)) => self.begun(value, after),
            (Some(event), Some(_), Some(_)) => self.kept(event),
            (Some(event), Some(_), None) => self.ended(event),
            _ => {}
        }
    }

    fn begun(&mut self, value: u8, after: Image) {
        self.came(Came::First, !after.is_second());
        self.came(Came::Second, after.is_second());
        self.came(Came::Zero, value == 0);
    }

    fn kept(&mut self, event: Event) {
        self.came(Came::Next, matches!(event, Event::Take { .. }));
        self.came(Came::OverPins, matches!(event, Event::Pins(_)));
        self.came(Came::OverTick, event == Event::Tick);
    }

    fn ended(&mut self, event: Event) {
        self.came(Came::Start, event == Event::Start);
        self.came(Came::Stop, event == Event::Stop);
        self.came(Came::Byte, matches!(event, Event::Byte(_)));
        self.came(Came::Take, matches!(event, Event::Take { .. }));
        self.came(Came::Reset, matches!(event, Event::Reset { .. }));
        self.came(Came::Timeout, event == Event::Timeout);
    }
}
