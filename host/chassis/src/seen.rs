//! Which situations a call came to, seen from the bytes and the library's answers, not from the model.

use crate::alone::{has_open_read, is_for_one, is_started, outputs, refusal, Told};
use crate::lists::is_of_right_length;
use crate::reasons::Reason::{self, *};
use crate::reasons::REASONS;
use crate::situations::Situation::{self, *};
use dock::{ffi, STATE_BYTES};
use model::CHASSIS_RECORDS;

const STARTED: usize = 1;
const KIND: usize = 2;
const STRAPS: usize = 41;
const PROGRESS: usize = 71;

const BYTE: u16 = 2;
const TAKE: u16 = 3;
const PINS: u16 = 4;
const RESET: u16 = 6;
const SHORT_PULSE: u16 = 1 << 12;

/// What can be seen of one record before a call.
struct Record<'a> {
    image: &'a [u8],
    is_fit: bool,
    is_started: bool,
    has_open_read: bool,
}

impl Record<'_> {
    fn of(image: &[u8]) -> Record<'_> {
        let is_fit = ffi::outputs(image) >> 16 == 0;
        let is_started = is_fit && is_started(image);
        Record { image, is_fit, is_started, has_open_read: is_started && has_open_read(image) }
    }

    fn address(&self) -> u8 {
        self.image[STRAPS] >> 2
    }

    /// Whether a read stands in its bytes, one of the kind in force or not.
    fn shows_read(&self) -> bool {
        matches!(self.image[PROGRESS], 6 | 8)
    }
}

/// One call with what its records were.
struct Seen<'a> {
    told: &'a Told<'a>,
    records: Vec<Record<'a>>,
    kind: u16,
}

/// The situations of one call.
pub fn of(told: &Told) -> Vec<Situation> {
    let records = told.before.chunks_exact(STATE_BYTES).map(Record::of).collect();
    let seen = Seen { told, records, kind: told.word >> 13 };
    if refusal(told.answer) == 0 {
        seen.accepted()
    } else {
        seen.refused()
    }
}

impl Seen<'_> {
    fn started(&self) -> impl Iterator<Item = &Record<'_>> {
        self.records.iter().filter(|record| record.is_started)
    }

    fn neighbours(&self) -> impl Iterator<Item = &Record<'_>> {
        let named = self.told.record;
        (0..).zip(&self.records).filter(move |&(number, _)| number != named).map(|(_, record)| record)
    }

    fn named(&self) -> Option<&Record<'_>> {
        usize::try_from(self.told.record).ok().and_then(|place| self.records.get(place))
    }

    fn holds(&self, reason: Reason) -> bool {
        let Told { before, word, .. } = *self.told;
        let none_started = self.started().next().is_none();
        match reason {
            Length => !is_of_right_length(before),
            Unfit => self.records.iter().any(|record| !record.is_fit),
            OneAddress => {
                let with = |address| self.started().filter(|record| record.address() == address).count();
                (0..4).any(|address| with(address) > 1)
            }
            TwoReads => self.started().filter(|record| record.has_open_read).count() > 1,
            StrayBit => ffi::unpack(word) >> 16 & 0xFF != 0,
            Absent => is_for_one(word) && self.named().is_none(),
            NotStarted if self.kind == PINS => self.named().map_or(none_started, |record| !record.is_started),
            NotStarted => self.kind != RESET && none_started,
            TakenAddress => self.kind == RESET && self.neighbours().any(|one| one.is_started && self.asks_for(one)),
        }
    }

    /// Whether a RESET asks for the address of this record.
    fn asks_for(&self, record: &Record) -> bool {
        u16::from(record.address()) == self.told.word >> 10 & 3
    }

    fn refused(&self) -> Vec<Situation> {
        let reasons: Vec<_> = REASONS.into_iter().filter(|&reason| self.holds(reason)).collect();
        let number = refusal(self.told.answer);
        let given = reasons.iter().filter(|reason| reason.number() == number);
        let mut all = Vec::new();
        for &first in given {
            let later = first.later().iter().filter(|later| reasons.contains(later));
            all.extend(later.map(|&later| Before(first, later)));
        }
        if let [only] = reasons[..] {
            all.push(Refused(only));
            all.extend(self.refused_for(only));
        }
        all
    }

    fn refused_for(&self, only: Reason) -> Option<Situation> {
        let record = self.told.record;
        match only {
            NotStarted => (self.kind == PINS && self.started().next().is_some()).then_some(PinsNotStarted),
            Absent if record == self.records.len() as u64 => Some(AbsentByLength),
            Absent if record == u64::MAX => Some(AbsentByAll),
            Absent if record >> 32 != 0 => ((record as u32 as usize) < self.records.len()).then_some(AbsentByLowHalf),
            Absent => ((record as u8 as usize) < self.records.len()).then_some(AbsentByLowByte),
            _ => None,
        }
    }

    fn accepted(&self) -> Vec<Situation> {
        let mut all = vec![Accepted(self.kind, self.records.len())];
        let kinds = |kind| self.started().any(|record| record.image[KIND] == kind);
        let several = self.started().count() > 1;
        all.extend((kinds(0) && kinds(1)).then_some(Mixed(self.kind)));
        if is_for_one(self.told.word) {
            all.extend(self.for_one());
        } else {
            all.extend(self.records.iter().any(|record| !record.is_started).then_some(PassedOver(self.kind)));
            all.extend((self.told.record >= CHASSIS_RECORDS as u64).then_some(NumberNotLookedAt(self.kind)));
        }
        match self.kind {
            BYTE if several => all.push(self.acked()),
            TAKE if several => all.push(self.driven()),
            _ => {}
        }
        all.extend(self.not_counted());
        all.extend(self.outputs());
        all
    }

    fn for_one(&self) -> Vec<Situation> {
        let place = self.told.record as usize;
        let has_neighbour = self.neighbours().any(|one| one.is_started);
        let named = &self.records[place];
        let word = self.told.word;
        let mut all = Vec::new();
        if self.kind == PINS {
            all.extend(has_neighbour.then_some(Pins(place)));
        } else {
            let not_started = self.neighbours().any(|one| !one.is_started && self.asks_for(one));
            all.extend(has_neighbour.then_some(Reset(place)));
            all.extend((named.is_started && self.asks_for(named)).then_some(SameAddress(place)));
            all.extend(not_started.then_some(AddressOfNotStarted));
            all.push(if word & SHORT_PULSE != 0 { ShortPulse } else { LongPulse });
        }
        all
    }

    /// The record that each started record's own step answers, with the place.
    fn steps(&self) -> impl Iterator<Item = (usize, u32)> + '_ {
        let step = |image: &[u8]| ffi::step(&mut image.to_vec(), self.told.word);
        let started = self.records.iter().enumerate().filter(|(_, record)| record.is_started);
        started.map(move |(place, record)| (place, step(record.image)))
    }

    fn acked(&self) -> Situation {
        let places: Vec<_> = self.steps().filter(|(_, answer)| answer >> 25 == 1).map(|(place, _)| place).collect();
        match places[..] {
            [] => NotAcked,
            [place] => Acked(place),
            _ => AckedBySeveral,
        }
    }

    fn driven(&self) -> Situation {
        let driving = self.steps().find(|(_, answer)| answer >> 25 == 3);
        driving
            .map_or(NotDriven, |(place, _)| Driven(place, self.records[place].image[KIND] + 1, self.told.word & 1 == 1))
    }

    /// What does not count of records that are not started, or are of the other kind.
    fn not_counted(&self) -> Vec<Situation> {
        let mut all = Vec::new();
        let reads = self.started().any(|record| record.has_open_read);
        for record in &self.records {
            if !record.is_started {
                let is_twin = self.started().any(|other| other.address() == record.address());
                all.extend(is_twin.then_some(TwinNotStarted));
                all.extend((reads && record.shows_read()).then_some(ReaderNotStarted));
            } else if record.shows_read() && !record.has_open_read {
                all.extend(reads.then_some(ReadOfOtherKind));
            }
        }
        all
    }

    fn outputs(&self) -> Vec<Situation> {
        let sets: Vec<_> = (0..self.records.len()).map(|place| outputs(self.told.answer, place)).collect();
        let driving = sets.iter().filter(|&&set| set != 0).count();
        let all_different = sets.iter().enumerate().all(|(place, set)| !sets[..place].contains(set));
        let another = (0..).zip(&sets).any(|(number, &set)| number != self.told.record && set != 0);
        let mut all = Vec::new();
        all.extend((driving > 0).then_some(Outputs(driving)));
        all.extend((driving == CHASSIS_RECORDS && all_different).then_some(OutputsAllDifferent));
        all.extend((is_for_one(self.told.word) && another).then_some(OutputsOfAnother));
        all.extend(self.records.iter().any(would_drive).then_some(OutputsNotStarted));
        all
    }
}

/// Not started, with bits of LOCK_CTL or PWR_CTL set, which a started one would show.
fn would_drive(record: &Record) -> bool {
    let mut image = record.image.to_vec();
    image[STARTED] = 1;
    !record.is_started && ffi::outputs(&image) & 0x1FF != 0
}
