//! One to four controllers on one bus.

use crate::answer::chassis_step;
use crate::{check_library, ffi, ChassisStep, Dock, Error, Event, Refusal};

/// A word with a bit that must be 0, which every list refuses that is not refused for itself.
const STRAY: u16 = 0x0001;

/// One to [`CHASSIS_RECORDS`](crate::CHASSIS_RECORDS) controllers on one bus, each a [`Dock`] of its own and of either
/// kind. They are held here or lent: an array, a `Vec`, or a slice of docks that stand elsewhere.
///
/// START, STOP, BYTE, TAKE, TIMEOUT and TICK go to every one that has had a RESET; the others are passed over. PINS and
/// RESET go to one alone.
///
/// ```
/// use dock::{Bay, Chassis, Dock, Event, Kind, Register, Reply, SecondRegister};
///
/// let mut chassis = Chassis::new([Dock::new()?, Dock::new()?])?;
/// chassis.docks_mut()[1].name_kind(Kind::Second)?;
/// for (record, straps) in [(0, 0b0000), (1, 0b0100)] {
///     chassis.event(record, Event::Reset { straps, levels: 0xBF, short_pulse: false })?; // at 90h and at 92h
/// }
/// for event in dock::write(0x92, SecondRegister::control(Bay::Zero), 0x04) {
///     chassis.event(0, event)?; // the number is not looked at
/// }
/// for event in dock::read(0x90, Register::status(Bay::Zero)) {
///     let held = chassis.held_byte()?;
///     let step = chassis.event(0, event)?;
///     assert_eq!(held, if step.reply == Reply::Driven(0x05) { Some(0x05) } else { None });
///     assert!(step.outputs[1].interrupt() && !step.outputs[0].interrupt());
/// }
/// assert_eq!(chassis.docks()[1].status(Bay::Zero)?.bits(), 0x15);
/// # Ok::<(), dock::Error>(())
/// ```
#[derive(Clone, PartialEq, Eq, Debug)]
pub struct Chassis<D> {
    docks: D,
}

impl<D: AsRef<[Dock]> + AsMut<[Dock]>> Chassis<D> {
    /// The chassis of these docks, fresh ones or any others, in this order. [`Refusal::ChassisLength`] where there are
    /// none or more than four, [`Refusal::UnfitState`] where two that have had a RESET have one address or both have a
    /// read open. [`Error::OtherLibrary`] where the linked library is not the one that this crate was written for.
    ///
    /// ```
    /// use dock::{Chassis, Dock, Event, Refusal};
    ///
    /// let mut docks = vec![Dock::new()?; 5];
    /// assert_eq!(Chassis::new(&mut docks[..]), Err(Refusal::ChassisLength.into()));
    /// for dock in &mut docks {
    ///     dock.event(Event::Reset { straps: 0, levels: 0xFF, short_pulse: false })?;
    /// }
    /// assert_eq!(Chassis::new(&mut docks[..2]), Err(Refusal::UnfitState.into()));
    /// assert!(Chassis::new(&mut docks[..1]).is_ok());
    /// # Ok::<(), dock::Error>(())
    /// ```
    pub fn new(docks: D) -> Result<Chassis<D>, Error> {
        check_library()?;
        let mut chassis = Chassis { docks };
        // The library is asked whether it takes the list, by a word that it refuses only after the list.
        match chassis.step(0, STRAY) {
            Ok(_) | Err(Error::Refused(Refusal::StrayBit)) => Ok(chassis),
            Err(error) => Err(error),
        }
    }

    /// The controllers, each to be asked for itself.
    pub fn docks(&self) -> &[Dock] {
        self.docks.as_ref()
    }

    /// The same, to be named a kind or put back. What is done to one alone can leave a list that is refused, with two
    /// of one address for example; the next [`Chassis::step`] tells.
    pub fn docks_mut(&mut self) -> &mut [Dock] {
        self.docks.as_mut()
    }

    /// What the chassis was made of.
    pub fn into_docks(self) -> D {
        self.docks
    }

    /// One event word. A PINS or a RESET is for the controller with this number, counted from 0; with any other word
    /// the number is not looked at.
    ///
    /// A refused word changes nothing. In this order: [`Refusal::ChassisLength`] and [`Refusal::UnfitState`] as by
    /// [`Chassis::new`]; [`Refusal::StrayBit`] where a bit is set that must be 0; [`Refusal::AbsentRecord`] where a
    /// PINS or a RESET is for none in the list; [`Refusal::NotStarted`] where a PINS is for one that has had no RESET,
    /// or none has and the word is not one; [`Refusal::TakenAddress`] where a RESET would give the address of another
    /// that has had one.
    pub fn step(&mut self, record: usize, word: u16) -> Result<ChassisStep, Error> {
        chassis_step(ffi::chassis_step(ffi::images(self.docks_mut()), record as u64, word))
    }

    /// One event; refused as its word would be, and with [`Refusal::WideStraps`] where it has none.
    ///
    /// ```
    /// use dock::{Chassis, Dock, Event, Refusal};
    ///
    /// let mut chassis = Chassis::new([Dock::new()?, Dock::new()?])?;
    /// let reset = Event::Reset { straps: 0, levels: 0xFF, short_pulse: false };
    /// assert_eq!(chassis.event(0, Event::Tick), Err(Refusal::NotStarted.into()));
    /// chassis.event(0, reset)?;
    /// chassis.event(0, Event::Tick)?; // the other one is passed over
    /// assert_eq!(chassis.event(1, Event::Pins(0xBF)), Err(Refusal::NotStarted.into()));
    /// assert_eq!(chassis.event(1, reset), Err(Refusal::TakenAddress.into()));
    /// assert_eq!(chassis.event(2, reset), Err(Refusal::AbsentRecord.into()));
    /// # Ok::<(), dock::Error>(())
    /// ```
    pub fn event(&mut self, record: usize, event: Event) -> Result<ChassisStep, Error> {
        self.step(record, u16::try_from(event)?)
    }

    /// The byte that the next TAKE drives, from which SDAT is driven before the TAKE is known; `None` where no read is
    /// open. At most one controller of a list that is not refused holds a byte.
    pub fn held_byte(&self) -> Result<Option<u8>, Error> {
        for dock in self.docks() {
            if let Some(byte) = dock.held_byte()? {
                return Ok(Some(byte));
            }
        }
        Ok(None)
    }
}
