//! A controller that the program holds.

use crate::answer::{byte, held, value};
use crate::{check_library, ffi, Error, Event, Record, Refusal, Step, STATE_BYTES};
use crate::{Bay, Kind, Outputs, Register, SecondRegister, Status};

/// Where an image has its flags for the second kind: in force, and named.
const KIND: usize = 2;
const NAMED: usize = 3;

/// A controller, held as the image of its state: [`STATE_BYTES`] bytes that can be kept anywhere and put back.
///
/// The image is always one of a fit state, since it begins with the library's own or with one that the library took.
///
/// ```
/// use dock::{Bay, Dock, Event, Register};
///
/// let mut dock = Dock::new()?;
/// dock.event(Event::Reset { straps: 0, levels: 0xBF, short_pulse: false })?; // a USB device in bay 0
/// for event in dock::write(0x90, Register::control(Bay::Zero), 0x04) {
///     dock.event(event)?;
/// }
/// let kept = *dock.bytes(); // into flash, say
///
/// let mut again = Dock::from_bytes(&kept)?;
/// assert_eq!(again.status(Bay::Zero)?.to_string(), "15h, Inserted, device status changed, USB device present");
/// again.step(0xA000)?;
/// assert_ne!(again, dock);
/// # Ok::<(), dock::Error>(())
/// ```
#[derive(Clone, PartialEq, Eq, Debug)]
#[repr(transparent)]
pub struct Dock {
    image: [u8; STATE_BYTES],
}

impl Dock {
    /// A fresh controller, which waits for its first RESET.
    /// [`Error::OtherLibrary`] where the linked library is not the one that this crate was written for.
    pub fn new() -> Result<Dock, Error> {
        check_library()?;
        let mut dock = Dock { image: [0; STATE_BYTES] };
        value(ffi::begin(&mut dock.image))?;
        Ok(dock)
    }

    /// The controller that was kept as these bytes. Any bytes may come: what is no image of a fit state, by its length
    /// or by what it holds, is refused with [`Refusal::UnfitState`], and so is an image of an older layout, such as a
    /// library before 5.0 kept: then begin anew. A library that isn't this crate's is told as by [`Dock::new`].
    ///
    /// ```
    /// use dock::{Dock, Error, Refusal};
    ///
    /// let mut damaged = *Dock::new()?.bytes();
    /// damaged[1] = 0x5A;
    /// assert_eq!(Dock::from_bytes(&damaged), Err(Error::Refused(Refusal::UnfitState)));
    /// assert_eq!(Dock::from_bytes(&damaged[1..]), Err(Error::Refused(Refusal::UnfitState)));
    /// # Ok::<(), Error>(())
    /// ```
    pub fn from_bytes(bytes: &[u8]) -> Result<Dock, Error> {
        check_library()?;
        // The library is asked whether it takes the bytes; what they mean is known there alone.
        value(ffi::outputs(bytes))?;
        let image = bytes.try_into().map_err(|_| Refusal::UnfitState)?;
        Ok(Dock { image })
    }

    /// The image of the state.
    pub fn bytes(&self) -> &[u8; STATE_BYTES] {
        &self.image
    }

    /// One event word. A word that is refused changes nothing: [`Refusal::StrayBit`] where a bit is set that must be 0,
    /// [`Refusal::NotStarted`] before the first RESET.
    pub fn step(&mut self, word: u16) -> Result<Step, Error> {
        let record = Record::try_from(ffi::step(&mut self.image, word))?;
        Ok(record.step()?)
    }

    /// One event; refused as its word would be, and with [`Refusal::WideStraps`] where it has none.
    pub fn event(&mut self, event: Event) -> Result<Step, Error> {
        self.step(u16::try_from(event)?)
    }

    /// Many event words. A record of [`RECORD_BYTES`](crate::RECORD_BYTES) is written for each, in order, at the front
    /// of the bytes lent; [`records`](crate::records) reads them. Gives the count of records. Bytes past the last one
    /// are not touched. A word that is refused has a record that says so, and the batch goes on.
    ///
    /// A refused batch changes and writes nothing: [`Refusal::TooManyWords`] above
    /// [`MOST_WORDS`](crate::MOST_WORDS) words, else [`Refusal::ShortAnswers`] where there is no room for all records.
    ///
    /// ```
    /// use dock::{Dock, Reply};
    ///
    /// let mut dock = Dock::new()?;
    /// let mut bytes = [0; 16];
    /// let count = dock.batch(&[0xC0FF, 0x0000, 0x4090], &mut bytes)?;
    /// assert_eq!(count, 3);
    /// let last = dock::records(&bytes[..4 * count]).last().unwrap()?;
    /// assert_eq!(last.reply, Reply::Ack);
    /// # Ok::<(), dock::Error>(())
    /// ```
    pub fn batch(&mut self, words: &[u16], records: &mut [u8]) -> Result<usize, Error> {
        Ok(value(ffi::batch(&mut self.image, words, records))?.into())
    }

    /// Names the kind of controller. It comes into force with the next RESET and stays for later ones; until then
    /// nothing changes, not even inside a transfer. It is no event, and is taken before the first RESET too.
    ///
    /// ```
    /// use dock::{Bay, Dock, Event, Kind, SecondRegister};
    ///
    /// let mut dock = Dock::new()?;
    /// dock.name_kind(Kind::Second)?;
    /// assert_eq!((dock.kind(), dock.named()), (Kind::First, Kind::Second));
    /// dock.event(Event::Reset { straps: 0, levels: 0xBF, short_pulse: false })?; // a USB device in bay 0
    /// assert_eq!(dock.kind(), Kind::Second);
    /// for event in dock::write(0x90, SecondRegister::control(Bay::Zero), 0x04) {
    ///     dock.event(event)?;
    /// }
    /// assert_eq!(dock.status(Bay::Zero)?.to_string(), "15h, Inserted, device status changed, USB device present");
    /// # Ok::<(), dock::Error>(())
    /// ```
    pub fn name_kind(&mut self, kind: Kind) -> Result<(), Error> {
        self.name_kind_number(kind.into())
    }

    /// The same by a number, such as a setting of the board's: 1 or 2, and else it is refused with
    /// [`Refusal::NoSuchKind`] and changes nothing.
    ///
    /// ```
    /// use dock::{Dock, Refusal};
    ///
    /// let mut dock = Dock::new()?;
    /// dock.name_kind_number(2)?;
    /// assert_eq!(dock.name_kind_number(3), Err(Refusal::NoSuchKind.into()));
    /// # Ok::<(), dock::Error>(())
    /// ```
    pub fn name_kind_number(&mut self, number: u8) -> Result<(), Error> {
        value(ffi::name_kind(&mut self.image, number)).map(|_| ())
    }

    /// The kind in force: the first before any RESET, and then the one that was named at the last.
    pub fn kind(&self) -> Kind {
        Kind::by_flag(self.image[KIND])
    }

    /// The kind that the next RESET puts in force.
    pub fn named(&self) -> Kind {
        Kind::by_flag(self.image[NAMED])
    }

    /// What the register at the address reads, outside the bus.
    pub fn reading(&self, address: u8) -> Result<u8, Error> {
        byte(ffi::reading(&self.image, address))
    }

    /// A bay's status register, taken apart; it has another address in each kind.
    pub fn status(&self, bay: Bay) -> Result<Status, Error> {
        let address = match self.kind() {
            Kind::First => Register::status(bay),
            Kind::Second => SecondRegister::status(bay),
        };
        Ok(Status::try_from(self.reading(address)?)?)
    }

    /// The nine outputs.
    pub fn outputs(&self) -> Result<Outputs, Error> {
        Ok(Outputs::try_from(value(ffi::outputs(&self.image))?)?)
    }

    /// The byte that an open read holds, which is the one that the next TAKE drives; `None` where no read is open. A
    /// read is open from the own read byte until the next bus event, TIMEOUT or RESET; in the second kind a TAKE that
    /// the host ACKs leaves it open, with the next byte. SDAT is driven from it before the TAKE is known.
    ///
    /// ```
    /// use dock::{Bay, Dock, Event, Register, Reply};
    ///
    /// let mut dock = Dock::new()?;
    /// dock.event(Event::Reset { straps: 0, levels: 0xBF, short_pulse: false })?; // a USB device in bay 0
    /// for event in dock::read(0x90, Register::status(Bay::Zero)) {
    ///     let held = dock.held_byte()?;
    ///     let reply = dock.event(event)?.reply;
    ///     assert_eq!(held, if reply == Reply::Driven(0x05) { Some(0x05) } else { None });
    /// }
    /// # Ok::<(), dock::Error>(())
    /// ```
    pub fn held_byte(&self) -> Result<Option<u8>, Error> {
        held(ffi::held_byte(&self.image))
    }
}

impl TryFrom<&[u8]> for Dock {
    type Error = Error;

    fn try_from(bytes: &[u8]) -> Result<Dock, Error> {
        Dock::from_bytes(bytes)
    }
}
