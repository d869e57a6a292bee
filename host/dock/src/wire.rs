//! The wire cell, which listens where a processor has no bus cell.

use crate::answer::value;
use crate::{check_library, ffi, Error, Refusal, WIRE_BYTES};

/// The wire cell, held as the image of its state: [`WIRE_BYTES`] bytes that can be kept anywhere and put back.
///
/// It takes samples of the two bus lines, one every 2 microseconds, and gives the words of the events that they show:
/// START, STOP, BYTE, TAKE and TIMEOUT, each of which is for [`Dock::step`](crate::Dock::step). It only listens; who
/// drives SDAT does so from the dock's reply.
///
/// The image is always one of a fit state, since it begins with the library's own or with one that the library took.
///
/// ```
/// use dock::{Dock, Event, Reply, Wire, SCLK, SDAT};
///
/// let mut wire = Wire::new()?;
/// let mut words = [0; 40];
/// // From idle lines SDAT falls under a high SCLK; then the bits of 90h, each in the first high sample of SCLK.
/// let mut samples = vec![SCLK | SDAT, SCLK];
/// for bit in [SDAT, 0, 0, SDAT, 0, 0, 0, 0] {
///     samples.extend([0, bit, SCLK | bit, bit]);
/// }
/// let count = wire.listen(&samples, &mut words)?;
/// assert_eq!(words[..count], [0x0000, 0x4090]);
///
/// let mut dock = Dock::new()?;
/// dock.event(Event::Reset { straps: 0, levels: 0xFF, short_pulse: false })?;
/// assert_eq!(dock.step(words[0])?.reply, Reply::None);
/// assert_eq!(dock.step(words[1])?.reply, Reply::Ack); // SDAT is to be low in the ninth clock
/// # Ok::<(), dock::Error>(())
/// ```
#[derive(Clone, PartialEq, Eq, Debug)]
pub struct Wire {
    image: [u8; WIRE_BYTES],
}

impl Wire {
    /// A fresh one, whose lines are high and which waits for a START.
    /// [`Error::OtherLibrary`] where the linked library is not the one that this crate was written for.
    pub fn new() -> Result<Wire, Error> {
        check_library()?;
        let mut wire = Wire { image: [0; WIRE_BYTES] };
        value(ffi::wire_begin(&mut wire.image))?;
        Ok(wire)
    }

    /// The wire cell that was kept as these bytes. Any bytes may come: what is no image of a fit state, by its length or
    /// by what it holds, is refused with [`Refusal::UnfitState`]. A library that isn't this crate's is told as by
    /// [`Wire::new`].
    ///
    /// ```
    /// use dock::{Error, Refusal, Wire};
    ///
    /// let kept = *Wire::new()?.bytes();
    /// assert_eq!(Wire::from_bytes(&kept), Wire::new());
    /// assert_eq!(Wire::from_bytes(&kept[1..]), Err(Error::Refused(Refusal::UnfitState)));
    /// # Ok::<(), Error>(())
    /// ```
    pub fn from_bytes(bytes: &[u8]) -> Result<Wire, Error> {
        check_library()?;
        let image = bytes.try_into().map_err(|_| Refusal::UnfitState)?;
        let mut wire = Wire { image };
        // The library is asked whether it takes the bytes, with no samples, which change nothing.
        wire.listen(&[], &mut [])?;
        Ok(wire)
    }

    /// The image of the state.
    pub fn bytes(&self) -> &[u8; WIRE_BYTES] {
        &self.image
    }

    /// The samples one after the other, [`SCLK`](crate::SCLK) and [`SDAT`](crate::SDAT) of each; its other bits are
    /// ignored. Each word is written to the next of the places lent, and they are counted. Places past the last word are
    /// not touched. However samples are cut into calls, words and state are the same.
    ///
    /// A refused call changes and writes nothing: [`Refusal::TooManyWords`] above
    /// [`MOST_SAMPLES`](crate::MOST_SAMPLES) samples, else [`Refusal::ShortAnswers`] where there are fewer places than
    /// samples.
    ///
    /// ```
    /// use dock::{Refusal, Wire, SCLK, SDAT};
    ///
    /// let mut wire = Wire::new()?;
    /// let mut words = [0; 2];
    /// assert_eq!(wire.listen(&[SCLK, SCLK | SDAT, SCLK], &mut words), Err(Refusal::ShortAnswers.into()));
    /// assert_eq!(wire.listen(&[SCLK, SCLK | SDAT], &mut words)?, 2);
    /// assert_eq!(words, [0x0000, 0x2000]); // a START and a STOP
    /// # Ok::<(), dock::Error>(())
    /// ```
    pub fn listen(&mut self, samples: &[u8], words: &mut [u16]) -> Result<usize, Error> {
        Ok(value(ffi::wire_listen(&mut self.image, samples, words))?.into())
    }
}

impl TryFrom<&[u8]> for Wire {
    type Error = Error;

    fn try_from(bytes: &[u8]) -> Result<Wire, Error> {
        Wire::from_bytes(bytes)
    }
}
