//! The queue of words that wait between an interrupt and the main loop.

use crate::answer::value;
use crate::{check_library, ffi, Error, Refusal, QUEUE_BYTES};

/// Where the image has how many words wait, in two bytes, the high one first.
const COUNT: usize = 3;

/// A queue of at most [`QUEUE_WORDS`](crate::QUEUE_WORDS) words, held as its image: [`QUEUE_BYTES`] bytes that can be kept
/// anywhere and put back. Who has events puts their words, and who has the [`Dock`](crate::Dock) takes them, in the order
/// in which they were put.
///
/// The image is always one of a fit queue, since it begins with the library's own or with one that the library took. Two
/// queues are equal where their images are, so words that were taken and still stand in their places count too.
///
/// ```
/// use dock::{Dock, Queue, Reply};
///
/// let mut queue = Queue::new()?;
/// for word in [0xC0BF, 0x0000, 0x4090] {
///     queue.put(word)?; // a RESET, a START and the dock's own address, while the main loop is busy
/// }
/// assert_eq!(queue.len(), 3);
///
/// let mut dock = Dock::new()?;
/// let mut reply = Reply::None;
/// while !queue.is_empty() {
///     reply = dock.step(queue.take()?)?.reply;
/// }
/// assert_eq!(reply, Reply::Ack);
/// # Ok::<(), dock::Error>(())
/// ```
///
/// A put and a take are not atomic. `&mut self` keeps two contexts apart in safe Rust, so whoever shares a queue with an
/// interrupt holds it in a critical section, in which that interrupt is masked:
///
/// ```
/// use dock::{Error, Queue, Refusal};
/// use std::sync::Mutex; // on a board, a cell that is opened only while the interrupt is masked
///
/// let shared = Mutex::new(Queue::new()?);
/// std::thread::scope(|interrupts| {
///     interrupts.spawn(|| shared.lock().unwrap().put(0xA000));
/// });
/// assert_eq!(shared.lock().unwrap().take(), Ok(0xA000));
/// assert_eq!(shared.lock().unwrap().take(), Err(Error::Refused(Refusal::QueueEmpty)));
/// # Ok::<(), Error>(())
/// ```
#[derive(Clone, PartialEq, Eq, Debug)]
pub struct Queue {
    image: [u8; QUEUE_BYTES],
}

impl Queue {
    /// A fresh one, in which no word waits.
    /// [`Error::OtherLibrary`] where the linked library is not the one that this crate was written for.
    pub fn new() -> Result<Queue, Error> {
        check_library()?;
        let mut queue = Queue { image: [0; QUEUE_BYTES] };
        value(ffi::queue_begin(&mut queue.image))?;
        Ok(queue)
    }

    /// The queue that was kept as these bytes. Any bytes may come: what is no image of a fit queue, by its length or by
    /// what it holds, is refused with [`Refusal::UnfitState`]. A library that isn't this crate's is told as by
    /// [`Queue::new`].
    ///
    /// ```
    /// use dock::{Error, Queue, Refusal};
    ///
    /// let mut queue = Queue::new()?;
    /// queue.put(0xA000)?;
    /// let kept = *queue.bytes();
    /// assert_eq!(Queue::from_bytes(&kept), Ok(queue));
    /// assert_eq!(Queue::from_bytes(&kept[1..]), Err(Error::Refused(Refusal::UnfitState)));
    /// # Ok::<(), Error>(())
    /// ```
    pub fn from_bytes(bytes: &[u8]) -> Result<Queue, Error> {
        check_library()?;
        let image = bytes.try_into().map_err(|_| Refusal::UnfitState)?;
        let queue = Queue { image };
        // The library is asked whether it takes the bytes by a take from a copy, since a call may change what it takes.
        match queue.clone().take() {
            Ok(_) | Err(Error::Refused(Refusal::QueueEmpty)) => Ok(queue),
            Err(error) => Err(error),
        }
    }

    /// The image of the queue.
    pub fn bytes(&self) -> &[u8; QUEUE_BYTES] {
        &self.image
    }

    /// How many words wait.
    pub fn len(&self) -> usize {
        u16::from_be_bytes([self.image[COUNT], self.image[COUNT + 1]]).into()
    }

    /// Whether no word waits.
    pub fn is_empty(&self) -> bool {
        self.len() == 0
    }

    /// The word waits behind all that do. Any word is taken, also one that a dock will refuse.
    ///
    /// [`Refusal::QueueFull`], and nothing changed, exactly where [`QUEUE_WORDS`](crate::QUEUE_WORDS) words wait. What then
    /// becomes of the word is up to the caller; the main loop in C, `firmware.c`, shows one way.
    ///
    /// ```
    /// use dock::{Queue, Refusal, QUEUE_WORDS};
    ///
    /// let mut queue = Queue::new()?;
    /// for word in 0..QUEUE_WORDS as u16 {
    ///     queue.put(word)?;
    /// }
    /// assert_eq!(queue.put(0xA000), Err(Refusal::QueueFull.into()));
    /// assert_eq!(queue.take(), Ok(0));
    /// queue.put(0xA000)?; // in the place that became free
    /// # Ok::<(), dock::Error>(())
    /// ```
    pub fn put(&mut self, word: u16) -> Result<(), Error> {
        value(ffi::queue_put(&mut self.image, word)).map(|_| ())
    }

    /// The word that has waited longest, which waits no more.
    ///
    /// [`Refusal::QueueEmpty`], and nothing changed, exactly where no word waits.
    pub fn take(&mut self) -> Result<u16, Error> {
        value(ffi::queue_take(&mut self.image))
    }
}

impl TryFrom<&[u8]> for Queue {
    type Error = Error;

    fn try_from(bytes: &[u8]) -> Result<Queue, Error> {
        Queue::from_bytes(bytes)
    }
}
