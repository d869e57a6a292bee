//! The wrapper's own part of the queue: what it makes of the library's numbers, and what it keeps on a refusal.

use dock::{Error, Queue, Refusal, QUEUE_BYTES, QUEUE_WORDS};

const START: usize = 1;
const COUNT: usize = 3;
const WORDS: usize = 5;

fn refused<T>(refusal: Refusal) -> Result<T, Error> {
    Err(Error::Refused(refusal))
}

/// Any 65,536 in a row are all different.
fn words() -> impl Iterator<Item = u16> {
    (0..).map(|number: u32| (0x80FE + 0x101 * number) as u16)
}

fn full() -> Queue {
    let mut queue = Queue::new().unwrap();
    words().take(QUEUE_WORDS).for_each(|word| queue.put(word).unwrap());
    queue
}

/// A queue of zeros with these two numbers, each of two bytes.
fn with(start: u16, count: u16) -> [u8; QUEUE_BYTES] {
    let mut bytes = *Queue::new().unwrap().bytes();
    bytes[START..COUNT].copy_from_slice(&start.to_be_bytes());
    bytes[COUNT..WORDS].copy_from_slice(&count.to_be_bytes());
    bytes
}

#[test]
fn a_fresh_one_is_what_the_header_says() {
    let queue = Queue::new().unwrap();
    assert_eq!(queue.bytes()[0], 1);
    assert!(queue.bytes()[1..].iter().all(|&byte| byte == 0));
    assert!(queue.is_empty());
}

#[test]
fn words_come_out_as_they_went_in() {
    let mut queue = full();
    assert_eq!(queue.len(), QUEUE_WORDS);
    for (taken, word) in words().take(QUEUE_WORDS).enumerate() {
        assert_eq!(queue.len(), QUEUE_WORDS - taken);
        assert_eq!(queue.take(), Ok(word));
    }
    assert!(queue.is_empty());
    assert_eq!(queue.take(), refused(Refusal::QueueEmpty));
}

#[test]
fn the_ring_is_gone_round_many_times() {
    let mut queue = Queue::new().unwrap();
    let (mut put, mut taken) = (words(), words());
    for _ in 0..1_000 {
        put.by_ref().take(100).for_each(|word| queue.put(word).unwrap());
        taken.by_ref().take(100).for_each(|word| assert_eq!(queue.take(), Ok(word)));
    }
    assert!(queue.is_empty());
}

#[test]
fn a_refused_call_leaves_the_image() {
    let mut queue = full();
    let before = queue.clone();
    assert_eq!(queue.put(0x1234), refused(Refusal::QueueFull));
    assert_eq!(queue, before);
    let mut queue = Queue::new().unwrap();
    assert_eq!(queue.take(), refused(Refusal::QueueEmpty));
    assert_eq!(queue, Queue::new().unwrap());
}

#[test]
fn a_taken_word_still_stands_in_its_place() {
    let mut queue = Queue::new().unwrap();
    queue.put(0x1234).unwrap();
    assert_eq!(queue.take(), Ok(0x1234));
    assert_eq!(queue.bytes()[..WORDS + 2], [1, 0, 1, 0, 0, 0x12, 0x34]);
    assert_ne!(queue, Queue::new().unwrap());
}

#[test]
fn any_word_waits() {
    let mut queue = Queue::new().unwrap();
    for word in 0..=u16::MAX {
        queue.put(word).unwrap();
        assert_eq!(queue.take(), Ok(word));
    }
}

#[test]
fn only_images_of_fit_queues_come_back() {
    let full = full();
    assert_eq!(Queue::from_bytes(full.bytes()), Ok(full.clone()));
    assert_eq!(Queue::try_from(&full.bytes()[..]), Ok(full.clone()));
    for length in 0..QUEUE_BYTES {
        assert_eq!(Queue::from_bytes(&full.bytes()[..length]), refused(Refusal::UnfitState));
    }
    assert_eq!(Queue::from_bytes(&[1; QUEUE_BYTES + 1]), refused(Refusal::UnfitState));
    for start in 0..=u16::MAX {
        assert_eq!(Queue::from_bytes(&with(start, 0)).is_ok(), start <= 127, "start {}", start);
    }
    for count in 0..=u16::MAX {
        assert_eq!(Queue::from_bytes(&with(0, count)).is_ok(), count <= 128, "count {}", count);
    }
    for layout in (0..=u8::MAX).filter(|&layout| layout != 1) {
        let mut bytes = *full.bytes();
        bytes[0] = layout;
        assert_eq!(Queue::from_bytes(&bytes), refused(Refusal::UnfitState));
    }
}

#[test]
fn what_comes_back_is_what_was_given() {
    for (start, count) in [(0, 0), (0, 1), (127, 0), (127, 1), (127, 128), (64, 100)] {
        let mut bytes = with(start, count);
        bytes[WORDS..].iter_mut().zip(7..).for_each(|(byte, value)| *byte = value as u8);
        let queue = Queue::from_bytes(&bytes).unwrap();
        assert_eq!(queue.bytes(), &bytes);
        assert_eq!(queue.len(), usize::from(count));
        assert_eq!(queue.is_empty(), count == 0);
    }
}

#[test]
fn refusals_say_what_is_the_matter() {
    assert_eq!(Error::from(Refusal::QueueFull).to_string(), "refused: 128 words wait already");
    assert_eq!(Error::from(Refusal::QueueEmpty).to_string(), "refused: no word waits");
}
