//! The readings of request 8, one by one, in the request's numbers.

use model::{numbers, Queue, Refusal, QUEUE_BYTES, QUEUE_WORDS};

/// A queue's image, put together as the table of its bytes has it.
fn image(start: u16, count: u16, word: impl Fn(usize) -> u16) -> Vec<u8> {
    let numbers = [start, count].into_iter().chain((0..128).map(word));
    [1].into_iter().chain(numbers.flat_map(u16::to_be_bytes)).collect()
}

fn queue(start: u16, count: u16, word: impl Fn(usize) -> u16) -> Queue {
    Queue::from_image(&image(start, count, word)).unwrap()
}

fn put_all(queue: &mut Queue, words: impl IntoIterator<Item = u16>) {
    words.into_iter().for_each(|word| assert_eq!(queue.put(word), Ok(())));
}

/// What waits, in its order.
fn waiting(queue: &Queue) -> Vec<u16> {
    let mut queue = queue.clone();
    std::iter::from_fn(|| queue.take().ok()).collect()
}

#[test]
fn the_numbers_are_the_requests() {
    assert_eq!(QUEUE_WORDS, 128);
    assert_eq!(QUEUE_BYTES, 261);
    let answers = [Refusal::UnfitState, Refusal::QueueFull, Refusal::QueueEmpty].map(|one| numbers::answer(Err(one)));
    assert_eq!(answers, [0x0001_0000, 0x0007_0000, 0x0008_0000]);
}

#[test]
fn a_fresh_one_is_empty_and_zero() {
    assert_eq!(Queue::new().image()[..], image(0, 0, |_| 0));
    assert_eq!(Queue::new().take(), Err(Refusal::QueueEmpty));
}

#[test]
fn a_put_is_refused_exactly_when_128_words_wait() {
    let mut queue = Queue::new();
    for count in 0..128 {
        assert_eq!((queue.count(), queue.put(0x4000 + count as u16)), (count, Ok(())));
    }
    let full = queue.image();
    assert_eq!(queue.put(0xFFFF), Err(Refusal::QueueFull));
    assert_eq!(queue.image(), full);
    assert_eq!(queue.take(), Ok(0x4000));
    assert_eq!(queue.put(0xFFFF), Ok(()));
    assert_eq!(queue.put(0xFFFF), Err(Refusal::QueueFull));
}

#[test]
fn a_take_is_refused_exactly_when_no_word_waits() {
    for start in 0..128 {
        let mut empty = queue(start, 0, |place| 7 * place as u16);
        let before = empty.image();
        assert_eq!(empty.take(), Err(Refusal::QueueEmpty));
        assert_eq!(empty.image(), before);
        let mut one = queue(start, 1, |place| 7 * place as u16);
        assert_eq!(one.take(), Ok(7 * start));
        assert_eq!(one.take(), Err(Refusal::QueueEmpty));
    }
}

#[test]
fn a_put_leaves_the_start_and_writes_at_start_and_count() {
    for start in 0..128 {
        for count in 0..128 {
            let mut queue = queue(start, count, |_| 0xEEEE);
            assert_eq!(queue.put(0x1234), Ok(()));
            let written = usize::from(start + count) % 128;
            let word = |place| if place == written { 0x1234 } else { 0xEEEE };
            assert_eq!(queue.image()[..], image(start, count + 1, word));
        }
    }
}

#[test]
fn a_take_moves_the_start_and_leaves_the_old_word() {
    let word = |place| 0xA500 ^ place as u16;
    for count in 1..=128 {
        let mut queue = queue(5, count, word);
        assert_eq!(queue.take(), Ok(word(5)));
        assert_eq!(queue.image()[..], image(6, count - 1, word));
    }
}

#[test]
fn after_place_127_comes_place_0() {
    let word = |place| 0xA500 ^ place as u16;
    let mut queue = queue(127, 2, word);
    assert_eq!(queue.take(), Ok(word(127)));
    assert_eq!(queue.image()[..], image(0, 1, word));
    assert_eq!(queue.take(), Ok(word(0)));
    assert_eq!(queue.image()[..], image(1, 0, word));
}

#[test]
fn freed_places_are_used_again() {
    let mut queue = Queue::new();
    put_all(&mut queue, 0..128);
    for word in 128..2_000 {
        assert_eq!(queue.take(), Ok(word - 128));
        put_all(&mut queue, [word]);
        assert_eq!(queue.count(), 128);
    }
    assert_eq!(waiting(&queue), (2_000 - 128..2_000).collect::<Vec<_>>());
}

#[test]
fn words_taken_and_words_waiting_are_the_words_accepted() {
    for (puts, takes) in [(1, 1), (3, 2), (2, 3), (128, 128), (50, 49), (127, 5)] {
        let mut queue = Queue::new();
        let (mut accepted, mut taken) = (Vec::new(), Vec::new());
        for word in 0..3_000 {
            accepted.extend((0..puts).map(|one| word + one).filter(|&word| queue.put(word).is_ok()));
            taken.extend((0..takes).filter_map(|_| queue.take().ok()));
            assert_eq!([&taken[..], &waiting(&queue)].concat(), accepted);
        }
    }
}

#[test]
fn every_word_is_accepted() {
    let mut queue = Queue::new();
    for word in 0..=u16::MAX {
        assert_eq!(queue.put(word), Ok(()));
        assert_eq!(queue.take(), Ok(word));
    }
}

#[test]
fn fit_is_a_start_of_0_to_127_and_a_count_of_0_to_128() {
    for number in 0..=u16::MAX {
        assert_eq!(Queue::from_image(&image(number, 0, |_| 0)).is_some(), number <= 127);
        assert_eq!(Queue::from_image(&image(0, number, |_| 0)).is_some(), number <= 128);
    }
    for (start, count) in (0..128).flat_map(|start| (0..=128).map(move |count| (start, count))) {
        let bytes = image(start, count, |place| 0x55AA ^ (place as u16) << 3);
        assert_eq!(Queue::from_image(&bytes).map(|queue| queue.image().to_vec()), Some(bytes));
    }
}

#[test]
fn what_is_no_image() {
    let fit = image(3, 4, |_| 0);
    for length in (0..300).filter(|&length| length != QUEUE_BYTES) {
        let bytes: Vec<u8> = fit.iter().copied().cycle().take(length).collect();
        assert!(Queue::from_image(&bytes).is_none());
    }
    for version in (0..=u8::MAX).filter(|&version| version != 1) {
        assert!(Queue::from_image(&[&[version], &fit[1..]].concat()).is_none());
    }
}
