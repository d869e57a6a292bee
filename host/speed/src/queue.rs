//! The queue: the library's, the one in C on the same bytes and the model's, a call for each put and each take.

use crate::median;
use dock::{ffi, QUEUE_BYTES, QUEUE_WORDS};
use model::numbers;
use std::time::Instant;

/// So many queues are filled and drained in one run, which makes it long enough to be timed.
const QUEUES: usize = 32;

/// A put and a take, with the answers of the library's calls.
trait Side {
    fn put(&mut self, word: u16) -> u32;
    fn take(&mut self) -> u32;
}

struct Library([u8; QUEUE_BYTES]);
struct Plain([u8; QUEUE_BYTES]);

impl Side for Library {
    fn put(&mut self, word: u16) -> u32 {
        ffi::queue_put(&mut self.0, word)
    }

    fn take(&mut self) -> u32 {
        ffi::queue_take(&mut self.0)
    }
}

impl Side for Plain {
    fn put(&mut self, word: u16) -> u32 {
        plain::queue_put(&mut self.0, word)
    }

    fn take(&mut self) -> u32 {
        plain::queue_take(&mut self.0)
    }
}

impl Side for model::Queue {
    fn put(&mut self, word: u16) -> u32 {
        numbers::answer(model::Queue::put(self, word).map(|()| 0))
    }

    fn take(&mut self) -> u32 {
        numbers::answer(model::Queue::take(self))
    }
}

fn begun() -> [u8; QUEUE_BYTES] {
    let mut queue = [0; QUEUE_BYTES];
    ffi::queue_begin(&mut queue);
    queue
}

#[derive(Clone, Copy)]
enum Calls {
    Puts,
    Takes,
    InTurn,
}

/// In this order, 128 calls on every queue for each row, so that each row finds what the one before it left.
const ROWS: [(&str, Calls); 5] = [
    ("puts, from none to 128", Calls::Puts),
    ("puts that are refused", Calls::Puts),
    ("takes, from 128 to none", Calls::Takes),
    ("takes that are refused", Calls::Takes),
    ("a put and a take in turn", Calls::InTurn),
];

type Times = [f64; ROWS.len()];
type Answers = [Vec<u32>; ROWS.len()];

fn call(queue: &mut impl Side, calls: Calls, place: usize) -> u32 {
    match calls {
        Calls::Puts => queue.put(place as u16),
        Calls::InTurn if place % 2 == 0 => queue.put(place as u16),
        Calls::InTurn | Calls::Takes => queue.take(),
    }
}

/// One run: nanoseconds for each call, row by row. Every answer is written to a place of its own.
fn run(mut queues: Vec<impl Side>, answers: &mut Answers) -> Times {
    let mut times = [0.0; ROWS.len()];
    for ((time, (_, calls)), answers) in times.iter_mut().zip(ROWS).zip(answers) {
        let begin = Instant::now();
        for (queue, part) in queues.iter_mut().zip(answers.chunks_exact_mut(QUEUE_WORDS)) {
            part.iter_mut().enumerate().for_each(|(place, answer)| *answer = call(queue, calls, place));
        }
        *time = begin.elapsed().as_nanos() as f64 / answers.len() as f64;
    }
    times
}

fn queues<S>(begun: impl Fn() -> S) -> Vec<S> {
    (0..QUEUES).map(|_| begun()).collect()
}

/// Of the library's, of the one in C and of the model's, which take turns.
fn medians(repeats: usize) -> [Times; 3] {
    let mut answers = [(); 3].map(|()| ROWS.map(|_| vec![0; QUEUES * QUEUE_WORDS]));
    let mut times = [(); 3].map(|()| ROWS.map(|_| Vec::with_capacity(repeats)));
    for _ in 0..repeats {
        let runs = [
            run(queues(|| Library(begun())), &mut answers[0]),
            run(queues(|| Plain(begun())), &mut answers[1]),
            run(queues(model::Queue::new), &mut answers[2]),
        ];
        for (of_side, run) in times.iter_mut().zip(runs) {
            of_side.iter_mut().zip(run).for_each(|(of_row, time)| of_row.push(time));
        }
    }
    assert!(answers.iter().all(|of_side| of_side == &answers[0]), "all must agree on what they are timed for");
    times.map(|of_side| of_side.map(|mut of_row| median(&mut of_row)))
}

pub fn compare(repeats: usize) {
    println!();
    println!(
        "{:<36} {:>9} {:>9} {:>9} {:>9} {:>12}",
        "the queue, ns per call", "library", "C, -O3", "model", "library/C", "library/model"
    );
    let [library, plain, model] = medians(repeats);
    for (row, (name, _)) in ROWS.into_iter().enumerate() {
        let (library, plain, model) = (library[row], plain[row], model[row]);
        print!("{:<36} {:>9.2} {:>9.2} {:>9.2} ", name, library, plain, model);
        println!("{:>9.2} {:>12.2}", library / plain, library / model);
    }
}
