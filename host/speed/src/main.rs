//! Times the proved library, the C controller and the model on the same words, in one run.
//!
//!     speed [REPEATS]
//!
//! Each time is the median over REPEATS runs (1,001 if not given). A run takes one list from a fresh controller, in one
//! call or with a call for each word, into a buffer that was cleared before, outside the timed part. All write all
//! records, and the buffers must be equal at the end.

mod lists;
mod queue;
mod sides;
mod wire;

use sides::{Side, BATCH, MODEL, MODEL_STEPS, PLAIN, REPLAY, SECOND, SIDES, STEPS};
use std::process::ExitCode;
use std::time::Instant;

const REPEATS: usize = 1_001;

const SIZES: [usize; 5] = [1_024, 2_048, 4_096, 8_192, 16_384];

/// One run, in nanoseconds for each word.
fn time(side: Side, words: &[u16], records: &mut [u8]) -> f64 {
    records.fill(0);
    let begin = Instant::now();
    let answer = side(words, records);
    let nanoseconds = begin.elapsed().as_nanos() as f64;
    assert_eq!(answer as usize, words.len(), "a list of this length is never refused");
    nanoseconds / words.len() as f64
}

fn median(times: &mut [f64]) -> f64 {
    times.sort_by(f64::total_cmp);
    times[times.len() / 2]
}

/// The median of each side. They take turns, so that a slow moment of the machine hits all.
fn medians<const N: usize>(sides: [Side; N], words: &[u16], repeats: usize) -> [f64; N] {
    let mut buffers = sides.map(|_| vec![0; model::RECORD_BYTES * words.len()]);
    let mut times = sides.map(|_| Vec::with_capacity(repeats));
    for _ in 0..repeats {
        for (place, side) in sides.into_iter().enumerate() {
            times[place].push(time(side, words, &mut buffers[place]));
        }
    }
    for buffer in &buffers {
        assert_eq!(buffer, &buffers[0], "all must agree on what they are timed for");
    }
    times.map(|mut of_side| median(&mut of_side))
}

fn describe_machine(repeats: usize) {
    println!("architecture: {}", std::env::consts::ARCH);
    println!("median of {} runs; each answer buffer is cleared before the run, outside the timed part", repeats);
}

fn compare_speeds(repeats: usize) {
    let most = SIZES[SIZES.len() - 1];
    let rows = [
        ("ticks", lists::ticks(most)),
        ("bus events (whole writes and reads)", lists::commands(most)),
        ("a realistic mix", lists::mix(most)),
    ]
    .map(|(name, words)| (name, medians(SIDES, &words, repeats)));
    compare_batches(&rows);
    compare_steps(&rows);
}

type Row = (&'static str, [f64; SIDES.len()]);

/// The library's replay and its batch on a held state, beside the others' replays.
fn compare_batches(rows: &[Row]) {
    println!();
    println!(
        "{:<36} {:>9} {:>9} {:>9} {:>9} {:>9} {:>12} {:>12}",
        "ns per event, 16,384 events a call",
        "replay",
        "batch",
        "C, -O3",
        "model",
        "replay/C",
        "replay/model",
        "batch/replay"
    );
    for (name, times) in rows {
        let (replay, batch, plain, model) = (times[REPLAY], times[BATCH], times[PLAIN], times[MODEL]);
        print!("{:<36} {:>9.2} {:>9.2} {:>9.2} {:>9.2} ", name, replay, batch, plain, model);
        println!("{:>9.2} {:>12.2} {:>12.2}", replay / plain, replay / model, batch / replay);
    }
}

/// One event in one call: on a held image, and on the model's struct.
fn compare_steps(rows: &[Row]) {
    println!();
    println!("{:<36} {:>9} {:>9} {:>14}", "ns per event, one event a call", "step", "model", "step/model");
    for (name, times) in rows {
        let (step, model) = (times[STEPS], times[MODEL_STEPS]);
        println!("{:<36} {:>9.2} {:>9.2} {:>14.2}", name, step, model, step / model);
    }
}

/// The second kind, beside the model, which knows it too; the C controller doesn't.
fn compare_second_kind(repeats: usize) {
    let most = SIZES[SIZES.len() - 1];
    println!();
    println!(
        "{:<36} {:>9} {:>9} {:>12} {:>9} {:>9} {:>12}",
        "the second kind, ns per event", "batch", "model", "batch/model", "step", "model", "step/model"
    );
    for (name, words) in [
        ("ticks", lists::ticks(most)),
        ("bus events (whole writes and reads)", lists::second_commands(most)),
        ("a realistic mix", lists::second_mix(most)),
    ] {
        let [batch, model, step, model_step] = medians(SECOND, &words, repeats);
        print!("{:<36} {:>9.2} {:>9.2} {:>12.2} ", name, batch, model, batch / model);
        println!("{:>9.2} {:>9.2} {:>12.2}", step, model_step, step / model_step);
    }
}

/// A batch is linear in its words if the time for each word stays the same.
fn check_linearity(repeats: usize) {
    println!();
    println!("{:<36} {:>9} {:>9} {:>9}", "ns per event of the mix, by words", "replay", "C, -O3", "model");
    let mut first = None;
    let mut last = 0.0;
    for size in SIZES {
        let times = medians(SIDES, &lists::mix(size), repeats);
        println!("{:<36} {:>9.2} {:>9.2} {:>9.2}", size, times[REPLAY], times[PLAIN], times[MODEL]);
        first.get_or_insert(times[REPLAY]);
        last = times[REPLAY];
    }
    let growth = last / first.unwrap_or(last);
    println!("replay, 16 times the words: {:.2} times the time for each (1.00 is linear)", growth);
}

fn main() -> ExitCode {
    let repeats = match std::env::args().nth(1).map(|text| text.parse()) {
        None => REPEATS,
        Some(Ok(repeats)) if repeats > 0 => repeats,
        Some(_) => {
            eprintln!("usage: speed [REPEATS]");
            return ExitCode::from(2);
        }
    };
    describe_machine(repeats);
    compare_speeds(repeats);
    compare_second_kind(repeats);
    check_linearity(repeats);
    wire::compare(repeats);
    queue::compare(repeats);
    ExitCode::SUCCESS
}
