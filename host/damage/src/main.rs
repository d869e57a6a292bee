//! Gives the proved library states that are damaged, and holds what it does with them against the model: a state is
//! refused with 1 by every call and left as it came, or it is the image of another fit state and goes on as that does.
//!
//!     damage [STATES [STRINGS [SEED]]]
//!
//! Tried are all single-bit flips of the images of STATES reached states of both kinds (1,000 if not given), every value
//! of every byte of some of them, pulses, waits and commands of either kind in each of them with either kind in force,
//! STRINGS random byte strings of an image's length (100,000 if not given) and as many that are made of flags and
//! numbers, every length from none to twice an image, and what libraries before 5.0 and 4.0 saved of the same states.
//! Then come the images of a tenth as many queues, and a tenth as many strings, in the same ways.

mod counts;
mod queues;
mod strings;
mod trials;

use queues::Queues;
use std::process::ExitCode;
use trials::Trials;

const STATES: usize = 1_000;
const STRINGS: usize = 100_000;
const SEED: u64 = 1;

/// One queue for so many states: its image has more bytes, and fewer of them decide.
const QUEUES: usize = 10;

fn number<T: std::str::FromStr>(argument: Option<String>, default: T) -> Result<T, String> {
    match argument {
        None => Ok(default),
        Some(text) => text.replace(['_', ','], "").parse().map_err(|_| format!("damage: {} is no number", text)),
    }
}

fn arguments() -> Result<(usize, usize, u64), String> {
    let mut arguments = std::env::args().skip(1);
    let states = number(arguments.next(), STATES)?;
    let strings = number(arguments.next(), STRINGS)?;
    let seed = number(arguments.next(), SEED)?;
    match arguments.next() {
        None => Ok((states, strings, seed)),
        Some(_) => Err("usage: damage [STATES [STRINGS [SEED]]]".to_string()),
    }
}

fn main() -> ExitCode {
    let (states, strings, seed) = match arguments() {
        Ok(numbers) => numbers,
        Err(message) => {
            eprintln!("{}", message);
            return ExitCode::from(2);
        }
    };
    let tried = Trials::new(seed).everything(states, strings);
    match tried.and_then(|()| Queues::new(seed).everything(states / QUEUES, strings / QUEUES)) {
        Ok(()) => ExitCode::SUCCESS,
        Err(told) => {
            print!("mismatch: seed {}, {}", seed, told);
            ExitCode::FAILURE
        }
    }
}
