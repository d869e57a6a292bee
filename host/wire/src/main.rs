//! Holds the proved library's wire cell against the model's: the same samples to both, every answer compared.
//!
//!     wire [SAMPLES [SEED]]
//!
//! SAMPLES is how many samples are compared at least (20,000,000 if not given), SEED where the generator begins. Each
//! list of samples is given twice to a held state, in the longest calls and cut anywhere, also into calls of none. After
//! every call the answer, every held byte and every place for words are compared with the model's, and what stands before
//! and after both. In between come calls that must be refused, and held states that are damaged or made up.

mod held;
mod run;
mod streams;

use run::Run;
use std::process::ExitCode;

const SAMPLES: usize = 20_000_000;
const SEED: u64 = 1;

fn number<T: std::str::FromStr>(argument: Option<String>, default: T) -> Result<T, String> {
    match argument {
        None => Ok(default),
        Some(text) => text.replace(['_', ','], "").parse().map_err(|_| format!("wire: {} is no number", text)),
    }
}

fn arguments() -> Result<(usize, u64), String> {
    let mut arguments = std::env::args().skip(1);
    let samples = number(arguments.next(), SAMPLES)?;
    let seed = number(arguments.next(), SEED)?;
    match arguments.next() {
        None => Ok((samples, seed)),
        Some(_) => Err("usage: wire [SAMPLES [SEED]]".to_string()),
    }
}

fn main() -> ExitCode {
    let (samples, seed) = match arguments() {
        Ok(numbers) => numbers,
        Err(message) => {
            eprintln!("{}", message);
            return ExitCode::from(2);
        }
    };
    let mut run = Run::new(seed);
    match run.everything(samples) {
        Ok(()) => {
            println!("{}", run.counts());
            ExitCode::SUCCESS
        }
        Err(told) => {
            print!("mismatch: seed {}, {}", seed, told);
            ExitCode::FAILURE
        }
    }
}
