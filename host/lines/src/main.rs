//! A host that wags two open-drain lines, against the proved library behind the driver that a firmware copies: the wire
//! cell hears the lines, the core answers, and the driver (`c/driver.c`) pulls SDAT.
//!
//!     lines [TRANSFERS [SEED]]
//!
//! There are writes and reads of both kinds of controller, repeated STARTs, half bytes, clocks that others stretch, also
//! for too long, a dock that is slow and stretches them itself, and other addresses, with levels of any length. Held against each other are what the host did and the
//! words that the wire cell gave, the ACKs that the host saw and the core's replies, the bytes that it read, those that
//! the core said, and what the registers read when they were decided. A START or a STOP on the lines that is not the
//! host's own ends the run, and so does SDAT that the dock moves at another time than well within a low SCLK.

mod board;
mod bus;
mod driver;
mod host;
mod transfers;

use board::Board;
use bus::Bus;
use dock::{SCLK, SDAT};
use driver::Driver;
use host::Host;
use std::process::ExitCode;
use transfers::Transfers;
use trial::Random;

const TRANSFERS: usize = 5_000;
const SEED: u64 = 1;

fn number<T: std::str::FromStr>(argument: Option<String>, default: T) -> Result<T, String> {
    match argument {
        None => Ok(default),
        Some(text) => text.replace(['_', ','], "").parse().map_err(|_| format!("lines: {} is no number", text)),
    }
}

fn arguments() -> Result<(usize, u64), String> {
    let mut arguments = std::env::args().skip(1);
    let transfers = number(arguments.next(), TRANSFERS)?;
    let seed = number(arguments.next(), SEED)?;
    match arguments.next() {
        None => Ok((transfers, seed)),
        Some(_) => Err("usage: lines [TRANSFERS [SEED]]".to_string()),
    }
}

/// Whatever the lines are at first, that is no START and no STOP.
fn begins_in_silence() -> Result<(), String> {
    for first in [0, SDAT, SCLK, SCLK | SDAT] {
        if !Driver::new().listen(&[first, first]).is_empty() {
            return Err(format!("the driver heard something in a first sample of {}", first));
        }
    }
    Ok(())
}

fn run(count: usize, seed: u64) -> Result<(), String> {
    begins_in_silence()?;
    let bus = Bus::new(Board::new()?, Random::new(seed, 0));
    let mut transfers = Transfers::new(Host::new(bus));
    transfers.host.idle()?;
    while transfers.counts.transfers < count {
        let at = transfers.counts.transfers;
        transfers.one().map_err(|told| format!("transfer {}: {}", at, told))?;
    }
    let (counts, bus) = (&transfers.counts, &transfers.host.bus);
    print!("{} transfers of the second kind, {} given up, ", counts.second_kind, counts.given_up);
    println!("{} with a slow dock, {} clocks stretched by others, {} samples", counts.slow, bus.stretches, bus.samples);
    print!("seed {}: {} transfers, {} bytes sent, ", seed, counts.transfers, counts.sent);
    println!("{} bytes read, 0 mismatches", counts.received);
    Ok(())
}

fn main() -> ExitCode {
    let (transfers, seed) = match arguments() {
        Ok(numbers) => numbers,
        Err(message) => {
            eprintln!("{}", message);
            return ExitCode::from(2);
        }
    };
    match run(transfers, seed) {
        Ok(()) => ExitCode::SUCCESS,
        Err(told) => {
            println!("wrong: seed {}, {}", seed, told);
            ExitCode::FAILURE
        }
    }
}
