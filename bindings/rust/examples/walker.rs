//! Random calls of one core in one batch, compared one by one with a page-table walker of one's own.
//! `cargo run --example walker [SEED]` ends with status 1 at a difference.
use own::{answer, new_table, Random, CALLS};
use radixvm::{calls, Ask, Outcome, Setup};
use std::error::Error;
use std::process::ExitCode;

#[allow(dead_code)]
mod own;

fn main() -> Result<ExitCode, Box<dyn Error>> {
    let seed = std::env::args().nth(1).map_or(Ok(1), |word| word.parse())?;
    let mut random = Random(seed);
    let requests: Vec<_> = (0..CALLS).map(|_| random.call()).collect();
    let setup = Setup::new(1, CALLS as u64, CALLS as u64);
    let asks: Vec<_> = requests.iter().map(|request| Ask::Call(0, *request)).collect();
    let outcomes = calls(&setup, &asks)?;
    let mut root = new_table();
    for (number, (request, outcome)) in requests.iter().zip(&outcomes).enumerate() {
        let own = answer(&mut root, *request);
        if *outcome != Outcome::Replied(own) {
            println!("call {number}, {request:x?}: the walker says {own:x?}, the library {outcome:x?}");
            return Ok(ExitCode::FAILURE);
        }
    }
    println!("{CALLS} calls, the same replies");
    Ok(ExitCode::SUCCESS)
}
