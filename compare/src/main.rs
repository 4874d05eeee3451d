//! Compares Tembuzar with the Rust original. See README.md.

mod added;
mod alone;
mod answers;
mod bands;
mod bench;
mod check;
mod draw;
mod face;
mod ffi;
mod many;
mod orders;
mod pair;
mod record_calls;
mod records;
mod round;
mod tally;
#[cfg(test)]
mod tests;
mod time;
mod upright;
#[cfg(test)]
mod wrong;

use std::process::ExitCode;

use face::Tembuzar;
use round::{Difference, round};
use tally::Tally;
use time::Run;

const USAGE: &str = "usage: compare check SEED BEAMS | compare round SEED ROUND | compare time [ROUNDS]
       compare growth [ROUNDS] | compare records | compare orders SEED MODELS
       compare turns original|ours|none ROUNDS CASE";

fn main() -> ExitCode {
    let words: Vec<String> = std::env::args().skip(1).collect();
    let number = |at: usize| words.get(at).and_then(|word| word.parse::<u64>().ok());
    match (words.first().map(String::as_str), number(1), number(2)) {
        (Some("check"), Some(seed), Some(beams)) => check_until(seed, beams),
        (Some("round"), Some(seed), Some(only)) => check_round(seed, only),
        (Some("time"), rounds, None) => {
            time::all(&Run::Timed { rounds: rounds.unwrap_or(501).max(1) as usize });
            ExitCode::SUCCESS
        }
        (Some("growth"), rounds, None) => {
            time::growth(rounds.unwrap_or(51).max(1) as usize);
            ExitCode::SUCCESS
        }
        (Some("orders"), Some(seed), Some(models)) => {
            orders::all(seed, models);
            ExitCode::SUCCESS
        }
        (Some("records"), None, None) => {
            records::all();
            ExitCode::SUCCESS
        }
        (Some("turns"), None, Some(rounds)) if words.len() == 4 => {
            time::all(&Run::Turns { side: words[1].clone(), case: words[3].clone(), rounds: rounds as usize });
            ExitCode::SUCCESS
        }
        _ => {
            eprintln!("{USAGE}");
            ExitCode::from(2)
        }
    }
}

/// Even rounds have two axes, odd ones three.
fn one(seed: u64, number: u64, print_at: Option<usize>, tallies: &mut [Tally; 2]) -> Result<(), Difference> {
    let [two, three] = tallies;
    match number % 2 {
        0 => round::<Tembuzar, 2>(seed, number / 2, print_at, two),
        _ => round::<Tembuzar, 3>(seed, number / 2, print_at, three),
    }
}

fn check_until(seed: u64, beams: u64) -> ExitCode {
    let mut tallies = [Tally::default(), Tally::default()];
    let (mut number, mut done, mut told) = (0, 0, 0);
    while done < beams {
        if let Err(difference) = one(seed, number, None, &mut tallies) {
            return report(seed, number, &difference);
        }
        number += 1;
        done = tallies[0].beams() + tallies[1].beams();
        if done / 1_000_000 > told {
            told = done / 1_000_000;
            eprintln!("{told} million beams");
        }
    }
    finish(seed, &tallies)
}

fn check_round(seed: u64, number: u64) -> ExitCode {
    let mut tallies = [Tally::default(), Tally::default()];
    match one(seed, number, None, &mut tallies) {
        Ok(()) => finish(seed, &tallies),
        Err(difference) => report(seed, number, &difference),
    }
}

/// Runs the round once more to print the map as it was before the call.
fn report(seed: u64, number: u64, difference: &Difference) -> ExitCode {
    println!("DIFFERENCE: seed {seed}, round {number}, {} axes, call {}", 2 + number % 2, difference.call);
    println!("{}", difference.words);
    let _ = one(seed, number, Some(difference.call), &mut [Tally::default(), Tally::default()]);
    println!("again: compare round {seed} {number}");
    ExitCode::FAILURE
}

fn finish(seed: u64, tallies: &[Tally; 2]) -> ExitCode {
    println!("seed {seed}");
    tallies[0].print(2);
    tallies[1].print(3);
    println!("beams in all: {}", tallies[0].beams() + tallies[1].beams());
    println!("0 differences");
    ExitCode::SUCCESS
}
