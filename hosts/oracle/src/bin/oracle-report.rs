//! Counts rules and causes over inputs made at random: `oracle-report [COUNT [SEED]] [--strict]`.
//!
//! With `--strict` every state on the way is held against the invariant, and every refused move against the state
//! before it. A fault shows its input and ends the program with failure.

use std::env;
use std::process::ExitCode;

use oracle::census::{Census, Rule};
use oracle::generate::{input, rng::Rng};

fn main() -> ExitCode {
    let args: Vec<String> = env::args().skip(1).collect();
    let strict = args.iter().any(|arg| arg == "--strict");
    let numbers: Vec<u64> = args.iter().filter_map(|arg| arg.parse().ok()).collect();
    let (count, seed) = (numbers.first().copied().unwrap_or(10_000), numbers.get(1).copied().unwrap_or(1));
    let (mut rng, mut census) = (Rng::new(seed), Census::default());
    for at in 0..count {
        let input = input(&mut rng);
        if let Err(fault) = census.add(&input, strict) {
            println!("input {at}: {fault}\n{}", String::from_utf8_lossy(&input));
            return ExitCode::FAILURE;
        }
    }
    show(&census, seed);
    ExitCode::SUCCESS
}

fn show(census: &Census, seed: u64) {
    let made: usize = census.moves.values().sum();
    let stopped: usize = census.stopped.values().sum();
    println!("{} inputs of seed {seed}: {made} moves, {stopped} refused entries", census.inputs);
    println!("longest output {} bytes", census.longest);
    println!("{} sends copied {} isolates, {} messages were woken", census.copying, census.copies, census.woken);
    println!("\nprogram refused, by cause");
    for (cause, count) in census.refused.iter().enumerate().filter(|(_, count)| **count > 0) {
        println!("{cause:>8} {count:>9}");
    }
    println!("\nentries refused, by cause (and inputs with such an entry)");
    for cause in 8..=16 {
        println!("{cause:>8} {:>9} {:>7}", census.stops(cause), census.inputs_stopped[usize::from(cause)]);
    }
    println!("\nlimits: most that was reached, inputs that reached the limit itself");
    for (name, (reached, limit, full)) in census.limits() {
        println!("{name:>12} {reached:>9} of {limit:>3} {full:>7}");
    }
    println!("\nrule: moves, and refused entries by cause");
    for rule in Rule::ALL {
        let name = format!("{rule:?}");
        print!("{name:>20} {:>9}", census.moves.get(&rule).copied().unwrap_or(0));
        for ((_, cause), count) in census.stopped.iter().filter(|((found, _), _)| *found == rule) {
            print!("  {cause}: {count}");
        }
        println!();
    }
}
