//! Compares the compiled engine with the plain one, by chance and after every call.
//!
//! `compare short [SEED [ROUNDS]]` and `compare long [SEED [ROUNDS]]` play rounds; `compare one SEED ROUND` plays one of
//! them again and tells its calls. A round is a script with a schedule and what is made of it. The first difference is
//! told and ends the program with status 1; so does a cause or a rule that was never met.

mod alter;
mod busy;
mod checked;
mod counts;
mod damage;
mod decode;
mod engine;
mod lent;
mod orders;
mod plain;
mod scripts;

use std::panic::catch_unwind;
use std::process::ExitCode;
use std::sync::atomic::{AtomicBool, AtomicU64, Ordering};
use std::thread;

use checked::Checked;
use counts::Counts;
use oracle::generate::{input, rng::Rng, typed};

/// Stack of a thread: the engine asks for less than a quarter of it, the plain engine is less frugal.
const STACK: usize = 16 << 20;

/// Plays a round, and tells its calls if that is wanted.
fn round(seed: u64, number: u64, tell: bool) -> Result<Counts, String> {
    let mut checked = Checked::new(Rng::new(Rng::new(seed ^ number << 20).below(u64::MAX)), tell);
    let busy = checked.rng.chance(35);
    let input = if busy { busy::input(&mut checked.rng) } else { input(&mut checked.rng) };
    let told = String::from_utf8_lossy(&input);
    checked.note(|| format!("input:\n{told}"));
    all(&mut checked, &input).map_err(|differs| format!("seed {seed}, round {number}: {differs}\ninput:\n{told}"))?;
    Ok(checked.counts)
}

fn all(checked: &mut Checked, input: &[u8]) -> Result<(), String> {
    checked.counts.scripts += 1;
    let mut played = scripts::play(checked, input)?;
    if let Some(table) = &played.table {
        let other = oracle::read(typed::script(&mut checked.rng).as_bytes());
        damage::tables(checked, table, other.as_ref().unwrap_or(table))?;
    }
    if played.states.is_empty() {
        return Ok(());
    }
    let found = damage::states(checked, &played.states)?;
    played.states.extend(found);
    for _ in 0..2 {
        let picked = [checked.below(played.states.len()), checked.below(played.states.len())];
        let start = picked.iter().map(|at| &played.states[*at]).max_by_key(|state| state.actors.len());
        orders::pair(checked, start.expect("one of two"))?;
    }
    Ok(())
}

/// Words as they are told: each that is not 0 with its place.
fn told(words: &[u32]) -> Vec<(usize, u32)> {
    words.iter().copied().enumerate().filter(|(_, word)| *word != 0).collect()
}

/// Plays rounds on two threads until there are enough, or one goes wrong.
fn rounds(seed: u64, enough: u64) -> Result<Counts, String> {
    let (next, stop) = (AtomicU64::new(0), AtomicBool::new(false));
    let work = || -> Result<Counts, String> {
        let mut counts = Counts::default();
        while !stop.load(Ordering::Relaxed) {
            let number = next.fetch_add(1, Ordering::Relaxed);
            if number >= enough {
                break;
            }
            if number > 0 && number % 10_000 == 0 {
                eprintln!("{number} rounds");
            }
            let found = catch_unwind(|| round(seed, number, false));
            match found.unwrap_or_else(|_| Err(format!("seed {seed}, round {number}: a test panics"))) {
                Ok(found) => counts.add(&found),
                Err(differs) => {
                    stop.store(true, Ordering::Relaxed);
                    return Err(differs);
                }
            }
        }
        Ok(counts)
    };
    let mut counts = Counts::default();
    thread::scope(|scope| {
        let start = || thread::Builder::new().stack_size(STACK).spawn_scoped(scope, work).expect("a thread");
        let threads = [start(), start()];
        threads.into_iter().try_for_each(|thread| {
            counts.add(&thread.join().expect("a thread that ends")?);
            Ok::<(), String>(())
        })
    })?;
    Ok(counts)
}

fn main() -> ExitCode {
    let args: Vec<String> = std::env::args().skip(1).collect();
    let number = |at: usize, or: u64| args.get(at).and_then(|arg| arg.parse().ok()).unwrap_or(or);
    let result = match args.first().map(String::as_str) {
        Some("short") => rounds(number(1, 1), number(2, 4_000)),
        Some("long") => rounds(number(1, 2), number(2, 100_000)),
        Some("one") => round(number(1, 1), number(2, 0), true),
        _ => Err("compare short [SEED], compare long [SEED] or compare one SEED ROUND".to_owned()),
    };
    match result {
        Ok(counts) => {
            print!("{counts}");
            let missing = if args[0] == "one" { Vec::new() } else { counts.missing() };
            missing.iter().for_each(|what| println!("not met: {what}"));
            ExitCode::from(u8::from(!missing.is_empty()))
        }
        Err(differs) => {
            println!("{differs}");
            ExitCode::FAILURE
        }
    }
}
