//! How fast the engine is: `oracle-pace NAME.in [ROUNDS]` runs the inputs of a file of vectors and prints times.

use std::time::{Duration, Instant};
use std::{env, fs, io};

use oracle::loops::split;
use oracle::vectors::entries;
use oracle::{list, load, read, run, Table};

/// Time spent in each call.
#[derive(Default)]
struct Times {
    read: Duration,
    load: Duration,
    run: Duration,
    list: Duration,
}

fn main() -> io::Result<()> {
    let args: Vec<String> = env::args().skip(1).collect();
    let [name, rounds @ ..] = args.as_slice() else {
        return Err(io::Error::new(io::ErrorKind::InvalidInput, "a file of vectors is needed"));
    };
    let rounds = rounds.first().and_then(|arg| arg.parse().ok()).unwrap_or(10);
    let file = fs::read(name)?;
    let inputs = entries(&file).ok_or_else(|| io::Error::new(io::ErrorKind::InvalidData, "not a file of vectors"))?;
    let (mut times, mut moves, mut refusals, mut bytes) = (Times::default(), 0, 0, 0);
    for _ in 0..rounds {
        for (schedule, text) in inputs.iter().filter_map(|input| split(input)) {
            let Ok(table) = timed(&mut times.read, || read(text)) else { continue };
            let Ok((made, refused, listed)) = play(&table, &schedule, &mut times) else { continue };
            moves += made;
            refusals += refused;
            bytes += listed;
        }
    }
    let micros = |time: Duration| time.as_micros();
    println!("{} inputs, {rounds} rounds: {moves} moves, {refusals} refusals, {bytes} bytes listed", inputs.len());
    println!("read {} us, load {} us", micros(times.read), micros(times.load));
    println!("run {} us, list {} us", micros(times.run), micros(times.list));
    println!("{:.1} million entries a second", (moves + refusals) as f64 / micros(times.run).max(1) as f64);
    Ok(())
}

/// Loads, runs and lists; gives moves, refusals and bytes.
fn play(table: &Table, schedule: &[u8], times: &mut Times) -> Result<(usize, usize, usize), u8> {
    let mut state = timed(&mut times.load, || load(table))?;
    let (moves, refusals) = timed(&mut times.run, || run(&mut state, schedule));
    let listing = timed(&mut times.list, || list(&state));
    Ok((moves, refusals, listing.len()))
}

fn timed<T>(total: &mut Duration, work: impl FnOnce() -> T) -> T {
    let start = Instant::now();
    let done = work();
    *total += start.elapsed();
    done
}
