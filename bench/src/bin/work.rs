//! Runs one script with one engine, so that its instructions can be counted: `work SCRIPT proved|plain MOVES`.
//!
//! Runs are made from copies of the same state, one after another, until so many moves are made. The functions `proved` and `plain` are the
//! runs and nothing else, for whoever counts in one of them only.

use std::env;
use std::hint::black_box;

use bench::cases;

fn main() {
    let args: Vec<String> = env::args().skip(1).collect();
    let [name, engine, moves] = args.as_slice() else {
        panic!("work SCRIPT proved|plain MOVES");
    };
    let cases = cases().expect("the scripts are there");
    let case = cases.iter().find(|case| case.name == name);
    let case = case.expect("a script of the tables");
    let moves: usize = moves.parse().expect("a number of moves");
    let mut words = vec![0; atlite::STATE_WORDS];
    let mut made = 0;
    while made < moves {
        let entries = &case.entries[..case.entries.len().min(moves - made)];
        made += match engine.as_str() {
            "proved" => {
                fresh(case.start.proved.words(), &mut words);
                proved(&mut words, entries)
            }
            _ => plain(&mut case.start.plain.clone(), entries),
        };
    }
    println!("{made} moves");
}

/// Copies the words by a loop of its own, so that a profile has it under this name and not with the copying that the engine does.
#[inline(never)]
fn fresh(from: &[u32], to: &mut [u32]) {
    let zero = black_box(0);
    for (to, from) in to.iter_mut().zip(from) {
        *to = *from ^ zero;
    }
}

#[inline(never)]
fn proved(state: &mut [u32], entries: &[u8]) -> usize {
    let counts = atlite::lent::run(black_box(state), entries);
    counts.expect("the words are a state").moves
}

#[inline(never)]
fn plain(state: &mut oracle::State, entries: &[u8]) -> usize {
    oracle::run(black_box(state), entries).0
}
