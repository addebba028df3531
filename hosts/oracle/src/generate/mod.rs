//! Inputs of `loops` and of `replay` made at random, the same for the same seed.
//!
//! Four sources, each after something that the others seldom meet: [`typed`] makes scripts of all forms in which most
//! moves succeed; [`edges`] makes scripts that come up to one limit, or just past it; [`damage`] breaks texts and
//! schedule lines of the first two; and some inputs are short mixtures of tokens.

pub mod damage;
pub mod edges;
pub mod rng;
pub mod typed;

use crate::{load, read, step};
use rng::Rng;

/// One input: a schedule line and a script, not always good ones.
pub fn input(rng: &mut Rng) -> Vec<u8> {
    match rng.below(100) {
        0..=49 => typed_input(rng),
        50..=77 => edges::input(rng),
        78..=97 => {
            let whole = if rng.chance(70) { typed_input(rng) } else { edges::input(rng) };
            damage::input(rng, whole)
        }
        _ => joined(&schedule(rng, 10), damage::tokens(rng).as_bytes()),
    }
}

/// One input of `replay`: one of `loops` whose line is cut into tokens, and now and then has something else in it.
pub fn calls(rng: &mut Rng) -> Vec<u8> {
    let whole = input(rng);
    let end = whole.iter().position(|byte| *byte == b'\n').unwrap_or(whole.len());
    let (often, mut line) = (rng.pick(&[0, 5, 30, 100]), Vec::new());
    for digit in &whole[..end] {
        if !line.is_empty() && rng.chance(often) {
            line.push(b' ');
        }
        line.push(if rng.chance(2) { digit_byte(rng, 10) } else { *digit });
    }
    if rng.chance(8) {
        line.insert(rng.below(line.len() as u64 + 1) as usize, rng.pick(b" 09/:mxw(\t\r"));
    }
    [&line, &whole[end..]].concat()
}

fn typed_input(rng: &mut Rng) -> Vec<u8> {
    let text = typed::script(rng);
    let length = rng.pick(&[0, 5, 20, 60, 120, 200, 300]);
    let line = if rng.chance(75) { live(rng, text.as_bytes(), length) } else { schedule(rng, length) };
    joined(&line, text.as_bytes())
}

/// A schedule line before a text.
pub fn joined(schedule: &str, text: &[u8]) -> Vec<u8> {
    [schedule.as_bytes(), b"\n", text].concat()
}

/// Digits for about so many entries, in one of several habits.
pub fn schedule(rng: &mut Rng, length: usize) -> String {
    let length = length + rng.below(length as u64 / 2 + 2) as usize;
    match rng.below(5) {
        0 => (0..length).map(|_| digit(rng, 4)).collect(),
        1 => (0..length).map(|at| char::from(b"0123"[at % 4])).collect(),
        2 => (0..length).map(|_| digit(rng, 2)).collect(),
        3 => bursts(rng, length, 4),
        _ => bursts(rng, length, 2),
    }
}

/// A schedule made while it runs: entries that would be refused are mostly left out.
pub fn live(rng: &mut Rng, text: &[u8], length: usize) -> String {
    let Ok(mut state) = read(text).and_then(|table| load(&table)) else { return schedule(rng, length) };
    let (mut line, mut idle) = (String::new(), 0);
    while line.len() < length && idle < 40 {
        let actors = state.actors.len() as u64;
        let actor = digit(rng, actors);
        let moved = step(&mut state, actor as u8 - b'0').is_ok();
        idle = if moved { 0 } else { idle + 1 };
        if moved || rng.chance(5) {
            line.push(actor);
        }
    }
    line
}

/// Several entries of one actor after another, actor 0 more often than the rest.
fn bursts(rng: &mut Rng, length: usize, actors: u64) -> String {
    let mut line = String::new();
    while line.len() < length {
        let actor = if rng.chance(40) { '0' } else { digit(rng, actors) };
        line.extend(std::iter::repeat_n(actor, 1 + rng.below(15) as usize));
    }
    line
}

fn digit(rng: &mut Rng, actors: u64) -> char {
    char::from(digit_byte(rng, actors))
}

fn digit_byte(rng: &mut Rng, end: u64) -> u8 {
    b'0' + rng.below(end) as u8
}

#[cfg(test)]
mod tests {
    use super::*;

    #[test]
    fn a_seed_makes_the_same_inputs_again() {
        let inputs = |seed| {
            let mut rng = Rng::new(seed);
            (0..50).map(|_| input(&mut rng)).collect::<Vec<_>>()
        };
        assert_eq!(inputs(7), inputs(7));
        assert_ne!(inputs(7), inputs(8));
    }

    #[test]
    fn most_lines_of_calls_are_good() {
        let (mut rng, mut bad) = (Rng::new(3), 0);
        for _ in 0..500 {
            bad += usize::from(crate::replay(&calls(&mut rng)) == b"(bad token)\n");
        }
        assert!((10..80).contains(&bad), "{bad}");
    }

    #[test]
    fn nothing_forbidden_happens_to_them() {
        let (mut rng, mut census) = (Rng::new(1), crate::census::Census::default());
        for _ in 0..300 {
            let input = input(&mut rng);
            if let Err(fault) = census.add(&input, true) {
                panic!("{fault}\n{}", String::from_utf8_lossy(&input));
            }
        }
    }
}
