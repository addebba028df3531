//! Listings of very many bytes.

use crate::generate::joined;
use crate::generate::rng::Rng;
use crate::loops::split;
use crate::{list, load, read, run};

/// Heaps that take very many bytes to list.
pub fn listing(rng: &mut Rng) -> (String, usize) {
    let count = rng.between(2, 3);
    (wide_heaps(rng.between(19, 24), count), 100)
}

/// Actors that fill their heaps with methods of long words.
fn wide_heaps(layers: usize, actors: usize) -> String {
    let wide = "(future abcdefghijkl bcdefghijklm ".repeat(layers) + "1" + &")".repeat(layers);
    let actor = format!("(actor (method go () (seq (object (method m () {wide})) (call this go))))");
    format!("(def o (fn x {actor}))\n{}", "(send (call o apply 1) go)\n".repeat(actors))
}

/// An input whose listing has a size, found by running it: first moves until little is missing, then longer words.
pub(crate) fn listing_of_size(size: usize) -> Vec<u8> {
    let input = |moves: usize, more: usize| {
        let line = "0".repeat(40) + &"1".repeat(100) + &"2".repeat(100) + &"3".repeat(moves);
        joined(&line, (padding(more) + &wide_heaps(22, 3)).as_bytes())
    };
    let missing = |moves: usize| size.checked_sub(listed(&input(moves, 0))).filter(|missing| *missing <= PADDING);
    let found = (0..100).rev().find_map(|moves| missing(moves).map(|missing| (moves, missing)));
    let (moves, more) = found.unwrap_or((100, 0));
    input(moves, more)
}

/// Bytes that `padding` can add.
const PADDING: usize = 5 * 4 * 4 * 11;

/// Objects with short names, made longer by so many letters in all.
fn padding(mut more: usize) -> String {
    let mut word = |letter: char| {
        let letters = more.min(11);
        more -= letters;
        std::iter::repeat_n(letter, letters + 1).collect::<String>()
    };
    let mut method = |name| format!(" (method {} ({} {} {}) 1)", word(name), word('x'), word('y'), word('z'));
    (0..5).map(|_| format!("(object{})\n", ['a', 'b', 'c', 'd'].map(&mut method).concat())).collect()
}

/// Bytes of the listing that an input ends in, whether it may be printed or not.
fn listed(input: &[u8]) -> usize {
    let ran = split(input).and_then(|(schedule, text)| {
        let mut state = load(&read(text).ok()?).ok()?;
        run(&mut state, &schedule);
        Some(list(&state).len())
    });
    ran.unwrap_or(0)
}

#[cfg(test)]
mod tests {
    use super::*;

    #[test]
    fn listings_have_the_size_asked_for() {
        for size in [65_535, 65_536, 65_537] {
            let input = listing_of_size(size);
            assert_eq!(listed(&input), size);
            assert_eq!(crate::loops(&input) == b"(refused 6)\n", size > 65_536);
        }
    }
}
