//! Texts at the limits of reading: bytes, brackets, words and nodes.

use super::near;
use crate::generate::rng::Rng;

/// Exactly so many bytes as wanted: long lines of few nodes, then numbers to fill up.
pub fn size(rng: &mut Rng) -> (String, usize) {
    let size = near(rng, 4096);
    let long = "(object (method abcdefghijkl (abcdefghijkl bcdefghijklm cdefghijklmn) 1))\n";
    let mut text = long.repeat(size / long.len() - 1);
    while size - text.len() > 9 {
        text += "7654321\n";
    }
    let last = "9".repeat(size - text.len() - 1);
    let last = if last.len() > 7 { "null\n12".to_owned() } else { last };
    (format!("{text}{last}\n"), 120)
}

pub fn brackets(rng: &mut Rng) -> (String, usize) {
    let count = near(rng, 32);
    let text = match rng.below(5) {
        0 => format!("{}null{}\n", "(get ".repeat(count), " a)".repeat(count)),
        1 => format!("(def x {}1{})\nx\n", "(plus 1 ".repeat(count - 1), ")".repeat(count - 1)),
        2 => format!("{}(object (method m () 1)){}\n", "(seq 1 ".repeat(count - 3), ")".repeat(count - 3)),
        3 => format!("{}(same 1 2){}\n", "(if 1 ".repeat(count - 1), " 3)".repeat(count - 1)),
        _ => format!(
            "{}(object (method m (x) (fn y (plus x y)))){}\n",
            "(set ".repeat(count - 4),
            " a 1)".repeat(count - 4)
        ),
    };
    (text, count)
}

pub fn words(rng: &mut Rng) -> (String, usize) {
    let count = near(rng, 64);
    let defs: String = (0..count).map(|at| format!("(def a{at} {at})\n")).collect();
    let last = rng.pick(&["1", "(plus a1 a61)", "(fn a0 a0)", "(call null apply)", "(get null b)", "(resolve a1 a2)"]);
    (format!("{defs}{last}\n"), 20)
}

pub fn nodes(rng: &mut Rng) -> (String, usize) {
    let count = 254 + rng.between(0, 4);
    let last = rng.pick(&["1", "(get null a)", "(plus 1 1)", "(same 1 1)", "(if 1 1 1)"]);
    if rng.chance(50) {
        return ("1\n".repeat(count) + last + "\n", 3);
    }
    let wide = rng.pick(&["(call null m 1 2 3)\n", "(if 1 (get 2 a) 3)\n"]);
    let lines = 84 + rng.between(0, 1);
    (wide.repeat(lines - 12) + &"1\n".repeat(rng.between(32, 40)) + last + "\n", 3)
}

#[cfg(test)]
mod tests {
    use super::*;

    #[test]
    fn texts_have_the_size_asked_for() {
        let mut rng = Rng::new(4);
        let sizes: Vec<usize> = (0..100).map(|_| size(&mut rng).0.len()).collect();
        assert!((4094..=4097).all(|size| sizes.contains(&size)));
        assert!(sizes.iter().all(|size| (4094..=4097).contains(size)));
    }
}
