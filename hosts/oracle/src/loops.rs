//! The program `loops`: a schedule line and a script in, a listing or a refusal out.

use crate::cause;
use crate::program::{listed, parts, shown, started};
use crate::run;

/// What the program prints for an input.
pub fn loops(input: &[u8]) -> Vec<u8> {
    shown(attempt(input))
}

fn attempt(input: &[u8]) -> Result<Vec<u8>, u8> {
    let (schedule, text) = split(input).ok_or(cause::GRAMMAR)?;
    let mut state = started(text)?;
    run(&mut state, &schedule);
    listed(&state)
}

/// The schedule as actor numbers, and the script after it; nothing if the first line is no schedule.
pub fn split(input: &[u8]) -> Option<(Vec<u8>, &[u8])> {
    let (line, text) = parts(input)?;
    let schedule = line.iter().map(|digit| (b'0'..=b'3').contains(digit).then(|| digit - b'0'));
    Some((schedule.collect::<Option<_>>()?, text))
}

#[cfg(test)]
mod tests {
    use super::*;

    fn printed(input: &str) -> String {
        String::from_utf8(loops(input.as_bytes())).unwrap()
    }

    #[test]
    fn a_future_resolved() {
        let listing = "(actor 0 12 3 0 null)\n(future 0 m 0 5)\n(resolver 0 m 1 0)\n\
                       (object 0 m 2 (method apply (.x) (send (ref 0 m 1) .resolve .x)))\n";
        assert_eq!(printed("000000000000\n(future f r (resolve r 5))\n"), listing);
        assert_eq!(printed("0000000000000\n(future f r (resolve r 5))\n"), listing);
    }

    #[test]
    fn schedule_lines() {
        for bad in ["", "0", "4\n", "4\n1\n", " \n1\n", "0 0\n1\n"] {
            assert_eq!(printed(bad), "(refused 2)\n", "{bad:?}");
        }
        assert_eq!(printed("\n"), "(refused 1)\n");
        assert_eq!(printed("\n1\n"), "(actor 0 0 0 0 1)\n");
        assert_eq!(printed(&format!("{}\n1\n", "3".repeat(4096))), "(actor 0 0 0 0 1)\n");
        assert_eq!(printed(&format!("{}\n1\n", "3".repeat(4097))), "(refused 2)\n");
    }

    #[test]
    fn refused_texts() {
        assert_eq!(printed("\n(def x 1)\n"), "(refused 2)\n");
        assert_eq!(printed("\n(let x 1 y)\n"), "(refused 3)\n");
        assert_eq!(printed("\n(object (field a 1) (field a 2))\n"), "(refused 4)\n");
    }
}
