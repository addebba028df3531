//! The program `replay`: a line of calls and a script in, the answer to each call and the listing out.

use crate::program::{listed, parts, shown, started};
use crate::state::ActorNo;
use crate::{step, Answer};

/// What is printed for a line that is no line of calls.
const BAD_TOKEN: &[u8] = b"(bad token)\n";

/// What the program prints for an input. The line is judged before the script is looked at.
pub fn replay(input: &[u8]) -> Vec<u8> {
    match parts(input).and_then(|(line, text)| Some((calls(line)?, text))) {
        Some((calls, text)) => shown(told(&calls, text)),
        None => BAD_TOKEN.to_vec(),
    }
}

/// The actors that a line has move, one after the other; nothing if the line is not of its form.
pub fn calls(line: &[u8]) -> Option<Vec<u8>> {
    if line.is_empty() {
        return Some(Vec::new());
    }
    let tokens = line.split(|byte| *byte == b' ').map(token);
    Some(tokens.collect::<Option<Vec<_>>>()?.concat())
}

/// A token of digits, each a move of that actor; those from 4 on name no actor and are refused when their turn comes.
fn token(token: &[u8]) -> Option<Vec<u8>> {
    let digits = !token.is_empty() && token.iter().all(u8::is_ascii_digit);
    digits.then(|| token.iter().map(|digit| digit - b'0').collect())
}

/// The answers on a line, and the listing of the state that the calls leave.
fn told(calls: &[u8], text: &[u8]) -> Result<Vec<u8>, u8> {
    let mut state = started(text)?;
    let answers: Vec<String> = calls.iter().map(|actor| answer(step(&mut state, *actor))).collect();
    let listing = listed(&state)?;
    Ok([answers.join(" ").as_bytes(), b"\n", &listing].concat())
}

fn answer(answer: Result<Answer, u8>) -> String {
    match answer {
        Ok(Answer::Inner) => "I".to_owned(),
        Ok(Answer::Taken) => "T".to_owned(),
        Ok(Answer::Sent(ActorNo(to))) => format!("S{to}"),
        Ok(Answer::Created(ActorNo(actor))) => format!("C{actor}"),
        Err(cause) => cause.to_string(),
    }
}

#[cfg(test)]
mod tests {
    use super::*;
    use crate::generate::edges::listing_of_size;
    use crate::loops;
    use crate::program::{MOST_LINE, MOST_LISTING};

    fn printed(input: &str) -> String {
        String::from_utf8(replay(input.as_bytes())).unwrap()
    }

    #[test]
    fn every_answer_has_its_letter() {
        assert_eq!(
            printed("00 1 01 9\n(send (actor (method m () 5)) m)\n"),
            "C1 S1 T 9 I 8\n(actor 0 2 0 0 null)\n(actor 1 2 1 0 5)\n(object 1 m 0 (method m () 5))\n"
        );
    }

    #[test]
    fn digits_past_the_actors_are_calls() {
        assert_eq!(printed("0123 456789\n5\n"), "9 8 8 8 8 8 8 8 8 8\n(actor 0 0 0 0 5)\n");
    }

    #[test]
    fn no_calls_have_an_empty_line_of_answers() {
        assert_eq!(printed("\n5\n"), "\n(actor 0 0 0 0 5)\n");
    }

    #[test]
    fn lines_that_are_no_calls() {
        for line in [" ", " 0", "0 ", "0  0", "x0", "0x", "m10", "w", "-1", "0\t0", "0\r", "(bad token)"] {
            assert_eq!(printed(&format!("{line}\n5\n")), "(bad token)\n", "{line:?}");
        }
        for input in ["", "0", "00 1"] {
            assert_eq!(printed(input), "(bad token)\n", "{input:?}");
        }
    }

    #[test]
    fn lines_are_judged_before_scripts() {
        assert_eq!(printed("x0\n(nope\n"), "(bad token)\n");
        assert_eq!(printed("0\n(nope\n"), "(refused 2)\n");
        assert_eq!(printed("0\n(let x 1 y)\n"), "(refused 3)\n");
        assert_eq!(printed("0\n"), "(refused 1)\n");
    }

    #[test]
    fn long_lines() {
        let answers = "9 ".repeat(MOST_LINE / 2);
        let line = "0 ".repeat(MOST_LINE / 2 - 1) + "00";
        assert_eq!(line.len(), MOST_LINE);
        assert_eq!(printed(&format!("{line}\n5\n")), format!("{answers}9\n(actor 0 0 0 0 5)\n"));
        assert_eq!(printed(&format!("{line}0\n5\n")), "(bad token)\n");
    }

    /// The listing may be as long as that of `loops`, whatever room the answers take.
    #[test]
    fn long_listings() {
        for size in [MOST_LISTING, MOST_LISTING + 1] {
            let input = listing_of_size(size);
            let end = replay(&input);
            match size > MOST_LISTING {
                true => assert_eq!(end, b"(refused 6)\n"),
                false => assert!(end.ends_with(&loops(&input)) && end.len() > size),
            }
        }
    }
}
