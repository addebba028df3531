//! Single moves for the proved engine to repeat: a state in words, the actor that moves, the answer and the words after.
//!
//! A file has the moves of one group. Its records have 19 bytes each, a letter, two numbers of five and ten digits:
//!
//! | Record | Does |
//! |---|---|
//! | `z` | sets all words to 0 |
//! | `w` at word | sets a word of the state |
//! | `r` at count | repeats the word before `at` so often |
//! | `e`, `f` | as `w` and `r`, of the words that are expected after the move |
//! | `m` actor answer name | the move; what is expected is the state again afterwards |
//!
//! An answer is 8 to 16 for a refusal, 20 for an inner move, 30 for a message taken, 40 and 50 with the actor's number
//! for a message sent and an actor created. A state is stored as what differs from the one before it, if that is less.

mod build;
mod causes;
mod choices;
mod limits;
mod methods;
mod rules;

use crate::census::Rule;
use crate::words::encode;
use crate::{invariant, load, read, step, Answer, State};

/// One move, and how to come to the state that it is made in.
pub struct Case {
    name: &'static str,
    text: String,
    /// The actors that move before, over and over, until the wanted move is the next.
    order: &'static str,
    mover: u8,
    rule: Rule,
    answer: Result<Answer, u8>,
    /// What the state must have besides.
    wanted: Box<dyn Fn(&State) -> bool>,
    /// What is changed in the state by hand, where no script leads there.
    change: Box<dyn Fn(&mut State)>,
}

impl Case {
    fn new(name: &'static str, text: impl Into<String>, rule: Rule, answer: Result<Answer, u8>) -> Case {
        let (wanted, change) = (Box::new(|_: &State| true), Box::new(|_: &mut State| ()));
        Case { name, text: text.into(), order: "0", mover: 0, rule, answer, wanted, change }
    }

    fn mover(mut self, mover: u8) -> Case {
        self.mover = mover;
        self
    }

    fn order(mut self, order: &'static str) -> Case {
        self.order = order;
        self
    }

    fn wanted(mut self, wanted: impl Fn(&State) -> bool + 'static) -> Case {
        self.wanted = Box::new(wanted);
        self
    }

    fn change(mut self, change: impl Fn(&mut State) + 'static) -> Case {
        self.change = Box::new(change);
        self
    }

    /// The state before the move. A case that its script does not lead to is a mistake in the case.
    fn start(&self) -> State {
        let mut state = load(&read(self.text.as_bytes()).expect("a script")).expect("not too large");
        for actor in self.order.bytes().cycle().take(3000) {
            let mut found = state.clone();
            (self.change)(&mut found);
            found.recount();
            if self.is_next(&found) {
                invariant::holds(&found).unwrap_or_else(|broken| panic!("{}: {broken}", self.name));
                return found;
            }
            let _ = step(&mut state, actor - b'0');
        }
        panic!("{}: the move is not met", self.name)
    }

    fn is_next(&self, state: &State) -> bool {
        let next = Rule::of(state, self.mover) == self.rule && (self.wanted)(state);
        next && step(&mut state.clone(), self.mover) == self.answer
    }
}

/// A file and its moves.
pub struct Group {
    pub name: &'static str,
    pub cases: Vec<Case>,
}

/// All groups.
pub fn groups() -> Vec<Group> {
    [rules::groups(), causes::groups(), limits::groups()].into_iter().flatten().collect()
}

impl Group {
    /// The file's records.
    pub fn file(&self) -> String {
        let (mut out, mut before) = (String::new(), vec![0; crate::words::STATE]);
        for case in &self.cases {
            let start = case.start();
            let words = encode(&start);
            let (change, anew) =
                (difference('w', 'r', &before, &words), difference('w', 'r', &vec![0; words.len()], &words));
            match change.len() <= anew.len() {
                true => out += &change,
                false => out += &format!("z{:17}\n{anew}", ""),
            }
            let mut end = start;
            let answer = step(&mut end, case.mover);
            out += &difference('e', 'f', &words, &encode(&end));
            out += &format!("m {:03} {:02} {:<9}\n", case.mover, number(answer), case.name);
            before = words;
        }
        assert!(out.len() < 65_536, "{} is too large", self.name);
        out
    }
}

/// The number that stands for an answer.
fn number(answer: Result<Answer, u8>) -> u8 {
    match answer {
        Err(cause) => cause,
        Ok(Answer::Inner) => 20,
        Ok(Answer::Taken) => 30,
        Ok(Answer::Sent(actor)) => 40 + actor.0,
        Ok(Answer::Created(actor)) => 50 + actor.0,
    }
}

/// The records that make one list of words the other.
fn difference(one: char, many: char, old: &[u32], new: &[u32]) -> String {
    let (mut out, mut at) = (String::new(), 0);
    while at < new.len() {
        let alike = new[at..].iter().take_while(|word| **word == new[at]).count();
        let changed = old[at..at + alike].iter().zip(&new[at..]).rposition(|(old, new)| old != new);
        if let Some(last) = changed {
            let first = (0..=last).find(|place| old[at + place] != new[at + place]).unwrap_or(last);
            out += &format!("{one} {:05} {:010}\n", at + first, new[at]);
            if last > first {
                out += &format!("{many} {:05} {:010}\n", at + first + 1, last - first);
            }
        }
        at += alike;
    }
    out
}

#[cfg(test)]
mod tests {
    use super::*;
    use crate::state::ActorNo;

    #[test]
    fn differences_are_few_and_whole() {
        assert_eq!(
            difference('w', 'r', &[0, 1, 0, 0, 0], &[0, 1, 2, 2, 2]),
            "w 00002 0000000002\nr 00003 0000000002\n"
        );
        assert_eq!(difference('e', 'f', &[5, 1, 5], &[5, 5, 5]), "e 00001 0000000005\n");
        assert_eq!(difference('e', 'f', &[5, 5], &[5, 5]), "");
    }

    /// Each rule is met by a move, and each cause of a refused one by a refusal.
    #[test]
    fn every_rule_and_every_cause_is_there() {
        let cases: Vec<Case> = groups().into_iter().flat_map(|group| group.cases).collect();
        for rule in Rule::ALL.into_iter().filter(|rule| *rule != Rule::None) {
            assert!(cases.iter().any(|case| case.rule == rule && case.answer.is_ok()), "{rule:?}");
        }
        for cause in 8..=16 {
            assert!(cases.iter().any(|case| case.answer == Err(cause)), "{cause}");
        }
        for actor in [1, 2, 3].map(ActorNo) {
            assert!(cases.iter().any(|case| case.answer == Ok(Answer::Created(actor))));
        }
    }

    #[test]
    fn names_fit_their_place() {
        for case in groups().iter().flat_map(|group| &group.cases) {
            assert!((1..=9).contains(&case.name.len()), "{}", case.name);
        }
    }
}
