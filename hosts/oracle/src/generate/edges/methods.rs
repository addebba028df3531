//! Methods of one name that differ in their parameters alone: called, sent and asked for with each number of arguments.

use super::body;
use crate::generate::rng::Rng;

const PARAMS: [&str; 4] = ["", "x", "x y", "x y z"];
const ARGS: [&str; 4] = ["", " 1", " 1 null", " 1 2 3"];

/// Two to four numbers of parameters, in any order.
fn counts(rng: &mut Rng) -> Vec<usize> {
    let mut left = vec![0, 1, 2, 3];
    (0..rng.between(2, 4)).map(|_| left.remove(rng.below(left.len() as u64) as usize)).collect()
}

/// A method for each of the numbers, all of one name, with bodies that tell which of them it is.
fn methods(rng: &mut Rng, counts: &[usize]) -> String {
    let form = rng.pick(&["@", "(set this a @)", "(plus (get this a) @)", "(seq (set this a @) this)", "(fn y @)"]);
    counts
        .iter()
        .map(|count| format!(" (method m ({}) {})", PARAMS[*count], form.replace('@', &count.to_string())))
        .collect()
}

/// Arguments for one of the methods, or now and then for none of them.
fn args(rng: &mut Rng, counts: &[usize]) -> &'static str {
    ARGS[if rng.chance(90) { rng.pick(counts) } else { rng.between(0, 3) }]
}

/// Calls in a row, on something that the actor has.
pub fn called(rng: &mut Rng) -> (String, usize) {
    let counts = counts(rng);
    let kind = rng.pick(&["object", "isolate"]);
    let literal = format!("(def o ({kind} (field a 0){}))\n", methods(rng, &counts));
    let lines: String = (0..rng.between(1, 8)).map(|_| format!("(call o m{})\n", args(rng, &counts))).collect();
    (literal + &lines, 60)
}

/// Messages for what an actor has, there and back, or for a future that passes them on. A resolver is one argument more
/// that no method is to count.
pub fn told(rng: &mut Rng) -> (String, usize) {
    let counts = counts(rng);
    let kind = rng.pick(&["actor", "actor", "object", "isolate"]);
    let literal = format!("({kind} (field a 0){})", methods(rng, &counts));
    let defs = match rng.chance(70) {
        true => format!("(def o {literal})\n"),
        false => format!(
            "(def p (future f r (object (field f f) (field r r))))\n(def o (get p f))\n(resolve (get p r) {literal})\n"
        ),
    };
    let line = |rng: &mut Rng| match rng.below(3) {
        0 => format!("(send o m{})\n", args(rng, &counts)),
        1 => format!("(ask o m{})\n", args(rng, &counts)),
        _ => format!("(when (ask o m{}) v v)\n", args(rng, &counts)),
    };
    let lines: String = (0..rng.between(1, 5)).map(|_| line(rng)).collect();
    (defs + &lines, 60)
}

/// Isolates that are called where they have been copied to.
pub fn passed(rng: &mut Rng) -> (String, usize) {
    let counts = counts(rng);
    let isolate = format!("(isolate (field a 0){})", methods(rng, &counts));
    let calls: Vec<&str> = (0..rng.between(1, 3)).map(|_| args(rng, &counts)).collect();
    let body = calls.iter().fold("x".to_owned(), |rest, args| format!("(seq (call x m{args}) {rest})"));
    let actor = format!("(actor (field a 0) (method m () (get this a)) (method m (x) (set this a {body})))");
    let sends = rng.pick(&["(send o m i)\n(ask o m)\n", "(ask o m i)\n(send o m)\n", "(ask o m i)\n(ask o m i i)\n"]);
    (format!("(def o {actor})\n(def i {isolate})\n{sends}"), 60)
}

/// A method that calls itself until the expression is too long, while another of its name is shorter or longer.
pub fn grown(rng: &mut Rng) -> (String, usize) {
    let args = rng.between(0, 3);
    let other = (args + rng.between(1, 3)) % 4;
    let grow = format!("(plus {} (call this m{}))", body(rng.between(1, 9)), ARGS[args]);
    let mut both = [(args, grow), (other, body(rng.between(1, 40)))];
    if rng.chance(50) {
        both.reverse();
    }
    let both: String = both.iter().map(|(count, body)| format!(" (method m ({}) {body})", PARAMS[*count])).collect();
    let around = rng.between(0, 6);
    let call = format!("{}(call o m{}){}", "(get ".repeat(around), ARGS[args], " a)".repeat(around));
    (format!("(let o (object (field a 0){both}) {call})\n"), 420)
}
