//! Moves on methods of one name, which differ in the number of their parameters.

use super::build::*;
use super::Case;
use crate::census::Rule;
use crate::state::*;

/// All numbers of parameters, in another order than that of the numbers. What each comes to is its own.
const FOUR: &str = "(method m (x y) (plus x y)) (method m () (get this m)) (method m (x y z) (call this m z)) \
                    (method m (x) (set this m x))";
/// Two that have one number between them, as a two-way message with its resolver and without it could be for.
const APART: &str = "(method m () 1) (method m (x y) 2)";

const NONE: Move = Err(12);

fn call(name: &'static str, text: impl Into<String>, answer: Move) -> Case {
    Case::new(name, text, Rule::CallOfSeveral, answer)
}

/// Calls that find the first method of the name, one behind it, and the last.
pub fn called() -> Vec<Case> {
    let on = |body: &str| format!("(let o (object (field m 5) {FOUR}) {body})\n");
    let mixed = "(method n (x) 1) (method m (x y) 2) (method n () 3) (method m (x) 4)";
    let (long, short) = (format!("(method m (x) {})", written(90)), "(method m (x y) (plus x y))");
    let copied = format!("(send (actor (method m (i) (call i m i 2))) m (isolate (field m 5) {FOUR}))\n");
    let fields = "(object (field n 1) (method n () (get this n)) (method m () 2) (method m (x) 3))";
    vec![
        call("name-1st", on("(call o m 1 2)"), INNER),
        call("name-2nd", on("(call o m)"), INNER),
        call("name-3rd", on("(plus 1 (get (call o m 1 null o) a))"), INNER),
        call("name-4th", on("(call o m o)"), INNER),
        call("of-mixed", format!("(call (object {mixed}) m 7)\n"), INNER),
        call("of-apply", "(call (object (method apply (x) 1) (method apply (x y) y)) apply 1 2)\n", INNER),
        call("of-iso", format!("(call (isolate (field m 5) {FOUR}) m 1)\n"), INNER),
        call("of-copy", copied, INNER).order("01").mover(1),
        call("past-long", format!("(call (object {long} {short}) m 1 2)\n"), INNER),
        call("long", format!("(call (object {short} {long}) m 1)\n"), INNER),
        call("sent-one", format!("(send (object (field m 5) {FOUR}) m 1)\n"), INNER),
        call("asked-0", format!("(ask (object {FOUR}) m)\n"), INNER),
        call("asked-1", "(ask (object (method m (x) (plus x 1)) (method m (x y) 7)) m 5)\n", INNER),
        call("asked-3", format!("(ask (object {FOUR}) m 1 2 3)\n"), INNER),
        Case::new("one-name", format!("(call {fields} n)\n"), Rule::Call, INNER),
    ]
}

/// Calls for which no method has both the name and the number of parameters.
pub fn refused() -> Vec<Case> {
    let apart = |name, form: &str, args: &str| call(name, format!("({form} (object {APART}) m{args})\n"), NONE);
    let three = "(method m (x y) 1) (method m () 2) (method m (x) 3)";
    let other = "(call (object (method m (x) 1) (method n () 2)) m)\n";
    vec![
        apart("between", "call", " 1"),
        apart("past-all", "call", " 1 2 3"),
        call("of-three", format!("(call (isolate {three}) m 1 2 3)\n"), NONE),
        call("below-all", "(call (object (method m (x) 1) (method m (x y) 2)) m)\n", NONE),
        Case::new("count-of", other, Rule::Call, NONE),
        Case::new("no-name", format!("(call (object (field n 1) {APART}) n)\n"), Rule::Call, NONE),
        apart("sent-none", "send", " 1"),
        apart("ask-none", "ask", " 1"),
        call("ask-few", "(ask (object (method m (x) 1) (method m (x y) 2)) m)\n", NONE),
        apart("12-or-16", "call", " 1").change(|state| state.actors[0].moves = most::MOVES),
    ]
}

/// Messages are taken whether a method is for them or not.
pub fn taken() -> Vec<Case> {
    let (plain, two) = (Rule::TakeCall, Rule::TakeTwoWay);
    vec![
        Case::new("for-one", format!("(send (object {APART}) m)\n"), plain, TAKEN),
        Case::new("for-none", format!("(send (object {APART}) m 1)\n"), plain, TAKEN),
        Case::new("two-one", format!("(ask (object {APART}) m 1 2)\n"), two, TAKEN),
        Case::new("two-none", format!("(ask (object {APART}) m 1)\n"), two, TAKEN),
        Case::new("two-four", format!("(ask (object {FOUR}) m 1 2 3)\n"), two, TAKEN),
    ]
}

/// Literals of each kind, with one more inside a method.
pub fn made_of() -> Vec<Case> {
    let inside = format!("(method n () (object (field m 2) {FOUR}))");
    let text = |kind: &str| format!("({kind} (field m 1) {APART} {inside})\n");
    let [object, isolate, actor] = ["object", "isolate", "actor"].map(text);
    vec![
        Case::new("obj-names", object, Rule::Object, INNER),
        Case::new("iso-names", isolate, Rule::Isolate, INNER),
        Case::new("act-names", actor, Rule::Actor, created(1)),
    ]
}

/// Substitution stops by the parameters of each method for itself.
pub fn bound() -> Vec<Case> {
    let text = "(let x 5 (object (method m () x) (method m (x) x) (method m (y z) (plus x y))))\n";
    vec![Case::new("let-names", text, Rule::Let, INNER)]
}

/// A copy has all methods of a name.
pub fn passed() -> Vec<Case> {
    vec![Case::new("names", format!("(send (actor) m (isolate (field m 5) {FOUR}))\n"), Rule::SendOther, sent(1))]
}
