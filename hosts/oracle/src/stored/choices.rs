//! Moves by same and by if.

use super::build::*;
use super::Case;
use crate::census::Rule;
use crate::state::*;

/// A move of actor 1, in a method that is sent isolates.
fn sent_isolates(name: &'static str, body: &str, rule: Rule) -> Case {
    let text = format!("(send (actor (method m (x y) {body})) m (isolate (field a 1)) (isolate (field a 1)))\n");
    Case::new(name, text, rule, INNER).order("01").mover(1)
}

pub fn cases() -> Vec<Case> {
    [same(), asked(), parts()].into_iter().flatten().collect()
}

/// Values of every two kinds, and references that differ in one thing alone.
fn same() -> Vec<Case> {
    let same = |name, text: &str| Case::new(name, text, Rule::Same, INNER);
    vec![
        same("same", "(same 2 2)\n"),
        same("unequal", "(same 2 3)\n"),
        same("same-max", "(same 16777215 16777215)\n"),
        same("same-null", "(same null null)\n"),
        same("null-0", "(same null 0)\n"),
        same("0-null", "(same 0 null)\n"),
        same("null-ref", "(same null (object))\n"),
        same("ref-null", "(same (object) null)\n"),
        same("0-ref", "(same 0 (object))\n"),
        same("ref-0", "(same (object) 0)\n"),
        same("same-ref", "(let o (object) (same o o))\n"),
        same("same-act", "(let a (actor) (plus 1 (same a a)))\n"),
        same("by-actor", "(same (object) (actor))\n"),
        sent_isolates("by-series", "(same x this)", Rule::Same),
        same("by-number", "(same (object) (object))\n"),
        same("isolates", "(same (isolate (field a 1)) (isolate (field a 1)))\n"),
        sent_isolates("copies", "(same x y)", Rule::Same),
        sent_isolates("same-copy", "(same x x)", Rule::Same),
        same("same-fut", "(future f r (same f f))\n"),
        same("fut-res", "(future f r (same f r))\n"),
        same("same-in", "(get (if (plus 1 (same (plus 1 2) 3)) (object (method m () 1)) 2) a)\n"),
        same("of-sames", "(same (same 1 2) (same null null))\n").wanted(|state| state.actors[0].moves == 2),
    ]
}

/// All that can be asked, the rest of an if being short.
fn asked() -> Vec<Case> {
    let yes = |name, text: &str| Case::new(name, text, Rule::IfYes, INNER);
    let no = |name, text: &str| Case::new(name, text, Rule::IfNo, INNER);
    let resolved = |state: &mut State| {
        if let Some(future) = state.actors[0].future_mut(EntityNo::Made(MadeNo(0))) {
            *future = Future::Resolved(Value::Number(0));
        }
    };
    vec![
        no("if-null", "(if null 1 2)\n"),
        no("if-0", "(if 0 1 2)\n"),
        yes("if-1", "(if 1 2 3)\n"),
        yes("if-max", "(if 16777215 2 3)\n"),
        yes("if-object", "(if (object) 2 3)\n"),
        yes("if-iso", "(if (isolate (field a null)) 2 3)\n"),
        yes("if-actor", "(if (actor) 2 3)\n"),
        sent_isolates("if-copy", "(if x 2 3)", Rule::IfYes),
        yes("if-open", "(future f r (if f 2 3))\n"),
        yes("if-value", "(future f r (if f 2 3))\n").change(resolved),
        yes("if-res", "(future f r (if r f 3))\n"),
        no("if-first", "(if (if null 1 2) 3 4)\n"),
        yes("if-if", "(if (if null 1 2) 3 4)\n"),
        yes("if-same", "(if (same 1 1) 2 3)\n"),
        no("if-differ", "(if (same 1 2) 3 4)\n"),
    ]
}

/// What is taken, by either answer: of each two parts the first, and the second.
fn parts() -> Vec<Case> {
    let literal = |kind| format!("({kind} (field a (plus 1 2)) (field b this) (method m (x y) (if x y this)))");
    let [object, isolate, actor] = ["object", "isolate", "actor"].map(literal);
    let (long, longer) = (written(100), format!("(seq {} {isolate})", written(60)));
    let both = |yes, no, one: &str, other: &str| [taken(yes, 1, one, other), taken(no, 0, one, other)];
    let pairs = [
        both("yes-value", "no-value", "null", "(object)"),
        both("yes-if", "no-if", "(if 0 1 2)", "(if (same 1 1) (if 1 2 3) 4)"),
        both("yes-let", "no-let", "(let x 5 (if x (plus x x) x))", "(ask null m 1)"),
        both("yes-fut", "no-fut", "(future f r (if f r (send f m r)))", "(when 1 x (plus x 2))"),
        both("yes-obj", "no-obj", &object, &actor),
        both("yes-long", "no-long", &long, &longer),
        both("yes-wide", "no-wide", &objects(11), &objects(12)),
    ];
    pairs.into_iter().flatten().collect()
}

/// An if in the middle of something, with a line behind it.
fn taken(name: &'static str, asked: u32, one: &str, other: &str) -> Case {
    let text = format!("(get (plus 7 (if {asked} {one} {other})) a)\n(object (method m () 1))\n");
    Case::new(name, text, if asked == 0 { Rule::IfNo } else { Rule::IfYes }, INNER)
}

/// Literals that have nearly as many headers as nodes, which makes them long in words.
fn objects(count: usize) -> String {
    let fields: String = ["a", "b", "c", "d"].map(|name| format!(" (field {name} 1)")).concat();
    let methods: String = ["m", "n", "k", "l"].map(|name| format!(" (method {name} () 1)")).concat();
    format!("{}2{}", format!("(seq (object{fields}{methods}) ").repeat(count), ")".repeat(count))
}
