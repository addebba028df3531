//! Scripts that come up to one limit, or one past it.

mod choices;
mod listings;
mod methods;
mod texts;

use super::rng::Rng;
use super::{joined, live, schedule};

pub(crate) use listings::listing_of_size;

/// An input for a limit taken at random.
pub fn input(rng: &mut Rng) -> Vec<u8> {
    if rng.chance(3) {
        return listing_of_size(near(rng, 65_536));
    }
    let make = rng.pick(&MAKERS);
    let (text, moves) = make(rng);
    let line = match rng.below(10) {
        0..=4 => spread(rng, moves),
        5..=7 => live(rng, text.as_bytes(), 4 * moves),
        _ => schedule(rng, moves),
    };
    joined(&line, text.as_bytes())
}

/// Makes a text, and says about how many moves of one actor it takes to get to the limit.
type Maker = fn(&mut Rng) -> (String, usize);

const MAKERS: [Maker; 36] = [
    inbox,
    inbox_answered,
    made,
    futures,
    copies_one_by_one,
    copies_at_once,
    copies_back,
    bodies,
    bodies_sent,
    waiting,
    woken,
    late,
    late,
    late,
    late,
    expression_called,
    expression_made,
    expression_loaded,
    actors,
    actor_expression,
    texts::size,
    texts::brackets,
    texts::words,
    texts::nodes,
    listings::listing,
    second_value,
    foreign,
    choices::counted,
    choices::long_parts,
    choices::identities,
    choices::identities,
    methods::called,
    methods::told,
    methods::told,
    methods::passed,
    methods::grown,
];

/// A schedule that lets actor 0 go on for long and then each of the others in turn.
fn spread(rng: &mut Rng, moves: usize) -> String {
    let moves = (moves + rng.between(0, 6)).min(1200);
    let mut line = "0".repeat(moves);
    for digit in ["1", "2", "3", "0"] {
        if rng.chance(70) {
            line += &digit.repeat(rng.between(0, moves.min(700)));
        }
    }
    line
}

/// A count at a limit or near it.
fn near(rng: &mut Rng, limit: usize) -> usize {
    limit - 2 + rng.between(0, 3)
}

/// A body of so many nodes.
fn body(nodes: usize) -> String {
    match nodes {
        0 | 1 => "1".to_owned(),
        2 => "(get this a)".to_owned(),
        _ => {
            let pairs = (nodes - 1) / 2;
            let inner = if nodes % 2 == 1 { "1" } else { "(get this a)" };
            format!("{}{inner}{}", "(plus 1 ".repeat(pairs.min(20)), ")".repeat(pairs.min(20)))
        }
    }
}

fn inbox(rng: &mut Rng) -> (String, usize) {
    let count = near(rng, 16) + 1;
    let target = rng.pick(&["(object (method m () 1))", "(actor (method m () 1))", "(future f r f)", "(future f r r)"]);
    let how = rng.pick(&["(send o m)\n", "(send o m 1 2 3)\n", "(send o m o)\n"]);
    let last = rng.pick(&["1", "(ask o m)", "(when o x x)", "(future f r (resolve r o))", "(resolve o 1)"]);
    (format!("(def o {target})\n{}{last}\n", how.repeat(count)), 2 * count + 10)
}

/// An answer that comes back to an inbox that has been filled meanwhile.
fn inbox_answered(rng: &mut Rng) -> (String, usize) {
    let count = near(rng, 16);
    let result = rng.pick(&["1", "this", "(isolate)", "(object)"]);
    let actor = format!("(actor (method m () {result}))");
    (format!("(def o (object))\n(ask {actor} m)\n{}1\n", "(send o m)\n".repeat(count)), 2 * count + 8)
}

fn made(rng: &mut Rng) -> (String, usize) {
    let count = near(rng, 32) + 1;
    let lines: String = (0..count).map(|_| rng.pick(&["(object)\n", "(isolate)\n", "(fn x x)\n"])).collect();
    (lines, 4 * count)
}

fn futures(rng: &mut Rng) -> (String, usize) {
    let before = rng.between(0, 3);
    let form = rng.pick(&["(future f r f)\n", "(ask 1 m)\n", "(when 1 x x)\n"]);
    ("(object)\n".repeat(before) + &form.repeat(17) + "1\n", 130)
}

fn copies_one_by_one(rng: &mut Rng) -> (String, usize) {
    let count = near(rng, 16) + 1;
    let args = rng.pick(&["i", "i i", "i 1 i", "(isolate)"]);
    (
        format!(
            "(def a (actor (method m (x) x)))\n(def i (isolate (field f this)))\n{}",
            format!("(send a m {args})\n").repeat(count)
        ),
        3 * count + 8,
    )
}

fn copies_at_once(rng: &mut Rng) -> (String, usize) {
    let depth = rng.between(1, 5);
    let chain = |end: &str| format!("{}{end}{}", "(isolate (field f ".repeat(depth), "))".repeat(depth));
    let shared = format!("(isolate (field a {}) (field b 1) (field c {}))", chain("null"), chain("this"));
    let count = rng.between(2, 5);
    (
        format!("(def a (actor))\n(def i {shared})\n{}1\n", "(send a m i i (isolate))\n".repeat(count)),
        20 * depth + 10 * count,
    )
}

fn copies_back(rng: &mut Rng) -> (String, usize) {
    let pass = "(method pass (x o) (seq (set x n (plus (get x n) 1)) (send o pass x this)))";
    let count = rng.between(1, 3);
    let start =
        "(send (actor ".to_owned() + pass + ") pass (isolate (field n 0) (field f (isolate (field n this)))) o)\n";
    (format!("(def o (object {pass}))\n{}", start.repeat(count)), 20 * count)
}

/// Objects made over and over; another object before them has the bodies come to the limit itself, or miss it by one.
fn bodies(rng: &mut Rng) -> (String, usize) {
    let kind = rng.pick(&["object", "isolate"]);
    let nodes = rng.between(24, 40);
    let methods = format!("(method b () {}) (method c (x) x)", body(nodes));
    let (each, loops) = (nodes + 1, nodes + 5);
    let rest = (768 - loops) % each + rng.between(0, 2);
    let first = format!("(object (method p () {}))\n", body(rest.max(2) - 1));
    let go = format!("(let o (object (method go () (seq ({kind} {methods}) (call this go)))) (call o go))\n");
    (first + &go, 120)
}

fn bodies_sent(rng: &mut Rng) -> (String, usize) {
    let nodes = rng.between(40, 60);
    let half = nodes / 2;
    let isolate = format!("(isolate (method b () {}) (method c () {}))", body(half), body(nodes - half));
    let count = near(rng, 16);
    (
        format!("(def a (actor (method m (x) x)))\n(def i {isolate})\n{}1\n", "(send a m i)\n".repeat(count)),
        3 * count + 6,
    )
}

fn waiting(rng: &mut Rng) -> (String, usize) {
    let which = rng.pick(&["f", "g", "r"]);
    let go = format!("(method go (f g r) (seq (send {which} m 1) (seq (send f n) (send this go f g r))))");
    let ends = rng.pick(&["(send o go f g r)", "(seq (send o go f g r) (when f x x))"]);
    (format!("(def o (object {go}))\n(future f r (future g s {ends}))\n"), 160)
}

/// Messages that wait and are then sent on, in an expression that has little room for them.
fn woken(rng: &mut Rng) -> (String, usize) {
    let count = rng.between(1, 16);
    let room = rng.between(0, 3);
    let sends = rng.pick(&["(send f m 1 2 3)", "(ask f m 1)", "(send f m)", "(when f x (plus x 1))"]);
    let value = rng.pick(&["5", "o", "null", "(actor (method m () 1))"]);
    let deep = "(plus 1 ".repeat(room * 8);
    let then = format!("(call o done r {value})");
    let object = format!(
        "(object (method done (r v) {deep}(call this end r v){}) (method end (r v) (resolve r v)) (method m () 1))",
        ")".repeat(room * 8)
    );
    let lines = format!("{sends}\n").repeat(count.min(if sends.starts_with("(send") { 16 } else { 6 }));
    let defs = "(def p (future f r (object (field f f) (field r r))))\n(def f (get p f))\n(def r (get p r))\n";
    (format!("(def o {object})\n{defs}{lines}{then}\n"), 200)
}

fn expression_called(rng: &mut Rng) -> (String, usize) {
    let grow = rng.pick(&[
        "(plus 1 (call this go (plus x 1)))",
        "(seq (set this a x) (plus 1 (call this go (plus x 1))))",
        "(call this go (call this go x))",
        "(let y (call this go x) (plus x y))",
        "(percent (call this go x) (plus x (plus x x)))",
        "(if (call this go (plus x 1)) (plus x 1) (same x this))",
        "(same x (if this (call this go x) (plus x x)))",
    ]);
    let around = rng.between(0, 6);
    let call = "(get ".repeat(around) + "(call o go 0)" + &" a)".repeat(around);
    (format!("(let o (object (field a 0) (method go (x) {grow})) {call})\n"), 420)
}

/// An object or isolate whose updates, with the lines after it, come to the limit.
fn expression_made(rng: &mut Rng) -> (String, usize) {
    let sizes = [(); 4].map(|()| rng.between(30, 41));
    let parts: String = (0..4).map(|at| format!(" (field f{at} {})", body(sizes[at]))).collect();
    let kind = rng.pick(&["object", "isolate"]);
    let rest = near(rng, 256) - 14 - sizes.iter().sum::<usize>();
    let last = if rest % 2 == 1 { "1" } else { "(get null a)" };
    (format!("({kind}{parts})\n{}{last}\n", "1\n".repeat((rest - 1) / 2)), 30)
}

fn expression_loaded(rng: &mut Rng) -> (String, usize) {
    let (form, nodes) = rng.pick(&[
        ("(when 1 x 1)", 13),
        ("(resolve 1 1)", 12),
        ("(ask 1 m)", 6),
        ("(if 0 1 (same 2 3))", 6),
        ("(fn x x)", 4),
        ("1", 1),
    ]);
    let target = 254 + rng.between(0, 4);
    let mut lines = target / (nodes + 1);
    let mut left = target - lines * (nodes + 1);
    while left == 0 {
        lines -= 1;
        left += nodes + 1;
    }
    let last = body(left);
    (format!("{form}\n").repeat(lines) + &last + "\n", rng.between(0, 40))
}

fn actors(rng: &mut Rng) -> (String, usize) {
    let count = rng.between(2, 5);
    if rng.chance(50) {
        return ("(actor (field a (plus 1 2)))\n".repeat(count), 2 * count);
    }
    let inner = "(method go () (actor (field a (actor)) (method go () this)))";
    (format!("(def a (actor {inner}))\n{}", "(ask a go)\n".repeat(count)), 12 * count)
}

fn actor_expression(rng: &mut Rng) -> (String, usize) {
    let parts = (0..4)
        .map(|at| format!(" (field f{at} (plus {} {}))", body(29), body(rng.between(29, 32))))
        .collect::<String>();
    (format!("(actor{parts})\n"), 5)
}

/// Messages that come to a future before and after it has its value.
fn late(rng: &mut Rng) -> (String, usize) {
    let (m, hops) = ("(method m (x) x)", rng.between(1, 5));
    let value = rng.pick(&["5", "o", "null", "(actor (method m (x) x))", "(isolate (method m (x) x))", "(ask o m 7)"]);
    let asks = "(seq (send f m 1) (seq (ask f m 2) (when f x x)))";
    let hop = format!("(method hop (f n) (send this hop{hops} f))");
    let pass: String =
        (2..=hops).map(|at| format!(" (method hop{at} (f) (send this hop{} f))", at - 1)).take(1).collect();
    let object = format!("(object {m} {hop}{pass} (method hop1 (f) {asks}))");
    let pair = "(def p (future f r (object (field f f) (field r r))))\n";
    let before = rng.pick(&["", "(send (get p f) m 3)\n", "(when (get p f) x (get p f))\n"]);
    (format!("(def o {object})\n{pair}{before}(resolve (get p r) {value})\n(send o hop (get p f) 1)\n"), 90)
}

/// Another actor's entities asked for what only their owner can do.
fn foreign(rng: &mut Rng) -> (String, usize) {
    let ask = rng.pick(&["(get a b)", "(set a b 1)", "(call a m)", "(call a n 1 2)", "(plus a 1)"]);
    let body = rng.pick(&[
        "(get x b)",
        "(call x m)",
        "(set x b this)",
        "(send x m)",
        "(resolve x 1)",
        "(when x y y)",
        "(when 1 y x)",
    ]);
    let actor = format!("(actor (field b 1) (method m () 2) (method n (x) {body}))");
    let object = "(def o (object (field b 1) (method m () 2)))\n";
    let sends = "(send a n o)\n(send a n (future f r f))\n(send a n (isolate (field b 1)))\n";
    (format!("(def a {actor})\n{object}{sends}{ask}\n"), 30)
}

/// Futures that get a value a second time, or a future as their value.
fn second_value(rng: &mut Rng) -> (String, usize) {
    let body = rng.pick(&[
        "(seq (resolve r 5) (resolve r 6))",
        "(seq (resolve r f) (resolve r 6))",
        "(seq (when 1 x (resolve r x)) (when 2 x (resolve r x)))",
        "(when 1 x f)",
        "(when (actor) x (future g s g))",
        "(seq (ask (object (method m () 1)) m) (seq (resolve r (ask (actor (method m () 2)) m)) (resolve r f)))",
    ]);
    let text = match rng.chance(50) {
        true => format!("(future f r {body})\n"),
        false => format!("(future f r (seq (send f m 1) {body}))\n"),
    };
    (text, rng.between(10, 70))
}

#[cfg(test)]
mod tests {
    use super::*;
    use crate::read;

    #[test]
    fn texts_are_good_or_too_large() {
        let mut rng = Rng::new(9);
        for _ in 0..40 {
            for (at, make) in MAKERS.iter().enumerate() {
                let (text, _) = make(&mut rng);
                assert!([None, Some(1), Some(5)].contains(&read(text.as_bytes()).err()), "maker {at}:\n{text}");
            }
        }
    }

    #[test]
    fn bodies_have_the_nodes_asked_for() {
        for nodes in 1..=41 {
            let text = body(nodes) + "\n";
            let state = crate::load(&read(text.as_bytes()).unwrap()).unwrap();
            assert_eq!(state.actors[0].counts.nodes, nodes);
        }
    }
}
