//! Choices at the edge: loops that end or grow too long, parts as long as an expression may be, and references that are
//! nearly the same.

use super::{body, near};
use crate::generate::rng::Rng;

/// A method that calls itself until a count is reached, some of them with too much around the call.
pub fn counted(rng: &mut Rng) -> (String, usize) {
    let count = rng.between(0, 130);
    let step = rng.pick(&[
        "(call this go (plus n 1))",
        "(plus 1 (call this go (plus n 1)))",
        "(if (call this go (plus n 1)) n null)",
        "(send this go (plus n 1))",
    ]);
    let ends = rng.pick(&["n", "this", "null", "(object)", "(future f r f)"]);
    let body = match rng.chance(50) {
        true => format!("(if (same n {count}) {ends} {step})"),
        false => format!("(if (if (same n {count}) 0 1) {step} {ends})"),
    };
    (format!("(let o (object (method go (n) {body})) (call o go 0))\n"), 5 * count + 10)
}

/// An if of about as many nodes as an expression can have.
pub fn long_parts(rng: &mut Rng) -> (String, usize) {
    let (asked, nodes) = rng.pick(&[
        ("null", 1),
        ("0", 1),
        ("1", 1),
        ("(object)", 1),
        ("(future f r f)", 2),
        ("(same 1 1)", 3),
        ("(if 0 1 null)", 4),
    ]);
    let both = near(rng, 256) - 1 - nodes;
    let first = rng.between(1, both - 1);
    (format!("(if {asked} {} {})\n", long(first), long(both - first)), rng.between(1, 40))
}

/// An expression of so many nodes.
fn long(nodes: usize) -> String {
    match nodes {
        0..=30 => body(nodes),
        _ => format!("(seq {} {})", body(29), long(nodes - 30)),
    }
}

/// An actor that compares what it is sent with what it has: objects, isolates and their copies, futures and actors.
pub fn identities(rng: &mut Rng) -> (String, usize) {
    let things = ["o", "a", "i", "(get i f)", "f", "r", "null", "0", "1", "(isolate)", "(object)"];
    let compare = rng.pick(&["x y", "x this", "x (get this k)", "(get this k) y", "y x"]);
    let told = rng.pick(&["(set this k y)", "(send x m y this)", "(send y m this x)", "(ask x m this y)"]);
    let method = format!("(method m (x y) (if (same {compare}) (set this k x) {told}))");
    let lines: String = (0..rng.between(2, 6))
        .map(|_| {
            let to = rng.pick(&["a", "o", "b"]);
            format!("(send {to} m {} {})\n", rng.pick(&things), rng.pick(&things))
        })
        .collect();
    let pair = "(def p (future f r (object (field f f) (field r r))))\n(def f (get p f))\n(def r (get p r))\n";
    let isolate = "(def i (isolate (field f (isolate (field g null)))))\n";
    let actors = format!("(def a (actor (field k null) {method}))\n(def b (actor (field k 0) {method}))\n");
    let last = format!("(same {} {})\n", rng.pick(&things), rng.pick(&things));
    (format!("(def o (object (field k null) {method}))\n{actors}{isolate}{pair}{lines}{last}"), 60)
}

#[cfg(test)]
mod tests {
    use super::*;
    use crate::{load, read};

    #[test]
    fn long_parts_come_to_the_limit() {
        let nodes = |nodes| load(&read((long(nodes) + "\n").as_bytes()).unwrap()).unwrap().actors[0].counts.nodes;
        assert!((1..=250).all(|wanted| nodes(wanted) == wanted));
        let mut rng = Rng::new(6);
        let loaded = |text: &str| load(&read(text.as_bytes()).unwrap()).is_ok();
        let good = (0..200).filter(|_| loaded(&long_parts(&mut rng).0)).count();
        assert!((120..180).contains(&good), "{good}");
    }
}
