//! Scripts in which several actors send to each other, so that the order of their moves can differ.

use oracle::generate::rng::Rng;
use oracle::generate::{joined, live, schedule};

/// Bodies of the methods. What they are given is not always what they ask of it.
const GO: [&str; 18] = [
    "(send x go y this)",
    "(send y go this x)",
    "(send x put (plus (get this n) 1))",
    "(send y keep (isolate (field l (isolate (field n 3))) (field n 2)))",
    "(let i (isolate (field l null)) (seq (set i l i) (seq (send x keep i) (send y keep i))))",
    "(send x keep (get this k))",
    "(ask x tell y)",
    "(when (ask x tell y) v (send y put v))",
    "(when (ask y tell this) v (set this k v))",
    "(when (ask x tell y) v (send y keep v))",
    "(when null v (send x keep v))",
    "(send this put 5)",
    "(set this k (actor (field n 1) (method put (v) (set this n v))))",
    "(future f r (seq (send x keep f) (resolve r y)))",
    "(if (same x y) (send x put 3) (send y go x x))",
    "(if (same x (get this k)) (send y keep null) (set this k x))",
    "(if (get this n) (seq (set this n 0) (send x go this y)) (send this put 1))",
    "(when (ask x tell y) v (if v (send y keep v) (send x keep (same v null))))",
];
const PUT: [&str; 8] = [
    "(set this n v)",
    "(set this n (plus (get this n) v))",
    "v",
    "(send this keep v)",
    "(percent v 50)",
    "(send v put 1)",
    "(if (same v (get this n)) 0 (set this n v))",
    "(set this n (if v (plus 1 (same v 1)) (get this k)))",
];
const KEEP: [&str; 8] = [
    "(set this k v)",
    "(get v l)",
    "(send this put (get this k))",
    "v",
    "(set v l v)",
    "(send (get this k) put v)",
    "(send this put (same v (get this k)))",
    "(if (get this k) (send (get this k) keep v) (set this k v))",
];
/// What is asked for; the last two come to null.
const TELL: [&str; 11] = [
    "(get this n)",
    "(seq (send x put 1) 7)",
    "this",
    "(isolate (field l 1))",
    "(ask x tell this)",
    "(get this k)",
    "(object (field n 1))",
    "(same x this)",
    "(if (same x (get this k)) this (get this k))",
    "(seq (set this n 2) null)",
    "(send x put 2)",
];
/// Lines after the definitions of the actors.
const LINES: [&str; 16] = [
    "(send a go b c)",
    "(send b go c a)",
    "(send c go a b)",
    "(send a put 1)",
    "(send b put 2)",
    "(ask c tell a)",
    "(when (ask a tell b) v (send c put v))",
    "(send b keep (isolate (field l (isolate))))",
    "(future f r (seq (send a go f b) (resolve r c)))",
    "(future f r (seq (send c keep f) (resolve r (ask b tell a))))",
    "(let i (isolate (field l 4)) (seq (send a keep i) (send b keep i)))",
    "(when (ask b tell c) v (when (ask c tell a) w (send a put v)))",
    "(when null v (send a keep v))",
    "(future f r (seq (send b keep f) (resolve r null)))",
    "(if (same a b) (send c go a a) (send a go c b))",
    "(future f r (if f (seq (send a keep f) (resolve r (same f r))) 0))",
];

/// The methods of one parameter. One of them may be called as that of two is: the arguments tell them apart then, and what
/// is asked for is found only where a resolver does not count.
const OF_ONE: [&str; 3] = ["put", "keep", "tell"];

/// A schedule line and a script.
pub fn input(rng: &mut Rng) -> Vec<u8> {
    let text = script(rng);
    let length = rng.pick(&[20, 60, 120, 200]);
    let line = if rng.chance(80) { live(rng, text.as_bytes(), length) } else { schedule(rng, length) };
    joined(&line, text.as_bytes())
}

fn script(rng: &mut Rng) -> String {
    let actors = rng.between(1, 3);
    let mut text: String = ["a", "b", "c"].iter().map(|name| define(rng, name)).take(actors).collect();
    // the words that are left name what is there already
    for name in &["a", "b", "c"][actors..] {
        text += &format!("(def {name} a)\n");
    }
    for _ in 0..rng.between(1, 5) {
        text += rng.pick(&LINES);
        text += "\n";
    }
    if rng.chance(50) {
        text = text.replace(rng.pick(&OF_ONE), "go");
    }
    text
}

fn define(rng: &mut Rng, name: &str) -> String {
    let mut body = |forms: &[&'static str]| {
        let one = rng.pick(forms);
        if rng.chance(30) {
            format!("(seq {one} {})", rng.pick(forms))
        } else {
            one.to_owned()
        }
    };
    let (go, put, keep, tell) = (body(&GO), body(&PUT), body(&KEEP), body(&TELL));
    format!(
        "(def {name} (actor (field n 0) (field k null) (method go (x y) {go}) (method put (v) {put}) \
         (method keep (v) {keep}) (method tell (x) {tell})))\n"
    )
}
