//! A move by each rule.

use super::build::*;
use super::{choices, methods, Case, Group};
use crate::census::Rule;
use crate::state::*;

pub fn groups() -> Vec<Group> {
    let group = |name, cases| Group { name, cases };
    vec![
        group("numbers", numbers().into_iter().chain(choices::cases()).collect()),
        group("names", names().into_iter().chain(methods::bound()).collect()),
        group("heap", heap().into_iter().chain(methods::called()).collect()),
        group("literals", literals().into_iter().chain(methods::made_of()).collect()),
        group("sends", sends().into_iter().chain(listeners()).collect()),
        group("isolates", isolates().into_iter().chain(methods::passed()).collect()),
        group("resolving", resolving()),
        group("takes", takes().into_iter().chain(methods::taken()).collect()),
        group("futures", futures()),
    ]
}

fn numbers() -> Vec<Case> {
    let plus = |name, text| Case::new(name, text, Rule::Plus, INNER);
    let percent = |name, text| Case::new(name, text, Rule::Percent, INNER);
    vec![
        plus("plus", "(plus 2 3)\n"),
        plus("plus-0", "(plus 0 0)\n"),
        plus("plus-max", "(plus 16777214 1)\n"),
        plus("plus-in", "(let x (plus (plus 1 (plus 2 3)) (plus 4 5)) (plus x x))\n"),
        percent("percent", "(percent 250 12)\n"),
        percent("percent-0", "(percent 16777215 0)\n"),
        percent("round", "(percent 1 99)\n"),
        percent("pct-max", "(percent 16777215 100)\n"),
        percent("pct-wide", "(percent 40959 40960)\n"),
        percent("pct-in", "(get (plus 1 (percent 399 25)) a)\n"),
    ]
}

fn names() -> Vec<Case> {
    let bind = |name, text: &str| Case::new(name, text, Rule::Let, INNER);
    let objects = "(object (field a x) (method m (y) (plus x y)) (method n (x) x))";
    let closed = "(seq x (seq (isolate (method m (x) x)) (actor (field x 1) (method m (x) (let x x x)))))";
    vec![
        bind("let", "(let x 5 (plus x x))\n"),
        bind("let-null", "(let x null x)\n"),
        bind("let-ref", "(let x (object) (send x m x x x))\n"),
        bind("shadowed", "(let x 5 (let x (plus x 1) (plus x 2)))\n"),
        bind("other", "(let x 5 (let y 6 (plus x y)))\n"),
        bind("unused", "(let x 5 7)\n"),
        bind("let-objs", &format!("(let x 5 (let y {objects} x))\n")),
        bind("let-shut", &format!("(let x 5 {closed})\n")),
        bind("let-futs", "(let x 5 (future f r (future x y (seq x (set f a r)))))\n"),
        bind("let-deep", "(get (plus 1 (let x 2 (call x m x))) a)\n"),
        bind("seq", "(seq 1 (let s 2 s))\n"),
        bind("let-fn", "(let x 3 (fn y (plus x y)))\n"),
        bind("let-if", "(let x 5 (if x (let y x (same x y)) (let x x (if 0 x x))))\n"),
        bind("let-same", "(let x (object) (same x (same 1 x)))\n"),
    ]
}

fn heap() -> Vec<Case> {
    let (get, set, call) = (Rule::Get, Rule::Set, Rule::Call);
    let four = "(object (field a 1) (field b null) (field c this) (field d 4) (method m () 1) (method a (x) x) \
                (method b (x y z) (plus (get this a) (call z m y x))) (method d () (object (method m (w) this))))";
    let on = |body: &str| format!("(let o {four} {body})\n");
    let chooser = "(object (method m (x y) (if (same x this) (if y this x) (fn x (same x (if this y 1))))))";
    let there = "(def a (actor (method m (x) (seq (set x b 9) (plus (get x a) (call x n 3))))))\n\
                 (send a m (isolate (field a 1) (field b null) (method n (y) (seq y this))))\n";
    let copy = |name, rule| Case::new(name, there, rule, INNER).order("01").mover(1);
    vec![
        Case::new("get", on("(get o d)"), get, INNER),
        Case::new("get-null", on("(get o b)"), get, INNER),
        Case::new("get-ref", on("(plus 1 (get o c))"), get, INNER),
        Case::new("get-iso", "(get (isolate (field a 3)) a)\n", get, INNER),
        copy("get-copy", get),
        Case::new("set", on("(set o b 9)"), set, INNER).wanted(|state| state.actors[0].moves > 9),
        Case::new("set-ref", on("(plus (set o d o) 1)"), set, INNER).wanted(|state| state.actors[0].moves > 9),
        Case::new("set-first", "(object (field a (plus 1 2)))\n", set, INNER),
        copy("set-copy", set),
        Case::new("call", on("(call o m)"), call, INNER),
        Case::new("call-1", on("(call o a o)"), call, INNER),
        Case::new("call-3", on("(plus (call o b 1 2 o) 1)"), call, INNER),
        Case::new("call-obj", on("(call o d)"), call, INNER),
        Case::new("call-fn", "(call (fn x (seq this (plus x 1))) apply 4)\n", call, INNER),
        Case::new("call-if", format!("(call {chooser} m 4 null)\n"), call, INNER),
        copy("call-copy", call),
    ]
}

fn literals() -> Vec<Case> {
    let parts = "(field a (plus 1 2)) (field b this) (field c (object (field a this))) \
                 (method m (x y z) (plus x y)) (method n () (set this a 1))";
    let more = "(def a (actor (method go () (actor (field f this)))))\n(send a go)\n";
    let all = |kind: &str| format!("(get ({kind} {parts}) a)\n");
    let chooser = |kind: &str| {
        format!("({kind} (field a (if this 1 (same this 2))) (method m (x) (if x (same this x) (if 0 1 x))))\n")
    };
    vec![
        Case::new("object", "(object)\n", Rule::Object, INNER),
        Case::new("obj-parts", all("object"), Rule::Object, INNER),
        Case::new("obj-in", all("object"), Rule::Object, INNER).wanted(|state| state.actors[0].made.len() == 1),
        Case::new("obj-after", "(object (method m () 1))\n(object (method m (x) x))\n", Rule::Object, INNER)
            .wanted(|state| state.actors[0].made.len() == 1),
        Case::new("isolate", "(isolate)\n", Rule::Isolate, INNER),
        Case::new("iso-parts", all("isolate"), Rule::Isolate, INNER),
        Case::new(
            "obj-copy",
            "(send (actor (method m (x) (object (method n () 2)))) m (isolate (method n () 1)))\n",
            Rule::Object,
            INNER,
        )
        .order("01")
        .mover(1),
        Case::new("actor", "(actor)\n", Rule::Actor, created(1)),
        Case::new("act-parts", all("actor"), Rule::Actor, created(1)),
        Case::new("actor-2", "(actor)\n(actor (field f null))\n", Rule::Actor, created(2)),
        Case::new("actor-3", "(actor)\n(actor)\n(plus 1 (actor (method m () this)))\n", Rule::Actor, created(3)),
        Case::new("by-actor", more, Rule::Actor, created(2)).order("01").mover(1),
        Case::new("obj-if", chooser("object"), Rule::Object, INNER),
        Case::new("act-if", chooser("actor"), Rule::Actor, created(1)),
    ]
}

fn sends() -> Vec<Case> {
    let (own, other) = (Rule::SendOwn, Rule::SendOther);
    let (two, resolve, register) = (Rule::SendTwoWay, Rule::SendResolve, Rule::SendRegister);
    let shop = "(actor (method m (x) x) (method back (f) (resolve f 5)) (method w (f) (when f x x)))";
    let ask = format!("(ask {shop} m 1 2 3)\n");
    let back = format!("(future f r (send {shop} back r))\n");
    let when = format!("(future f r (send {shop} w f))\n");
    let asked = "(ask (actor (method m () null)) m)\n";
    vec![
        Case::new("own", "(send (object) m)\n", own, sent(0)),
        Case::new("own-3", "(plus 1 (send (object) m 1 null 3))\n", own, sent(0)),
        Case::new("own-iso", "(def i (isolate))\n(send i m i)\n", own, sent(0)),
        Case::new("own-fut", "(future f r (send f m r))\n", own, sent(0)),
        Case::new("own-more", "(def o (object))\n(send o m)\n(send o n)\n", own, sent(0))
            .wanted(|state| state.actors[0].inbox.len() == 1),
        Case::new("other", "(send (actor) m)\n", other, sent(1)),
        Case::new("other-3", "(def o (object))\n(seq (send (actor) m 1 o null) 2)\n", other, sent(1)),
        Case::new("other-2", "(def a (actor))\n(send (actor) m a)\n", other, sent(2)),
        Case::new("ask-own", "(ask (object) m)\n", two, sent(0)),
        Case::new("ask-other", ask, two, sent(1)),
        Case::new("res-own", "(future f r (resolve r 5))\n", resolve, sent(0)),
        Case::new("res-other", back, resolve, sent(0)).order("01").mover(1),
        Case::new("reg-own", "(resolve null (object))\n", register, sent(0)),
        Case::new("reg-fut", "(future f r (when f x x))\n", register, sent(0)),
        Case::new("reg-other", when, register, sent(0)).order("01").mover(1),
        Case::new("reg-num", "(when 5 x x)\n", Rule::RegisterNumber, INNER),
        Case::new("reg-in", "(plus (when 0 x x) 1)\n", Rule::RegisterNumber, INNER),
        Case::new("reg-null", "(resolve null null)\n", Rule::RegisterNull, INNER),
        Case::new("when-null", "(when null x x)\n", Rule::RegisterNull, INNER),
        Case::new("null-in", "(plus (when null x x) 1)\n", Rule::RegisterNull, INNER),
        Case::new("null-told", asked, Rule::RegisterNull, INNER).order("01").mover(1),
    ]
}

/// What null tells its value to. Scripts bring objects alone; a state may have any value there.
fn listeners() -> Vec<Case> {
    let told = |name, text: &str, actors: usize, listener: Value| {
        Case::new(name, text, Rule::RegisterNull, INNER).wanted(move |state| state.actors.len() == actors).change(
            move |state| {
                let there = state.actors.len() == actors && !state.actors[actors - 1].made.is_empty();
                if there && state.actors[0].expression.value().is_some() {
                    state.actors[0].expression = registering(Value::Null, listener);
                }
            },
        )
    };
    vec![
        told("to-null", "(object)\n", 1, Value::Null),
        told("to-number", "(object)\n", 1, Value::Number(7)),
        told("to-iso", "(isolate (field a 1))\n", 1, made(0, 0)),
        told("to-fut", "(future f r r)\n", 1, made(0, 0)),
        told("to-other", "(actor)\n", 2, made(1, 0)),
    ]
}

fn isolates() -> Vec<Case> {
    let (other, own) = (Rule::SendOther, Rule::SendOwn);
    let chain = "(isolate (field f (isolate (field n 1) (method m (x) (plus x 1)))) (field g this))";
    let twice = format!("(def a (actor))\n(def i {chain})\n(send a m i i)\n(send a n 1 i (isolate (method k () 7)))\n");
    let back = "(def o (object))\n(def a (actor (method m (x o) (send o n x this x))))\n\
                (send a m (isolate (field f (isolate)) (field n null)) o)\n";
    vec![
        Case::new("one", "(def a (actor))\n(send a m (isolate (field n 5) (method m (x) x)))\n", other, sent(1)),
        Case::new("chain", twice.clone(), other, sent(1)),
        Case::new("again", twice.clone(), other, sent(1)).wanted(|state| state.actors[1].copies.len() == 2),
        Case::new("back", back, other, sent(0)).order("01").mover(1),
        Case::new("in-object", "(def a (actor))\n(send a m (object (field f (isolate))))\n", other, sent(1)),
        Case::new(
            "refs",
            "(def a (actor))\n(def i (isolate (field a null) (field b null)))\n(set i a a)\n\
                  (set i b (object))\n(send a m i)\n",
            other,
            sent(1),
        ),
        Case::new("own-chain", format!("(send (object) m {chain})\n"), own, sent(0)),
        Case::new("two-way", format!("(def a (actor))\n(def i {chain})\n(ask a m i 2 i)\n"), Rule::SendTwoWay, sent(1)),
        Case::new("register", "(when (actor) x x)\n", Rule::SendRegister, sent(1)),
        Case::new("choosing", "(send (actor) m (isolate (method m (x) (if x (same x this) 3))))\n", other, sent(1)),
        Case::new(
            "deep",
            "(send (actor) m (isolate (field a (isolate (field a (isolate)) (field b (isolate)))) \
                  (field b (isolate (field c this)))) 1)\n",
            other,
            sent(1),
        ),
    ]
}

fn resolving() -> Vec<Case> {
    let waits = "(def o (object (method m () 1)))\n(future f r (future g s (seq (send g k 1 2 3) (seq (send f m) \
                 (seq (when f x (plus x 1)) (seq (send f n 3) (seq (send g k) (resolve r 5))))))))\n";
    let call = |name, text: &str| Case::new(name, text, Rule::CallResolve, INNER);
    let waiting = |number: u8, count: usize| {
        move |state: &State| {
            matches!(state.actors[0].future(EntityNo::Made(MadeNo(number))),
                                      Some(Future::Open(messages)) if messages.len() == count)
        }
    };
    let wide = "(future f r (seq (ask f m 1 2 3) (seq (send f m 1 2 3) (resolve r 4))))\n";
    vec![
        call("resolve", "(future f r (resolve r 5))\n"),
        call("to-ref", "(future f r (resolve r (object)))\n"),
        call("waiting", waits).wanted(waiting(1, 3)),
        call("to-other", "(future f r (seq (send f m) (resolve r (actor))))\n").order("01"),
        call("of-two", "(future f r (future g s (seq (send f m) (seq (send g n) (resolve s 6)))))\n"),
        call("asked", "(ask (actor (method m () 7)) m)\n").order("01"),
        call("wide", wide),
    ]
}

fn takes() -> Vec<Case> {
    let (call, two) = (Rule::TakeCall, Rule::TakeTwoWay);
    let more = "(def o (object (method m (x y z) x)))\n(send o m 1 2 3)\n(send o n)\n(send o k)\n";
    let copy = "(def a (actor (method m (x) (send x n 1))))\n(send a m (isolate (method n (y) y)))\n";
    vec![
        Case::new("plain", "(send (object) m)\n", call, TAKEN),
        Case::new("plain-3", more, call, TAKEN),
        Case::new("second", more, call, TAKEN).wanted(|state| state.actors[0].inbox.len() == 2),
        Case::new("of-value", "(seq (send (object) m 1) 7)\n", call, TAKEN),
        Case::new("of-ref", "(def o (object))\n(seq (send o m o) o)\n", call, TAKEN),
        Case::new("of-actor", "(send (actor) m 1 2)\n", call, TAKEN).order("0").mover(1),
        Case::new("to-copy", copy, call, TAKEN)
            .order("01")
            .mover(1)
            .wanted(|state| matches!(state.actors[1].inbox[0].receiver.entity, EntityNo::Copy(_))),
        Case::new("two-way", "(ask (object) m)\n", two, TAKEN),
        Case::new("two-way-3", "(def o (object))\n(ask o m 1 o null)\n", two, TAKEN),
        Case::new("resolve", "(future f r (resolve r 5))\n", Rule::TakeResolve, TAKEN),
        Case::new("res-obj", "(resolve (object) 5)\n", Rule::TakeResolve, TAKEN),
        Case::new("register", "(when (object) x x)\n", Rule::TakeRegister, TAKEN),
        Case::new("reg-iso", "(resolve null (isolate))\n", Rule::TakeRegister, TAKEN),
        Case::new("reg-res", "(future f r (resolve r r))\n", Rule::TakeRegister, TAKEN),
    ]
}

fn futures() -> Vec<Case> {
    let (wait, forward, register) = (Rule::TakeWait, Rule::TakeForward, Rule::TakeForwardRegister);
    let two = "(future f r (future g s (seq (send g a) (seq (send f b 1 2) (seq (send g c) (seq (when f x x) 1))))))\n";
    let late = |value: &str, what: &str| {
        format!(
            "(def o (object (method go (f) (send this on f)) (method on (f) {what})))\n\
                 (future f r (seq (resolve r {value}) (send o go f)))\n"
        )
    };
    let waiting = |count: usize| {
        move |state: &State| {
            let open = |entity: &Entity| match entity {
                Entity::Future(Future::Open(messages)) => messages.len(),
                _ => 0,
            };
            state.actors[0].made.iter().map(open).sum::<usize>() == count
        }
    };
    vec![
        Case::new("future", "(future f r (seq f r))\n", Rule::Future, INNER),
        Case::new("future-2", "(get (future f r (future f s (plus f (call r m s)))) a)\n", Rule::Future, INNER),
        Case::new("future-in", "(get (future f r (future f s (plus f (call r m s)))) a)\n", Rule::Future, INNER)
            .wanted(|state| state.actors[0].made.len() == 2),
        Case::new("future-if", "(future f r (if f (same f r) (let f r (same f r))))\n", Rule::Future, INNER),
        Case::new("open", "(future f r (send f m 1 2 3))\n", wait, TAKEN),
        Case::new("first", two, wait, TAKEN),
        Case::new("before", two, wait, TAKEN).wanted(waiting(1)),
        Case::new("behind", two, wait, TAKEN).wanted(waiting(2)),
        Case::new("between", two, wait, TAKEN).wanted(waiting(3)),
        Case::new("open-ask", "(future f r (ask f m 1 2 3))\n", wait, TAKEN),
        Case::new("open-res", "(future f r (resolve f 5))\n", wait, TAKEN),
        Case::new("on-number", late("5", "(send f m 1 2)"), forward, TAKEN),
        Case::new("on-object", late("o", "(send f go null)"), forward, TAKEN),
        Case::new("on-actor", late("(actor)", "(ask f m 1 this)"), forward, TAKEN).order("01"),
        Case::new("on-res", late("5", "(resolve f 1)"), forward, TAKEN)
            .wanted(|state| matches!(state.actors[0].inbox[0].name, crate::term::Name::Resolve)),
        Case::new("reg-on", late("5", "(when f x x)"), register, TAKEN),
        Case::new("reg-on-o", late("o", "(when f x x)"), register, TAKEN),
    ]
}
