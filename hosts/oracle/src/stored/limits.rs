//! Each limit of refusal 16: a move that comes to it, and one that would pass it.

use super::build::*;
use super::{Case, Group};
use crate::census::Rule;
use crate::state::*;
use crate::term::Term;

pub fn groups() -> Vec<Group> {
    let group = |name, cases| Group { name, cases };
    vec![
        group("moves", [moves(), choosing_moves(), named_moves()].into_iter().flatten().collect()),
        group("inboxes", inboxes()),
        group("entities", entities()),
        group("bodies", method_bodies().into_iter().chain(named_bodies()).collect()),
        group("nodes", [nodes(), choosing_nodes(), named_nodes()].into_iter().flatten().collect()),
        group("actors", actors()),
    ]
}

const FULL: Move = Err(16);

/// A move of an actor that has made so many.
fn last(name: &'static str, text: &str, rule: Rule, answer: Move, moves: u32) -> Case {
    Case::new(name, text, rule, answer).change(move |state| state.actors[0].moves = moves)
}

/// The last move, by several rules; a receiver that can move no more still gets its message.
fn moves() -> Vec<Case> {
    let (most, ask) = (most::MOVES, "(ask (object (method m () 1)) m)\n");
    let other = "(send (actor) m (isolate (field a 1)))\n";
    vec![
        last("plus-last", "(plus 1 2)\n", Rule::Plus, INNER, most - 1),
        last("plus", "(plus 1 2)\n", Rule::Plus, FULL, most),
        last("percent", "(percent 1 2)\n", Rule::Percent, FULL, most),
        last("let", "(let x 1 x)\n", Rule::Let, FULL, most),
        last("get", "(get (object (field a 1)) a)\n", Rule::Get, FULL, most),
        last("set", "(object (field a 1))\n", Rule::Set, FULL, most),
        last("object", "(object)\n", Rule::Object, FULL, most),
        last("isolate", "(isolate)\n", Rule::Isolate, FULL, most),
        last("call", "(call (fn x x) apply 1)\n", Rule::Call, FULL, most),
        last("future", "(future f r f)\n", Rule::Future, FULL, most),
        last("actor", "(actor)\n", Rule::Actor, FULL, most),
        last("own-last", "(send (object) m)\n", Rule::SendOwn, sent(0), most - 1),
        last("own", "(send (object) m)\n", Rule::SendOwn, FULL, most),
        last("other", other, Rule::SendOther, FULL, most),
        Case::new("receiver", other, Rule::SendOther, sent(1)).wanted(|state| state.actors.len() == 2).change(
            |state| {
                if let Some(other) = state.actors.get_mut(1) {
                    other.moves = most::MOVES
                }
            },
        ),
        last("reg-num", "(when 5 x x)\n", Rule::RegisterNumber, FULL, most),
        last("null-last", "(when null x x)\n", Rule::RegisterNull, INNER, most - 1),
        last("reg-null", "(when null x x)\n", Rule::RegisterNull, FULL, most),
        last("resolve", "(future f r (resolve r 5))\n", Rule::CallResolve, FULL, most),
        last("take-last", "(send (object) m)\n", Rule::TakeCall, TAKEN, most - 1),
        last("take", "(send (object) m)\n", Rule::TakeCall, FULL, most),
        last("take-ask", ask, Rule::TakeTwoWay, FULL, most),
        last("wait", "(future f r (send f m))\n", Rule::TakeWait, FULL, most),
    ]
}

/// The same of comparing and choosing.
fn choosing_moves() -> Vec<Case> {
    let most = most::MOVES;
    vec![
        last("same-last", "(same 1 2)\n", Rule::Same, INNER, most - 1),
        last("same", "(same null (object))\n", Rule::Same, FULL, most),
        last("yes-last", "(if 1 (plus 2 3) 4)\n", Rule::IfYes, INNER, most - 1),
        last("if-yes", "(if 1 (plus 2 3) 4)\n", Rule::IfYes, FULL, most),
        last("no-last", "(if null 1 2)\n", Rule::IfNo, INNER, most - 1),
        last("if-no", "(if null 1 2)\n", Rule::IfNo, FULL, most),
    ]
}

/// The same of a call that finds one of several methods.
fn named_moves() -> Vec<Case> {
    let text = "(call (object (method m () 1) (method m (x) x)) m 2)\n";
    vec![
        last("name-last", text, Rule::CallOfSeveral, INNER, most::MOVES - 1),
        last("name", text, Rule::CallOfSeveral, FULL, most::MOVES),
    ]
}

fn inboxes() -> Vec<Case> {
    let own = |name, answer, count| {
        Case::new(name, "(send (object) m)\n", Rule::SendOwn, answer).change(move |state| {
            if !state.actors[0].made.is_empty() {
                fill_inbox(state, 0, count);
            }
        })
    };
    let other = |name, text: &str, answer, count| {
        Case::new(name, text, Rule::SendOther, answer).change(move |state| {
            if state.actors.len() > 1 {
                fill_inbox(state, 1, count);
            }
        })
    };
    let send = "(send (actor) m 1)\n";
    let waiting = |name, answer, count| {
        Case::new(name, "(future f r (send f m 1))\n", Rule::TakeWait, answer)
            .change(move |state| fill_waiting(state, 0, count))
    };
    vec![
        own("own-16", sent(0), 15),
        own("own", FULL, 16),
        other("other-16", send, sent(1), 15),
        other("other", send, FULL, 16),
        other("with-iso", "(send (actor) m (isolate))\n", FULL, 16),
        waiting("wait-16", TAKEN, 15),
        waiting("wait", FULL, 16),
    ]
}

/// Numbers of series m and of series c.
fn entities() -> Vec<Case> {
    let made = |name, text: &str, rule, answer, count| {
        Case::new(name, text, rule, answer).change(move |state| fill_made(state, 0, count))
    };
    let copies = |name, text: &str, answer, count| {
        Case::new(name, text, Rule::SendOther, answer).change(move |state| {
            if state.actors.len() > 1 {
                fill_copies(state, 1, count);
            }
        })
    };
    let (none, one) = ("(send (actor) m 1)\n", "(send (actor) m (isolate (field a 1)))\n");
    let two = "(send (actor) m (isolate (field a (isolate (field a 1)))))\n";
    vec![
        made("object-32", "(object)\n", Rule::Object, INNER, 31),
        made("object", "(object)\n", Rule::Object, FULL, 32),
        made("isol-32", "(isolate (field a 1))\n", Rule::Isolate, INNER, 31),
        made("isolate", "(isolate (field a 1))\n", Rule::Isolate, FULL, 32),
        made("future-32", "(future f r (seq f r))\n", Rule::Future, INNER, 30),
        made("future-31", "(future f r (seq f r))\n", Rule::Future, FULL, 31),
        made("future", "(future f r (seq f r))\n", Rule::Future, FULL, 32),
        made("other-32", "(actor)\n", Rule::Actor, created(1), 32),
        copies("copy-16", one, sent(1), 15),
        copies("copy", one, FULL, 16),
        copies("copies-16", two, sent(1), 14),
        copies("copies", two, FULL, 15),
        copies("no-copy", none, sent(1), 16),
    ]
}

/// Nodes of method bodies, of the mover and of a receiver.
fn method_bodies() -> Vec<Case> {
    let own = |name, rule, answer, count| {
        let kind = if rule == Rule::Object { "object" } else { "isolate" };
        Case::new(name, format!("({kind} (method a () (plus 1 2)) (method b () 1))\n"), rule, answer)
            .change(move |state| fill_bodies(state, 0, count))
    };
    let other = |name, text: &str, answer, count| {
        Case::new(name, text, Rule::SendOther, answer).change(move |state| {
            if state.actors.len() > 1 {
                fill_bodies(state, 1, count);
            }
        })
    };
    let one = "(send (actor) m (isolate (method a () (plus 1 2)) (method b () 1)))\n";
    let two = "(send (actor) m (isolate (field a (isolate (method a () 1))) (method a () (plus 1 2))))\n";
    vec![
        own("obj-768", Rule::Object, INNER, 764),
        own("object", Rule::Object, FULL, 765),
        own("iso-768", Rule::Isolate, INNER, 764),
        own("isolate", Rule::Isolate, FULL, 765),
        other("copy-768", one, sent(1), 764),
        other("copy", one, FULL, 765),
        other("two-768", two, sent(1), 764),
        other("two", two, FULL, 765),
        other("no-copy", "(send (actor) m (object (method a () 1)))\n", sent(1), 768),
    ]
}

/// All methods of a name count.
fn named_bodies() -> Vec<Case> {
    let made = |name, answer, count| {
        Case::new(name, "(object (method a () (plus 1 2)) (method a (x) x))\n", Rule::Object, answer)
            .change(move |state| fill_bodies(state, 0, count))
    };
    vec![made("names-768", INNER, 764), made("names", FULL, 765)]
}

/// Puts so many gets around what is reduced next that the expression has a number of nodes before the move.
fn widened(state: &mut State, nodes: usize) {
    let expression = std::mem::take(&mut state.actors[0].expression);
    let gets = nodes.saturating_sub(expression.nodes());
    state.actors[0].expression = around(expression, gets);
}

/// A move in an expression of so many nodes.
fn wide(name: &'static str, text: &str, rule: Rule, answer: Move, nodes: usize) -> Case {
    Case::new(name, text, rule, answer).change(move |state| {
        if Rule::of(state, 0) == rule {
            widened(state, nodes);
        }
    })
}

/// Nodes of expressions: of the mover, which a rule makes larger, and of a new actor.
fn nodes() -> Vec<Case> {
    // A call of three nodes becomes a body of seven.
    let call = "(call (object (method a (x) (plus x (plus x (plus x x))))) a 1)\n";
    // A literal of four nodes becomes updates of nine.
    let object = "(object (field a 1) (field b 2) (method a () 1))\n";
    let isolate = "(isolate (field a 1) (field b 2) (method a () 1))\n";
    let waits = "(future f r (seq (send f m 1 2) (seq (when f a a) (resolve r 5))))\n";
    let parts = |sizes: [usize; 4]| {
        let field = |(name, size): (&str, usize)| format!(" (field {name} {})", written(size));
        let fields: String = ["a", "b", "c", "d"].into_iter().zip(sizes).map(field).collect();
        format!("(actor{fields})\n")
    };
    vec![
        wide("call-256", call, Rule::Call, INNER, 252),
        wide("call", call, Rule::Call, FULL, 253),
        wide("obj-256", object, Rule::Object, INNER, 251),
        wide("object", object, Rule::Object, FULL, 252),
        wide("iso-256", isolate, Rule::Isolate, INNER, 251),
        wide("isolate", isolate, Rule::Isolate, FULL, 252),
        resolving_wide("res-256", waits, INNER, 0),
        resolving_wide("resolve", waits, FULL, 1),
        wide("plus-256", "(plus 1 2)\n", Rule::Plus, INNER, 256),
        wide("reg-256", "(when 5 a a)\n", Rule::RegisterNumber, INNER, 256),
        wide("null-256", "(when null a a)\n", Rule::RegisterNull, INNER, 256),
        wide("send-256", "(send (object) a)\n", Rule::SendOwn, sent(0), 256),
        wide("fut-256", "(future f r (plus f r))\n", Rule::Future, INNER, 256),
        Case::new("new-256", parts([61, 61, 61, 60]), Rule::Actor, created(1)),
        Case::new("new", parts([61, 61, 61, 61]), Rule::Actor, FULL),
        wide("newest", "(actor (field a 1) (field b 2))\n", Rule::Actor, created(1), 256),
    ]
}

/// Comparing and choosing, which make an expression shorter, in the longest ones.
fn choosing_nodes() -> Vec<Case> {
    vec![
        wide("same-256", "(same 1 1)\n", Rule::Same, INNER, 256),
        wide("yes-256", "(if 1 (plus 2 3) (get 4 a))\n", Rule::IfYes, INNER, 256),
        wide("no-256", "(if 0 (plus 2 3) (get 4 a))\n", Rule::IfNo, INNER, 256),
        Case::new("parts-256", format!("(if 1 {} {})\n", written(127), written(127)), Rule::IfYes, INNER),
    ]
}

/// A call of three nodes becomes a body of seven, or one of one node where the longer has another number of parameters.
fn named_nodes() -> Vec<Case> {
    let (long, short) = ("(method a (x) (plus x (plus x (plus x x))))", "(method a () 1)");
    let call = |args: &str| format!("(call (object {short} {long} (method a (x y) 2)) a{args})\n");
    vec![
        wide("name-256", &call(" 1"), Rule::CallOfSeveral, INNER, 252),
        wide("name", &call(" 1"), Rule::CallOfSeveral, FULL, 253),
        wide("name-less", &call(""), Rule::CallOfSeveral, INNER, 256),
        wide("name-2", &call(" 1 3"), Rule::CallOfSeveral, INNER, 256),
    ]
}

/// A resolving call in the middle of gets, so many that the messages that waited just fit; or more of them.
fn resolving_wide(name: &'static str, text: &str, answer: Move, more: usize) -> Case {
    Case::new(name, text, Rule::CallResolve, answer).order("0").change(move |state| {
        let Some(Future::Open(messages)) = state.actors[0].future(EntityNo::Made(MadeNo(0))) else { return };
        if Rule::of(state, 0) == Rule::CallResolve && messages.len() == 2 {
            // The call's three nodes become one send of four, one of three, a let for each, and null.
            let after = (1 + 4) + (1 + 3) + 1;
            widened(state, 256 - after + 3 + more);
        }
    })
}

fn actors() -> Vec<Case> {
    let four = "(def a (actor (method m () (actor (field f 1)))))\n(actor)\n(send a m)\n(actor)\n";
    vec![
        Case::new("fourth", "(actor)\n(actor)\n(actor (method m () 1))\n", Rule::Actor, created(3)),
        Case::new("fifth", "(actor)\n(actor)\n(actor)\n(actor)\n", Rule::Actor, FULL),
        Case::new("of-actor", four, Rule::Actor, FULL).order("0001").mover(1),
        Case::new("15-or-16", "(actor)\n(actor)\n(actor)\n(plus null (actor))\n", Rule::Actor, FULL),
        Case::new("in-sum", "(actor)\n(actor)\n(actor)\n(plus 1 (actor))\n", Rule::Actor, FULL)
            .wanted(|state| matches!(state.actors[0].expression, Term::Plus(_))),
    ]
}
