//! Refusals 8 to 15.

use super::build::*;
use super::{methods, Case, Group};
use crate::census::Rule;
use crate::state::*;

pub fn groups() -> Vec<Group> {
    vec![
        Group { name: "idle", cases: idle() },
        Group { name: "refused", cases: [receivers(), numbers(), methods::refused()].into_iter().flatten().collect() },
        Group { name: "resolved", cases: resolved() },
    ]
}

fn idle() -> Vec<Case> {
    let none = |name, text, mover, cause| Case::new(name, text, Rule::None, Err(cause)).mover(mover);
    vec![
        none("actor-1", "(plus 1 2)\n", 1, 8),
        none("actor-3", "(seq (actor) (actor))\n", 3, 8).wanted(|state| state.actors.len() == 3),
        none("actor-4", "(seq (actor) (seq (actor) (actor)))\n", 4, 8).wanted(|state| state.actors.len() == 4),
        none("actor-255", "1\n", 255, 8),
        none("idle", "1\n", 0, 9),
        none("idle-null", "null\n", 0, 9),
        none("idle-ref", "(object)\n", 0, 9),
        none("idle-1", "(actor)\n", 1, 9),
        none("idle-full", "1\n", 0, 9).change(|state| state.actors[0].moves = most::MOVES),
    ]
}

/// Receivers that are none, another's, or without the member.
fn receivers() -> Vec<Case> {
    let case = |name, text: &str, rule, cause| Case::new(name, text, rule, Err(cause));
    let (get, set, call) = (Rule::Get, Rule::Set, Rule::Call);
    let isolate = "(def a (actor (field i (isolate (field a 1)))))\n";
    vec![
        case("get-null", "(get null a)\n", get, 10),
        case("get-num", "(plus 1 (get 5 a))\n", get, 10),
        case("set-null", "(set null a 1)\n", set, 10),
        case("set-num", "(set 0 a 1)\n", set, 10),
        case("call-null", "(call null m)\n", call, 10),
        case("call-num", "(call 1 m 1 2 3)\n", call, 10),
        case("send-null", "(send null m)\n", Rule::SendOwn, 10),
        case("send-num", "(send 5 m 1)\n", Rule::SendOwn, 10),
        case("ask-null", "(ask null m)\n", Rule::SendTwoWay, 10),
        case("ask-num", "(ask 5 m)\n", Rule::SendTwoWay, 10),
        case("res-null", "(resolve null 6)\n", Rule::SendResolve, 10),
        case("res-num", "(resolve 5 6)\n", Rule::SendResolve, 10),
        case("get-other", "(get (actor (field a 1)) a)\n", get, 11),
        case("set-other", "(set (actor (field a 1)) a 1)\n", set, 11),
        case("call-oth", "(call (actor (method m () 1)) m)\n", call, 11),
        case("get-none", "(get (object (field b 1)) a)\n", get, 12),
        case("set-none", "(set (isolate (field b 1)) a 1)\n", set, 12),
        case("get-fut", "(future f r (get f a))\n", get, 12),
        case("get-res", "(future f r (get r a))\n", get, 12),
        case("set-fut", "(future f r (set f a 1))\n", set, 12),
        case("call-none", "(call (object (method n () 1)) m)\n", call, 12),
        case("call-few", "(call (object (method m (x) 1)) m)\n", call, 12),
        case("call-many", "(call (object (method m (x) 1)) m 1 2)\n", call, 12),
        case("call-fut", "(future f r (call f m))\n", call, 12),
        case("get-meth", "(get (object (method a () 1)) a)\n", get, 12),
        Case::new("get-more", isolate.to_owned() + "(send (get a i) m)\n", get, Err(11)),
    ]
}

/// Numbers that are none or too large, and causes that come before a limit.
fn numbers() -> Vec<Case> {
    let case = |name, text: &str, rule, cause| Case::new(name, text, rule, Err(cause));
    vec![
        case("sum-null", "(plus null 1)\n", Rule::Plus, 15),
        case("sum-ref", "(plus 1 (object))\n", Rule::Plus, 15),
        case("sum-over", "(plus 16777215 1)\n", Rule::Plus, 15),
        case("pct-null", "(percent 5 null)\n", Rule::Percent, 15),
        case("pct-ref", "(percent (object) 1)\n", Rule::Percent, 15),
        case("pct-over", "(percent 16777215 101)\n", Rule::Percent, 15),
        case("pct-wide", "(percent 16777215 16777215)\n", Rule::Percent, 15),
        case("before-16", "(plus null 1)\n", Rule::Plus, 15).change(|state| state.actors[0].moves = most::MOVES),
        case("10-or-16", "(get null a)\n", Rule::Get, 10).change(|state| state.actors[0].moves = most::MOVES),
        case("sent-10", "(send null m)\n", Rule::SendOwn, 10).change(|state| state.actors[0].moves = most::MOVES),
        case("res-obj", "(resolve (object) 5)\n", Rule::CallResolve, 12),
        case("if-asks", "(if (plus null 1) 2 3)\n", Rule::Plus, 15),
        case("same-asks", "(same 1 (get 2 a))\n", Rule::Get, 10),
        case("if-taken", "(if (same 1 1) (plus 1 null) 2)\n", Rule::Plus, 15),
    ]
}

/// Calls of .resolve that are refused; most of them stand in no state that a script leads to.
fn resolved() -> Vec<Case> {
    let pair = "(future f r (future g s 1))\n";
    let call = |name, receiver: Value, value: Value, cause| {
        Case::new(name, pair, Rule::CallResolve, Err(cause))
            .wanted(|state| state.actors[0].made.len() == 4)
            .change(move |state| state.actors[0].expression = resolving(receiver, value))
    };
    let twice = "(future f r (seq (resolve r 5) (resolve r 6)))\n";
    let other =
        "(def a (actor (method m (r) (future f s (send r k f)))))\n(future f r (send a m (fn x (resolve r 1))))\n";
    let foreign = |state: &mut State| {
        if state.actors.len() == 2 && state.actors[1].made.len() == 3 {
            state.actors[0].expression = resolving(made(0, 1), made(1, 1));
        }
    };
    let done = |state: &mut State| {
        if state.actors[0].made.len() == 4 {
            state.actors[0].made[0] = Entity::Future(Future::Resolved(Value::Number(5)));
            state.actors[0].expression = resolving(made(0, 1), made(0, 2));
        }
    };
    vec![
        call("of-null", Value::Null, Value::Number(1), 10),
        call("of-number", Value::Number(3), Value::Number(1), 10),
        call("of-future", made(0, 0), Value::Number(1), 12),
        Case::new("of-other", "(seq (actor) 1)\n", Rule::CallResolve, Err(11))
            .wanted(|state| state.actors.len() == 2)
            .change(|state| {
                if state.actors.len() == 2 {
                    state.actors[0].expression = resolving(made(1, 0), Value::Null)
                }
            }),
        Case::new("twice", twice, Rule::CallResolve, Err(13)),
        Case::new("13-or-14", pair, Rule::CallResolve, Err(13)).change(done),
        call("itself", made(0, 1), made(0, 0), 14),
        call("a-future", made(0, 1), made(0, 2), 14),
        Case::new("script-14", "(when 1 x (future f r f))\n", Rule::CallResolve, Err(14)),
        Case::new("foreign", other, Rule::CallResolve, Err(14)).order("01").change(foreign),
    ]
}
