//! The rules by their answers and listings, and each limit.

use super::*;
use crate::{invariant, list, load, read};

/// Steps until the schedule of digits ends; gives the state and the answer to the last entry.
fn played(text: &str, schedule: &str) -> (State, Result<Answer, u8>) {
    let mut state = load(&read(text.as_bytes()).unwrap()).unwrap();
    let mut last = Err(0);
    for digit in schedule.bytes() {
        let before = state.clone();
        last = step(&mut state, digit - b'0');
        invariant::holds(&state).unwrap();
        assert!(last.is_ok() || state == before, "a refused move changed the state");
    }
    (state, last)
}

fn last(text: &str, schedule: &str) -> Result<Answer, u8> {
    played(text, schedule).1
}

fn listing(text: &str, schedule: &str) -> String {
    String::from_utf8(list(&played(text, schedule).0)).unwrap()
}

#[test]
fn arithmetic_is_exact_and_bounded() {
    assert_eq!(listing("(plus 2 3)\n", "0"), "(actor 0 1 0 0 5)\n");
    assert_eq!(listing("(percent 250 12)\n", "0"), "(actor 0 1 0 0 30)\n");
    assert_eq!(listing("(percent 1 99)\n", "0"), "(actor 0 1 0 0 0)\n");
    assert_eq!(listing("(percent 16777215 100)\n", "0"), "(actor 0 1 0 0 16777215)\n");
    assert_eq!(last("(plus 16777215 1)\n", "0"), Err(15));
    assert_eq!(last("(percent 16777215 101)\n", "0"), Err(15));
    assert_eq!(last("(plus null 1)\n", "0"), Err(15));
    assert_eq!(last("(plus null (plus 1 2))\n", "00"), Err(15));
}

/// What the expression is after the moves, each of which is inner.
fn left(text: &str, moves: usize) -> String {
    let (state, answer) = played(text, &"0".repeat(moves));
    assert_eq!((answer, state.actors[0].moves), (Ok(Answer::Inner), moves as u32), "{text}");
    let listing = String::from_utf8(list(&state)).unwrap();
    let line = listing.lines().next().unwrap();
    line.splitn(6, ' ').last().unwrap().strip_suffix(')').unwrap().to_owned()
}

#[test]
fn same_compares_any_two_values() {
    for (text, moves, number) in [
        ("(same 7 7)\n", 1, "1"),
        ("(same 7 8)\n", 1, "0"),
        ("(same null null)\n", 1, "1"),
        ("(same null 0)\n", 1, "0"),
        ("(same 0 (object))\n", 2, "0"),
        ("(let o (object) (same o o))\n", 3, "1"),
        ("(same (isolate (field a 1)) (isolate (field a 1)))\n", 7, "0"),
        ("(future f r (same f r))\n", 2, "0"),
        ("(future f r (same f f))\n", 2, "1"),
        ("(same (plus 1 2) (plus 2 1))\n", 3, "1"),
    ] {
        assert_eq!(left(text, moves), number, "{text}");
    }
    assert_eq!(last("(same (plus 1 null) (plus 1 2))\n", "0"), Err(15));
}

/// The other part is not reduced, and so not refused either.
#[test]
fn an_if_becomes_one_of_its_parts_as_it_stands() {
    for (asked, moves, taken) in [
        ("null", 1, "(plus 2 null)"),
        ("0", 1, "(plus 2 null)"),
        ("1", 1, "(plus 1 null)"),
        ("16777215", 1, "(plus 1 null)"),
        ("(object)", 2, "(plus 1 null)"),
        ("(future f r f)", 2, "(plus 1 null)"),
        ("(if null 1 0)", 2, "(plus 2 null)"),
        ("(same 1 1)", 2, "(plus 1 null)"),
    ] {
        assert_eq!(left(&format!("(if {asked} (plus 1 null) (plus 2 null))\n"), moves), taken, "{asked}");
    }
    assert_eq!(last("(if (plus null 1) 2 3)\n", "0"), Err(15));
    assert_eq!(left("(let x (if 0 1 (if 1 2 3)) x)\n", 1), "(let x (if 1 2 3) x)");
    assert_eq!(left("(if 1 (let x 5 (same x x)) 6)\n", 1), "(let x 5 (same x x))");
}

#[test]
fn an_if_in_a_method_ends_its_calls() {
    let count = "(let o (object (method go (n) (if (same n 3) this (call this go (plus n 1))))) (call o go 0))\n";
    assert_eq!(listing(count, &"0".repeat(40)).lines().next(), Some("(actor 0 17 1 0 (ref 0 m 0))"));
}

#[test]
fn receivers_are_tested_in_order() {
    assert_eq!(last("(get null a)\n", "0"), Err(10));
    assert_eq!(last("(set 1 a 2)\n", "0"), Err(10));
    assert_eq!(last("(get (actor) a)\n", "00"), Err(11));
    assert_eq!(last("(get (object) a)\n", "00"), Err(12));
    assert_eq!(last("(set (object) a 1)\n", "00"), Err(12));
    assert_eq!(last("(call (object (method m (x) x)) m)\n", "00"), Err(12));
    assert_eq!(last("(future f r (call f m))\n", "00"), Err(12));
    assert_eq!(last("(send null m)\n", "0"), Err(10));
    assert_eq!(last("(send 1 m)\n", "0"), Err(10));
}

#[test]
fn no_such_actor_and_nothing_to_do() {
    assert_eq!(last("1\n", "1"), Err(8));
    assert_eq!(last("1\n", "0"), Err(9));
}

#[test]
fn answers() {
    assert_eq!(last("(actor)\n", "0"), Ok(Answer::Created(ActorNo(1))));
    assert_eq!(last("(send (actor) m)\n", "00"), Ok(Answer::Sent(ActorNo(1))));
    assert_eq!(last("(send (object) m)\n", "00"), Ok(Answer::Sent(ActorNo(0))));
    assert_eq!(last("(send (object) m)\n", "000"), Ok(Answer::Taken));
    assert_eq!(last("(future f r (resolve r 5))\n", "000000"), Ok(Answer::Inner));
}

#[test]
fn a_future_is_resolved_once_and_with_no_future() {
    let twice = "(future f r (seq (resolve r 5) (resolve r 6)))\n";
    assert_eq!(last(twice, &"0".repeat(40)), Err(13));
    let (state, _) = played(twice, &"0".repeat(40));
    assert_eq!(state.actors[0].expression.nodes(), 3);
    assert_eq!(last("(when 1 x (future f r f))\n", "00000000000"), Err(14));
}

#[test]
fn new_entities_come_before_their_fields() {
    assert_eq!(
        listing("(object (field a (object)) (field b (get this a)))\n", "0000000"),
        "(actor 0 7 2 0 (ref 0 m 0))\n(object 0 m 0 (field a (ref 0 m 1)) (field b (ref 0 m 1)))\n(object 0 m 1)\n"
    );
    assert_eq!(
        listing("(actor (field a 1))\n", "011"),
        "(actor 0 1 0 0 (ref 1 m 0))\n(actor 1 2 1 0 (ref 1 m 0))\n(object 1 m 0 (field a 1))\n"
    );
}

#[test]
fn limits_of_numbers_and_messages() {
    let objects = |n: usize| "(object)\n".repeat(n);
    assert_eq!(last(&objects(32), &"0".repeat(63)), Ok(Answer::Inner));
    assert_eq!(last(&objects(33), &"0".repeat(65)), Err(16));
    assert_eq!(last(&(objects(31) + "(future f r 1)\n"), &"0".repeat(63)), Err(16));
    assert_eq!(last(&"(actor)\n".repeat(4), &"0".repeat(7)), Err(16));
    let sends = |n: usize| format!("(def o (object))\n{}1\n", "(send o m)\n".repeat(n));
    assert_eq!(last(&sends(16), &"0".repeat(33)), Ok(Answer::Sent(ActorNo(0))));
    assert_eq!(last(&sends(17), &"0".repeat(35)), Err(16));
}

#[test]
fn limits_of_nodes() {
    let grow = "(let o (object (method go () (plus 1 (call this go)))) (call o go))\n";
    let (state, answer) = played(grow, &"0".repeat(200));
    assert_eq!(answer, Err(16));
    assert_eq!(state.actors[0].expression.nodes(), 256);
    let body = "(plus 1 ".repeat(12) + "1" + &")".repeat(12);
    let bodies =
        format!("(let o (object (method go () (seq (object (method b () {body})) (call this go)))) (call o go))\n");
    let (state, answer) = played(&bodies, &"0".repeat(200));
    assert_eq!((answer, state.actors[0].counts.body_nodes), (Err(16), 29 + 29 * 25));
}

#[test]
fn limit_of_waiting_messages() {
    let text = "(def o (object (method go (f) (seq (send f m) (send this go f)))))\n(future f r (send o go f))\n";
    let (state, _) = played(text, &"0".repeat(300));
    assert_eq!(state.actors[0].counts.waiting, 16);
    assert_eq!(last(text, &"0".repeat(300)), Err(16));
}

/// No script leads to a resolving call inside of something long; a state made by hand has one.
#[test]
fn messages_that_are_sent_on_need_room() {
    let waits = |count: usize| {
        format!("(future f r (seq {} r))\n", "(seq (send f m 1 2 3) ".repeat(count) + "1" + &")".repeat(count))
    };
    let (state, _) = played(&waits(16), &"0".repeat(60));
    assert_eq!(state.actors[0].counts.waiting, 16);
    let refused_from = |context: usize| {
        let mut state = state.clone();
        let resolver = Value::Ref(Ref { owner: ActorNo(0), entity: EntityNo::Made(MadeNo(1)) });
        let call = Term::call(Term::Value(resolver), Name::Resolve, vec![Term::number(5)]);
        state.actors[0].expression = (0..context).fold(call, |inner, _| Term::Get(Word(0), Box::new(inner)));
        state.recount();
        step(&mut state, 0)
    };
    assert_eq!(refused_from(256 - (16 * 6 + 1)), Ok(Answer::Inner));
    assert_eq!(refused_from(257 - (16 * 6 + 1)), Err(16));
}

#[test]
fn limit_of_moves() {
    let (mut state, _) = played("(send (object) m)\n", "0");
    state.actors[0].moves = most::MOVES;
    assert_eq!(step(&mut state, 0), Err(16));
    state.actors[0].moves -= 1;
    assert_eq!(step(&mut state, 0), Ok(Answer::Sent(ActorNo(0))));
    assert_eq!(step(&mut state, 0), Err(16));
    state.actors[0].inbox.clear();
    assert_eq!(step(&mut state, 0), Err(9));
    for text in ["(same 1 2)\n", "(if 0 1 2)\n", "(if 1 (plus null 1) 2)\n"] {
        let (mut state, _) = played(text, "");
        state.actors[0].moves = most::MOVES;
        assert_eq!(step(&mut state, 0), Err(16), "{text}");
        state.actors[0].moves -= 1;
        assert_eq!(step(&mut state, 0), Ok(Answer::Inner), "{text}");
    }
}

#[test]
fn runs_go_on_after_a_refusal() {
    let mut state = load(&read(b"(plus (plus 1 2) 3)\n").unwrap()).unwrap();
    assert_eq!(run(&mut state, &[1, 0, 255, 0, 0]), (2, 3));
    assert_eq!(run(&mut state, &[]), (0, 0));
}
