//! The worked examples of the scope paper that carry a mark, K1 to K11, through the library's calls.

use oracle::state::Entity;
use oracle::{list, load, loops, read, run, step, Answer, State};

fn start(text: &str) -> State {
    load(&read(text.as_bytes()).unwrap()).unwrap()
}

/// The listing of actor 0's only line after one move.
fn result(text: &str) -> String {
    let mut state = start(text);
    assert_eq!(step(&mut state, 0), Ok(Answer::Inner));
    String::from_utf8(list(&state)).unwrap()
}

#[test]
fn k1_and_k2_a_future_gets_its_value_and_nothing_is_left_to_do() {
    let mut state = start("(future f r (resolve r 5))\n");
    assert_eq!(run(&mut state, &[0; 12]), (12, 0));
    let listing = "(actor 0 12 3 0 null)\n(future 0 m 0 5)\n(resolver 0 m 1 0)\n\
                   (object 0 m 2 (method apply (.x) (send (ref 0 m 1) .resolve .x)))\n";
    assert_eq!(list(&state), listing.as_bytes());
    assert_eq!(loops(b"000000000000\n(future f r (resolve r 5))\n"), listing.as_bytes());
    assert_eq!(step(&mut state, 0), Err(9));
}

#[test]
fn k3_to_k6_arithmetic() {
    assert_eq!(result("(plus 2 3)\n"), "(actor 0 1 0 0 5)\n");
    assert_eq!(result("(percent 250 12)\n"), "(actor 0 1 0 0 30)\n");
    assert_eq!(result("(percent 1 99)\n"), "(actor 0 1 0 0 0)\n");
    assert_eq!(step(&mut start("(plus 16777215 1)\n"), 0), Err(15));
}

#[test]
fn k7_a_receiver_that_is_null() {
    assert_eq!(step(&mut start("(get null a)\n"), 0), Err(10));
}

#[test]
fn k8_to_k10_texts_that_are_refused() {
    assert_eq!(read(b"(def x 1)\n").err(), Some(2));
    assert_eq!(read(b"(let x 1 y)\n").err(), Some(3));
    assert_eq!(read(b"(object (field a 1) (field a 2))\n").err(), Some(4));
}

#[test]
fn k11_a_new_actor_sets_its_own_fields() {
    let mut state = start("(actor (field a 1))\n");
    assert_eq!(run(&mut state, &[0, 1, 1]), (3, 0));
    assert_eq!((state.actors[0].moves, state.actors[1].moves), (1, 2));
    let Entity::Object(parts) = &state.actors[1].made[0] else { panic!("the entity is an object") };
    assert_eq!(parts.fields[0].1, oracle::state::Value::Number(1));
}
