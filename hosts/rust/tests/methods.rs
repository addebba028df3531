//! Methods of one name: which of them is called, and which words of tables and states have them.

use atlite::{Move, Refusal, State, Table};

/// The price of a length, and that of a length by a width.
const CUTS: &str = "(method cut (l) (percent l 50)) (method cut (l w) (plus l w))";

fn loaded(text: &str) -> State {
    Table::read(text.as_bytes())
        .and_then(|table| table.load())
        .expect("a script that loads")
}

/// Lets the actors move in turn until none of them can, and gives the first lines of the listing.
fn ended(text: &str) -> Vec<String> {
    let mut state = loaded(text);
    while state.run(&[0, 1]).moves > 0 {}
    state.listing().lines().map(str::to_owned).collect()
}

#[test]
fn a_method_goes_by_name_and_number_of_arguments() {
    for kind in ["object", "isolate"] {
        let literal = format!("({kind} {CUTS})");
        assert_eq!(
            ended(&format!("(call {literal} cut 8)\n"))[0],
            "(actor 0 3 1 0 4)"
        );
        assert_eq!(
            ended(&format!("(call {literal} cut 8 9)\n"))[0],
            "(actor 0 3 1 0 17)"
        );
        assert_eq!(
            ended(&format!("(send {literal} cut 8)\n"))[0],
            "(actor 0 5 1 0 4)"
        );
        assert_eq!(
            ended(&format!("(send {literal} cut 8 9)\n"))[0],
            "(actor 0 5 1 0 17)"
        );
    }
    // the resolver that goes with a question is no argument of the method
    assert_eq!(
        ended(&format!("(ask (actor {CUTS}) cut 8)\n"))[1],
        "(future 0 m 0 4)"
    );
    assert_eq!(
        ended(&format!("(ask (actor {CUTS}) cut 8 9)\n"))[1],
        "(future 0 m 0 17)"
    );
}

#[test]
fn no_method_has_both() {
    for call in ["cut", "cut 1 2 3", "cot 1"] {
        let mut state = loaded(&format!("(call (object {CUTS}) {call})\n"));
        assert_eq!(state.move_actor(0), Ok(Move::Inner));
        assert_eq!(state.move_actor(0), Err(Refusal::NoMember), "{call}");
    }
    // a question for none is taken, and refused at the call
    let lines = ended(&format!("(ask (actor {CUTS}) cut)\n"));
    let left = "(actor 1 5 2 0 (send (call (ref 1 m 0) cut) .register (ref 1 m 1)))";
    assert_eq!(
        (lines[1].as_str(), lines[3].as_str()),
        ("(future 0 m 0 open)", left)
    );
}

#[test]
fn methods_are_alike_in_name_and_number_of_parameters() {
    for methods in [
        "(method cut (l) 1) (method cut (w) 2)",
        "(method cut () 1) (method cut () 1)",
        "(method cut (l w) 1) (method cut (l) 2) (method saw () 3) (method cut (w l) 4)",
    ] {
        for kind in ["object", "isolate", "actor"] {
            let text = format!("({kind} {methods})\n");
            assert_eq!(Table::read(text.as_bytes()), Err(Refusal::Twice), "{text}");
        }
    }
    let text = "(object (method cut () 1) (method cut (l) 2) (method cut (l w) 3) (method cut (l w h) 4))\n";
    assert_eq!(Table::read(text.as_bytes()).expect("a table").text(), text);
}

/// The header of a method: two bits, its name, the number of its parameters and three places for them, an empty one having 127.
fn header(name: u32, params: &[u32]) -> u32 {
    let places = params.iter().chain(&[127; 3]).take(3).enumerate();
    let places = places.fold(0, |places, (at, param)| places | param << (9 + 7 * at));
    3 << 30 | places | (params.len() as u32) << 7 | name
}

/// A state's expression begins with word 272, a table's first line with word 256. Words of the script are 8 and up.
#[test]
fn words_of_methods_are_tested() {
    let table = Table::read(b"(object (method m (x) 1) (method m (x y) 2) (method y (x) 3))\n")
        .expect("a table");
    let state = table.load().expect("a state");
    assert_eq!(table.words()[259], header(8, &[9, 10]));
    assert_eq!(state.words()[275], header(8, &[9, 10]));
    for (params, good) in [
        (&[][..], true),
        (&[9][..], false),
        (&[10][..], false),
        (&[9, 10][..], true),
        (&[9, 10, 8][..], true),
    ] {
        let mut words = table.words().to_vec();
        words[259] = header(8, params);
        assert_eq!(Table::from_words(&words).is_ok(), good, "{params:?}");
        let mut words = state.words().to_vec();
        words[275] = header(8, params);
        assert_eq!(State::from_words(&words).is_ok(), good, "{params:?}");
    }
}
