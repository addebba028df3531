//! Methods of one name: which of them a call, a message taken and a two-way message are for.

use oracle::state::{most, ActorNo};
use oracle::{invariant, list, load, print, read, step, Answer, State};

const NO_MEMBER: u8 = 12;
const LIMIT: u8 = 16;

/// Four methods of one name, each with a number of its own; the order is not that of the parameters.
const FOUR: &str = "(method m (x y) 2) (method m () 0) (method m (x y z) 3) (method m (x) 1)";

/// Makes so many moves of the actors in turn; gives the state and the answer to the last entry.
fn played(text: &str, entries: usize, actors: u8) -> (State, Result<Answer, u8>) {
    let table = read(text.as_bytes()).unwrap();
    assert_eq!(print(&table), text.as_bytes());
    let mut state = load(&table).unwrap();
    let mut last = Err(0);
    for actor in (0..actors).cycle().take(entries) {
        let before = state.clone();
        last = step(&mut state, actor);
        invariant::holds(&state).unwrap();
        assert!(last.is_ok() || state == before, "a refused move changed the state");
    }
    (state, last)
}

fn lines(state: &State) -> Vec<String> {
    String::from_utf8(list(state)).unwrap().lines().map(str::to_owned).collect()
}

/// The lines after many entries of the actors in turn.
fn ended(text: &str, actors: u8) -> Vec<String> {
    lines(&played(text, 80, actors).0)
}

#[test]
fn a_call_goes_by_name_and_count() {
    for kind in ["object", "isolate"] {
        for (args, found) in [("", 0), (" 7", 1), (" 7 7", 2), (" 7 7 7", 3)] {
            let lines = ended(&format!("(call ({kind} {FOUR}) m{args})\n"), 1);
            assert_eq!(lines[0], format!("(actor 0 2 1 0 {found})"));
            assert_eq!(lines[1], format!("({kind} 0 m 0 {FOUR})"));
        }
    }
}

#[test]
fn one_refusal_is_for_a_name_and_for_a_count() {
    let some = "(object (method m () 0) (method m (x y) 2) (method n (x) 1) (method k (x y z) 3))";
    for call in ["m 1", "m 1 2 3", "n", "n 1 2", "k 1 2", "l"] {
        let (state, answer) = played(&format!("(call {some} {call})\n"), 2, 1);
        assert_eq!((answer, state.actors[0].moves), (Err(NO_MEMBER), 1), "{call}");
    }
    let only = "(object (method m () (plus 1 null)) (method m (x) 5))";
    assert_eq!(ended(&format!("(call {only} m 1)\n"), 1)[0], "(actor 0 2 1 0 5)");
}

#[test]
fn messages_go_by_name_and_count_when_they_are_called() {
    let actor = "(actor (field a 0) (method m () (set this a 1)) (method m (x) (set this a x)))";
    let set = |sends: &str| ended(&format!("(def o {actor})\n{sends}"), 2)[2].chars().take(25).collect::<String>();
    assert_eq!(set("(send o m 8)\n(send o m)\n"), "(object 1 m 0 (field a 1)");
    assert_eq!(set("(send o m)\n(send o m 8)\n"), "(object 1 m 0 (field a 8)");
    // A message that no method is for is taken all the same, and the call that it becomes is refused.
    let (state, answer) = played(&format!("(send {actor} m 1 2)\n"), 20, 2);
    assert_eq!((answer, state.actors[1].moves), (Err(NO_MEMBER), 3));
    assert_eq!(lines(&state)[1], "(actor 1 3 1 0 (call (ref 1 m 0) m 1 2))");
}

#[test]
fn a_two_way_message_does_not_count_its_resolver() {
    for (args, found) in [("", 0), (" 7", 1), (" 7 7", 2), (" 7 7 7", 3)] {
        let lines = ended(&format!("(ask (actor {FOUR}) m{args})\n"), 2);
        assert_eq!(lines[1], format!("(future 0 m 0 {found})"));
    }
    // The listener is made before the call is refused.
    for (ask, left) in [("m", "m"), ("m 1 2", "m 1 2")] {
        let text = format!("(ask (actor (method m (x) 1) (method m (x y z) 3)) {ask})\n");
        let (state, answer) = played(&text, 40, 2);
        assert_eq!((answer, state.actors[1].made.len()), (Err(NO_MEMBER), 2), "{ask}");
        assert!(lines(&state)[3].contains(&format!("(call (ref 1 m 0) {left})")), "{ask}");
    }
}

#[test]
fn copies_keep_all_methods_of_a_name() {
    let text = "(def b (actor (field a 0) (method m (i) (set this a (plus (call i g) (call i g 5))))))\n\
                (send b m (isolate (method g () 1) (method g (x) x)))\n";
    let lines = ended(text, 2);
    assert!(lines[3].starts_with("(object 1 m 0 (field a 6)"), "{lines:?}");
    assert_eq!(lines[4], "(isolate 1 c 0 (method g () 1) (method g (x) x))");
}

#[test]
fn listeners_are_told_by_the_apply_of_one() {
    let listener = "(object (field a 0) (method apply () 1) (method apply (x y) 2) (method apply (x) (set this a x)))";
    let heard = ended(&format!("(let o {listener} (seq (send o apply 4) (call o apply)))\n"), 1);
    assert!(heard[1].starts_with("(object 0 m 0 (field a 4)"), "{heard:?}");
    let lines = ended(&format!("(when 4 x x)\n(call {listener} apply 1 2)\n"), 1);
    assert_eq!(lines[1], "(future 0 m 0 4)");
}

/// The limits are those of the method that is found, however long the others of its name are.
#[test]
fn the_nodes_of_the_method_that_is_found_count() {
    let long = "(get ".repeat(20) + "1" + &" a)".repeat(20);
    let grow = |longer: &str, shorter: &str| {
        let text = format!(
            "(let o (object (method go ({longer}) {long}) (method go ({shorter}) (plus 1 (call this go{})))) \
             (call o go{}))\n",
            if shorter.is_empty() { "" } else { " 1" },
            if shorter.is_empty() { "" } else { " 1" }
        );
        let (state, answer) = played(&text, 300, 1);
        (answer, state.actors[0].expression.nodes())
    };
    assert_eq!(grow("x", ""), (Err(LIMIT), 256));
    assert_eq!(grow("", "x"), (Err(LIMIT), 255));
    let (mut state, _) = played(&format!("(call (object {FOUR}) m 1)\n"), 1, 1);
    state.actors[0].moves = most::MOVES;
    assert_eq!(step(&mut state, 0), Err(LIMIT));
    state.actors[0].moves -= 1;
    assert_eq!(step(&mut state, 0), Ok(Answer::Inner));
    assert_eq!(played(&format!("(send (actor {FOUR}) m 1)\n"), 2, 1).1, Ok(Answer::Sent(ActorNo(1))));
}
