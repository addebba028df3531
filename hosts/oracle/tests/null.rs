//! Null and numbers as receivers: nobody owns them, and all that they take is a listener.

use oracle::state::{most, ActorNo};
use oracle::{invariant, list, load, read, step, Answer, State};

const NONE: u8 = 10;
const LIMIT: u8 = 16;

/// The values that nobody owns.
const OWNERLESS: [&str; 2] = ["null", "7"];

/// Makes so many moves of the actors in turn; gives the state and the answer to the last entry.
fn played(text: &str, entries: usize, actors: u8) -> (State, Result<Answer, u8>) {
    let mut state = load(&read(text.as_bytes()).unwrap()).unwrap();
    let mut last = Err(0);
    for actor in (0..actors).cycle().take(entries) {
        let before = state.clone();
        last = step(&mut state, actor);
        invariant::holds(&state).unwrap();
        assert!(last.is_ok() || state == before, "a refused move changed the state");
    }
    (state, last)
}

/// The answer to the last of so many entries of actor 0.
fn last(text: &str, entries: usize) -> Result<Answer, u8> {
    played(text, entries, 1).1
}

fn lines(state: &State) -> Vec<String> {
    String::from_utf8(list(state)).unwrap().lines().map(str::to_owned).collect()
}

/// The lines after so many entries of the actors in turn.
fn listing(text: &str, entries: usize, actors: u8) -> Vec<String> {
    lines(&played(text, entries, actors).0)
}

#[test]
fn a_listener_is_sent_the_value_by_two_moves() {
    for value in OWNERLESS {
        let text = format!("(when {value} x 5)\n");
        assert_eq!(last(&text, 4), Ok(Answer::Inner));
        assert!(listing(&text, 4, 1)[0].contains(&format!("(send {value} .register (ref 0 m 2))")));
        assert_eq!(last(&text, 5), Ok(Answer::Inner));
        assert!(listing(&text, 5, 1)[0].contains(&format!("(send (ref 0 m 2) apply {value})")));
        assert_eq!(last(&text, 6), Ok(Answer::Sent(ActorNo(0))));
        assert_eq!(listing(&text, 40, 1)[1], "(future 0 m 0 5)");
    }
}

#[test]
fn nothing_else_is_taken() {
    for value in OWNERLESS {
        let stuck = |text: String, moves: u32, rest: String| {
            let (state, answer) = played(&text, 40, 1);
            assert_eq!((answer, state.actors[0].moves), (Err(NONE), moves), "{text}");
            assert!(lines(&state)[0].contains(&rest), "{text}");
        };
        stuck(format!("(send {value} m 1)\n"), 0, format!("(send {value} m 1)"));
        stuck(format!("(ask {value} m 1)\n"), 1, format!("(send {value} m.f 1 (ref 0 m 1))"));
        stuck(format!("(resolve {value} 5)\n"), 8, format!("(send {value} .resolve 5)"));
    }
}

#[test]
fn a_method_may_answer_null() {
    let own = listing("(ask (object (field n 1) (method book () (seq (set this n 2) null))) book)\n", 40, 1);
    assert!(own[1] == "(future 0 m 0 null)" && own[3].starts_with("(object 0 m 2 (field n 2)"), "{own:?}");
    let other = listing("(ask (actor (method book () null)) book)\n", 40, 2);
    assert_eq!([&other[0], &other[1]], ["(actor 0 6 2 0 null)", "(future 0 m 0 null)"]);
}

#[test]
fn a_future_that_is_null_tells_its_listeners() {
    let heard = listing("(future f r (seq (resolve r null) (when f x x)))\n", 40, 1);
    assert!(heard.contains(&"(future 0 m 0 null)".to_owned()) && heard.contains(&"(future 0 m 3 null)".to_owned()));
    let sent_on = "(future f r (seq (resolve r null) (send f m)))\n";
    assert_eq!([last(sent_on, 15), last(sent_on, 16)], [Ok(Answer::Inner), Err(NONE)]);
    assert_eq!(listing(sent_on, 18, 1)[..2], ["(actor 0 15 3 0 (let .s (send null m) null))", "(future 0 m 0 null)"]);
}

#[test]
fn the_last_move_is_not_passed() {
    let (mut state, _) = played("(when null x x)\n", 4, 1);
    state.actors[0].moves = most::MOVES;
    let before = state.clone();
    assert_eq!((step(&mut state, 0), &state), (Err(LIMIT), &before));
    state.actors[0].moves -= 1;
    assert_eq!(step(&mut state, 0), Ok(Answer::Inner));
    assert_eq!(step(&mut state, 0), Err(LIMIT));
}
