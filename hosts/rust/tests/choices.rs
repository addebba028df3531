//! Comparing and choosing: what comes of it, the words that are reserved for it, and the words of states that have it.

use atlite::{Move, Refusal, State, Table};

fn loaded(text: &str) -> State {
    Table::read(text.as_bytes())
        .and_then(|table| table.load())
        .expect("a script that loads")
}

/// The value that actor 0's expression comes to, as it is listed.
fn value(text: &str) -> String {
    let mut state = loaded(text);
    while state.move_actor(0).is_ok() {}
    assert_eq!(state.move_actor(0), Err(Refusal::Nothing), "{text}");
    let listing = state.listing();
    let line = listing.lines().next().expect("a line");
    let value = line.splitn(6, ' ').last().expect("six parts");
    value.strip_suffix(')').expect("a bracket").to_owned()
}

#[test]
fn values_are_compared_and_chosen_by() {
    for (text, wanted) in [
        ("(same 7 7)\n", "1"),
        ("(same 7 8)\n", "0"),
        ("(same null null)\n", "1"),
        ("(same null 0)\n", "0"),
        ("(let o (object) (same o o))\n", "1"),
        ("(same (object) (actor))\n", "0"),
        ("(same (isolate (field a 1)) (isolate (field a 1)))\n", "0"),
        ("(if null 1 2)\n", "2"),
        ("(if 0 1 2)\n", "2"),
        ("(if 16777215 1 2)\n", "1"),
        ("(if (object) 1 2)\n", "1"),
        ("(future f r (if f (same f r) 2))\n", "0"),
        ("(if (if 0 1 null) 2 (if (same 3 3) 4 5))\n", "4"),
    ] {
        assert_eq!(value(text), wanted, "{text}");
    }
    let mut state = loaded("(if (same 1 1) (plus 2 3) (plus 4 5))\n");
    assert_eq!(
        [state.move_actor(0), state.move_actor(0)],
        [Ok(Move::Inner); 2]
    );
    assert_eq!(state.listing(), "(actor 0 2 0 0 (plus 2 3))\n");
}

#[test]
fn words_of_forms_name_nothing() {
    for word in ["if", "same"] {
        for text in [
            format!("{word}\n"),
            format!("(def {word} 1)\n2\n"),
            format!("(let {word} 1 2)\n"),
            format!("(fn {word} 1)\n"),
            format!("(future f {word} 1)\n"),
            format!("(when 1 {word} 2)\n"),
            format!("(get null {word})\n"),
            format!("(send null {word})\n"),
            format!("(object (field {word} 1))\n"),
            format!("(actor (method {word} () 1))\n"),
            format!("(isolate (method m ({word}) 1))\n"),
        ] {
            assert_eq!(Table::read(text.as_bytes()), Err(Refusal::Grammar));
        }
        // a dictionary that has the word is no table's and no state's; its first entry begins with word 3, or 2
        let mut first = [0; 4];
        first[..word.len()].copy_from_slice(word.as_bytes());
        let table = Table::read(b"(get null a)\n").expect("a table");
        let mut words = table.words().to_vec();
        words[3] = u32::from_le_bytes(first);
        assert_eq!(Table::from_words(&words), Err(Refusal::Neither));
        let mut words = table.load().expect("a state").words().to_vec();
        words[2] = u32::from_le_bytes(first);
        assert_eq!(State::from_words(&words), Err(Refusal::Neither));
    }
}

/// The expression's words begin with word 272. Kinds 18 and 19 are those of same and if, and 20 to 63 are no term's.
#[test]
fn words_of_choices_are_tested() {
    let state = loaded("(if (same 1 2) 3 4)\n");
    let with = |at: usize, word: u32| {
        let mut words = state.words().to_vec();
        words[at] = word;
        State::from_words(&words).map(|state| state.listing())
    };
    assert_eq!(state.words()[272..274], [19 << 24, 18 << 24]);
    assert_eq!(
        with(273, 7 << 24).as_deref(),
        Ok("(actor 0 0 0 0 (if (plus 1 2) 3 4))\n")
    );
    for (at, word) in [
        (272, 18 << 24),
        (273, 19 << 24),
        (272, 19 << 24 | 1),
        (273, 18 << 24 | 8),
    ] {
        assert_eq!(with(at, word), Err(Refusal::Neither));
    }
    for kind in 20..64 {
        assert_eq!(with(273, kind << 24), Err(Refusal::Neither));
    }
}
