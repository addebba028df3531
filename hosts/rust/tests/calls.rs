//! The calls from Rust: stored cases, refusals, and what a caller may do with words of its own.

use std::fs;
use std::path::{Path, PathBuf};
use std::thread;

use atlite::{Counts, Move, Refusal, STATE_WORDS, State, TABLE_WORDS, TEXT_BYTES, Table, lent};

fn loaded(text: &str) -> State {
    Table::read(text.as_bytes())
        .and_then(|table| table.load())
        .expect("a script that loads")
}

/// Moves actor 0 until that is refused. The refusal leaves the state as it was.
fn until_refused(state: &mut State) -> Refusal {
    loop {
        let before = state.clone();
        if let Err(cause) = state.move_actor(0) {
            assert_eq!(*state, before);
            return cause;
        }
    }
}

fn cases() -> PathBuf {
    Path::new(env!("CARGO_MANIFEST_DIR")).join("../cases")
}

/// The names of the stored cases that are listed.
fn listed() -> Vec<PathBuf> {
    let mut all: Vec<PathBuf> = fs::read_dir(cases())
        .expect("the cases")
        .map(|entry| entry.expect("a sample").path())
        .filter(|path| path.extension().is_some_and(|end| end == "listing"))
        .collect();
    all.sort();
    assert!(all.len() >= 5, "too few cases: {}", all.len());
    all
}

fn entries(sample: &Path) -> Vec<u8> {
    let line = fs::read_to_string(sample.with_extension("schedule")).expect("a schedule");
    line.trim_end_matches('\n')
        .bytes()
        .map(|digit| digit - b'0')
        .collect()
}

#[test]
fn cases_list_as_stored() {
    for sample in listed() {
        let text = fs::read(sample.with_extension("script")).expect("a script");
        let table = Table::read(&text).expect("a script that is read");
        assert_eq!(table.text().as_bytes(), text);
        let mut state = table.load().expect("a script that is loaded");
        let entries = entries(&sample);
        let Counts { moves, refusals } = state.run(&entries);
        assert_eq!(moves + refusals, entries.len());
        assert_eq!(
            state.listing(),
            fs::read_to_string(&sample).expect("a listing"),
            "{}",
            sample.display()
        );
    }
}

#[test]
fn moves_and_a_run_come_to_the_same() {
    for sample in listed() {
        let text = fs::read(sample.with_extension("script")).expect("a script");
        let mut often = Table::read(&text)
            .and_then(|table| table.load())
            .expect("a script that loads");
        let mut once = often.clone();
        let entries = entries(&sample);
        let moves = entries
            .iter()
            .filter(|&&actor| often.move_actor(actor).is_ok())
            .count();
        assert_eq!(
            once.run(&entries),
            Counts {
                moves,
                refusals: entries.len() - moves
            }
        );
        assert_eq!(once, often);
    }
}

#[test]
fn two_orders_that_agree_end_alike() {
    let script = "(def a (actor (field n 1) (method up (k) (set this n (plus (get this n) k)))))\n(def b (actor (field n 2)))\n(send a up 7)\n";
    let mut one = loaded(script);
    let mut two = one.clone();
    // in the second list the actors 1 and 2 move only after actor 0 has made its last move
    one.run(&[0, 0, 0, 1, 2, 1, 0, 2, 0, 0, 1, 1, 1, 1]);
    two.run(&[0, 0, 0, 0, 0, 0, 2, 2, 1, 1, 1, 1, 1, 1]);
    assert_eq!(one.listing(), two.listing());
    assert_eq!(one, two);
}

#[test]
fn texts_are_refused_with_their_cause() {
    let cases: [(&[u8], Refusal); 12] = [
        (b"", Refusal::TextLength),
        (&[b' '; TEXT_BYTES + 1], Refusal::TextLength),
        (&[b' '; TEXT_BYTES], Refusal::Grammar),
        (b"(plus 2 3)", Refusal::Grammar),
        (b"(def x 1)\n", Refusal::Grammar),
        (b"\xff\n", Refusal::Grammar),
        (b"(if 1 2)\n", Refusal::Grammar),
        (b"(same 1 2 3)\n", Refusal::Grammar),
        (b"(let x 1 y)\n", Refusal::Binding),
        (b"(if 1 2 x)\n", Refusal::Binding),
        (b"(object (field a 1) (field a 2))\n", Refusal::Twice),
        (b"(future x x 1)\n", Refusal::Twice),
    ];
    for (text, cause) in cases {
        assert_eq!(Table::read(text), Err(cause));
    }
    let deep = "(seq 1 ".repeat(33) + "1" + &")".repeat(33) + "\n";
    assert_eq!(Table::read(deep.as_bytes()), Err(Refusal::TooLarge));
    assert_eq!(
        Table::read("1\n".repeat(200).as_bytes())
            .expect("a table")
            .load(),
        Err(Refusal::Limit)
    );
}

#[test]
fn moves_are_refused_with_their_cause() {
    let cases = [
        ("null\n", Refusal::Nothing),
        ("(get null a)\n", Refusal::Receiver),
        ("(ask null m)\n", Refusal::Receiver),
        ("(resolve null 5)\n", Refusal::Receiver),
        ("(when null x x)\n", Refusal::Nothing),
        ("(get (actor (field a 1)) a)\n", Refusal::NotOwn),
        ("(get (object (field a 1)) b)\n", Refusal::NoMember),
        (
            "(future f r (seq (resolve r 1) (resolve r 2)))\n",
            Refusal::Resolved,
        ),
        ("(plus 16777215 1)\n", Refusal::Arithmetic),
        ("(if 1 (plus null 1) 2)\n", Refusal::Arithmetic),
        ("(if 0 (plus null 1) (same null 2))\n", Refusal::Nothing),
        (
            "(let o (object (method go (x) (plus 1 (call this go (plus x 1))))) (call o go 0))\n",
            Refusal::Limit,
        ),
    ];
    for (text, cause) in cases {
        assert_eq!(until_refused(&mut loaded(text)), cause, "{text}");
    }
    for actor in 1..=255 {
        assert_eq!(loaded("null\n").move_actor(actor), Err(Refusal::NoActor));
    }
}

#[test]
fn every_kind_of_move_is_told() {
    let mut state = loaded("(send (actor (method go () (send this go))) go)\n");
    assert_eq!(state.move_actor(0), Ok(Move::Created(1)));
    assert_eq!(state.move_actor(0), Ok(Move::Sent(1)));
    assert_eq!(state.move_actor(1), Ok(Move::Taken));
    assert_eq!(state.move_actor(1), Ok(Move::Inner));
    assert_eq!(state.move_actor(1), Ok(Move::Sent(1)));
}

#[test]
fn words_of_ones_own_are_tested() {
    let table = Table::read(b"(plus 2 3)\n").expect("a table");
    let state = table.load().expect("a state");
    assert_eq!(Table::from_words(&[]), Err(Refusal::Short));
    assert_eq!(Table::from_words(&table.words()[1..]), Err(Refusal::Short));
    assert_eq!(Table::from_words(&[7; TABLE_WORDS]), Err(Refusal::Neither));
    assert_eq!(
        Table::from_words(&[table.words(), &[1, 2, 3]].concat()),
        Ok(table.clone())
    );
    assert_eq!(State::from_words(&[]), Err(Refusal::Short));
    assert_eq!(
        State::from_words(&vec![7; STATE_WORDS]),
        Err(Refusal::Neither)
    );
    assert_eq!(
        State::from_words(&[state.words(), &[1, 2, 3]].concat()),
        Ok(state.clone())
    );
    // a state is no table, and one bit that is another makes a state none, or another one
    assert_eq!(Table::from_words(state.words()), Err(Refusal::Neither));
    for at in (0..STATE_WORDS).step_by(61) {
        let mut words = state.words().to_vec();
        words[at] ^= 1;
        assert_ne!(State::from_words(&words), Ok(state.clone()));
    }
}

#[test]
fn refused_calls_leave_slices_alone() {
    let (mut table, mut words, mut text) = (
        vec![5; TABLE_WORDS],
        vec![6; STATE_WORDS],
        vec![7; TEXT_BYTES],
    );
    assert_eq!(lent::read(b"(plus 2 3)", &mut table), Err(Refusal::Grammar));
    assert_eq!(
        lent::read(b"(plus 2 3)\n", &mut table[1..]),
        Err(Refusal::Short)
    );
    assert_eq!(lent::load(&table, &mut words), Err(Refusal::Neither));
    assert_eq!(lent::move_actor(&mut words, 0), Err(Refusal::Neither));
    assert_eq!(lent::run(&mut words, &[0]), Err(Refusal::Neither));
    assert_eq!(lent::run(&mut [], &[]), Err(Refusal::Short));
    assert_eq!(lent::print(&table, &mut text), Err(Refusal::Neither));
    assert_eq!(lent::list(&words, &mut text), Err(Refusal::Neither));
    assert_eq!(
        lent::list(loaded("null\n").words(), &mut text[..20]),
        Err(Refusal::Short)
    );
    assert!(table.iter().all(|&word| word == 5));
    assert!(words.iter().all(|&word| word == 6));
    assert!(text.iter().all(|&byte| byte == 7));
}

#[test]
fn numbers_and_words_of_causes() {
    for (i, cause) in Refusal::ALL.into_iter().enumerate() {
        assert_eq!(usize::from(cause.number()), i + 1);
        assert_eq!(Refusal::from_number(cause.number()), Some(cause));
        assert!(cause.to_string().ends_with(&format!("({})", i + 1)));
    }
    assert_eq!((17..=255).find_map(Refusal::from_number), None);
}

#[test]
fn a_listing_of_any_length_is_whole() {
    let method =
        |i| format!("(method mmmmmmmmmmm{i} (aaaaaaaaaaaa bbbbbbbbbbbb cccccccccccc) null)");
    let object = format!(
        "(object {} {} {} {})",
        method(0),
        method(1),
        method(2),
        method(3)
    );
    let body = format!("(seq {object} ").repeat(10) + &object + &")".repeat(10);
    let script = format!(
        "(def b (actor (method p (x) null)))\n\
         (def o (object (method go () (seq (send b p (isolate (method w () {body}))) (call this go)))))\n\
         (call o go)\n"
    );
    let mut state = loaded(&script);
    let entries: Vec<u8> = (0..200).map(|i| i % 2).collect();
    state.run(&entries);
    let listing = state.listing();
    assert!(listing.len() > 65536, "{}", listing.len());
    let mut text = vec![0; listing.len() + 1];
    assert_eq!(lent::list(state.words(), &mut text), Ok(listing.len()));
    assert_eq!(&text[..listing.len()], listing.as_bytes());
    assert_eq!(
        lent::list(state.words(), &mut text[..listing.len() - 1]),
        Err(Refusal::Short)
    );
}

/// Numbers that look like chance and are the same in every run.
struct Chance(u64);

impl Chance {
    fn below(&mut self, limit: usize) -> usize {
        self.0 ^= self.0 << 13;
        self.0 ^= self.0 >> 7;
        self.0 ^= self.0 << 17;
        (self.0 % limit as u64) as usize
    }
}

#[test]
fn a_text_that_is_read_prints_again() {
    let mut chance = Chance(0x9e3779b97f4a7c15);
    let bytes = b"()\n 0123456789abcxyz";
    let mut read = 0;
    for sample in listed() {
        let text = fs::read(sample.with_extension("script")).expect("a script");
        for _ in 0..400 {
            let mut other = text.clone();
            for _ in 0..1 + chance.below(2) {
                let at = chance.below(other.len());
                other[at] = bytes[chance.below(bytes.len())];
            }
            if let Ok(table) = Table::read(&other) {
                assert_eq!(table.text().as_bytes(), other);
                assert_eq!(Table::from_words(table.words()), Ok(table));
                read += 1;
            }
        }
    }
    assert!(read > 100, "{read}");
}

/// Changed words are refused, or they are another state, with which everything can be done.
#[test]
fn words_changed_by_chance_are_refused_or_a_state() {
    let mut chance = Chance(0x2545f4914f6cdd1d);
    let (mut states, mut refused) = (0, 0);
    for sample in listed() {
        let text = fs::read(sample.with_extension("script")).expect("a script");
        let mut start = Table::read(&text)
            .and_then(|table| table.load())
            .expect("a script that loads");
        let entries = entries(&sample);
        start.run(&entries[..entries.len() / 2]);
        let used: Vec<usize> = (0..STATE_WORDS)
            .filter(|&at| start.words()[at] != 0)
            .collect();
        for _ in 0..400 {
            let mut words = start.words().to_vec();
            let at = used[chance.below(used.len())];
            words[at] ^= 1 << chance.below(32);
            let before = words.clone();
            match lent::run(&mut words, &entries) {
                Err(cause) => {
                    assert_eq!(cause, Refusal::Neither);
                    assert_eq!(words, before);
                    refused += 1;
                }
                Ok(Counts { moves, refusals }) => {
                    assert_eq!(moves + refusals, entries.len());
                    let mut state =
                        State::from_words(&before).expect("the words were taken for a state");
                    state.run(&entries);
                    assert_eq!(state.words(), words);
                    assert!(state.listing().starts_with("(actor 0 "));
                    states += 1;
                }
            }
        }
    }
    assert!(states > 100 && refused > 100, "{states} {refused}");
}

/// A state with an object whose method nests as many literals as its words have room for: the words from which the calls recurse deepest.
/// No script comes to it, but its words are a state, so anybody may lend them.
fn deepest() -> State {
    let mut state = loaded("(object (method m () null))\n");
    state.run(&[0]);
    let mut words = state.words().to_vec();
    let (slot, methods, room) = (256 + 720, 256 + 1104, 1536);
    let (header, null) = (words[methods], words[methods + 1]);
    for at in (methods + 1..methods + room - 1).step_by(2) {
        words[at] = 15 << 24 | 1 << 3; // an object literal with one method
        words[at + 1] = header;
    }
    words[methods + room - 1] = null;
    words[slot + 6] = room as u32;
    State::from_words(&words).expect("a state")
}

/// The calls do with the stack that the C header names, whatever they are lent, and can be made from many threads.
#[test]
fn a_mebibyte_of_stack_is_enough() {
    let deep = "(seq 1 ".repeat(29) + "(fn x (fn y (plus x y)))" + &")".repeat(29) + "\n";
    let work = move || {
        let mut state = loaded(&deep);
        state.run(&[0; 300]);
        state.listing();
        let mut state = deepest();
        assert_eq!(state.move_actor(0), Err(Refusal::Nothing));
        assert!(state.listing().len() > 768 * "(object (method m () ))".len());
        // calls of no arguments one in another, too many for a state: the test for one goes through them all
        let mut words = state.words().to_vec();
        words[256 + 1105..256 + 1104 + 1535].fill(13 << 24 | 8);
        assert_eq!(State::from_words(&words), Err(Refusal::Neither));
    };
    let threads: Vec<_> = (0..4)
        .map(|_| {
            let work = work.clone();
            thread::Builder::new()
                .stack_size(1024 * 1024)
                .spawn(work)
                .expect("a thread")
        })
        .collect();
    for thread in threads {
        thread.join().expect("no refusal");
    }
}
