//! Two lists of calls on copies of one start, whose moves agree in their counts, in the senders of each inbox and in the
//! creators of actors, end in the same words and the same listing.

use oracle::generate::rng::Rng;
use oracle::state::{most, ActorNo};
use oracle::words::{encode, STATE};
use oracle::{Answer, State};

use crate::checked::{Checked, Differs};
use crate::lent::Lent;
use crate::plain;

/// What the premise speaks of, of the moves that a list makes.
#[derive(Debug, Default, PartialEq, Eq)]
struct Record {
    moves: [usize; most::ACTORS],
    /// The senders of each inbox's messages.
    senders: [Vec<u8>; most::ACTORS],
    creators: Vec<u8>,
}

impl Record {
    fn add(&mut self, actor: u8, answer: Answer) {
        self.moves[usize::from(actor)] += 1;
        match answer {
            Answer::Inner | Answer::Taken => {}
            Answer::Sent(ActorNo(to)) => self.senders[usize::from(to)].push(actor),
            Answer::Created(_) => self.creators.push(actor),
        }
    }
}

/// A list's entries, those of them that moved, and where they lead.
struct Run {
    entries: Vec<u8>,
    moved: Vec<(u8, Answer)>,
    record: Record,
    state: State,
}

impl Run {
    fn new(start: &State) -> Self {
        Run { entries: Vec::new(), moved: Vec::new(), record: Record::default(), state: start.clone() }
    }

    /// Tries an entry; one that is refused is kept at times.
    fn entry(&mut self, rng: &mut Rng, actor: u8) -> bool {
        let answer = plain::step(&mut self.state, actor);
        if answer.is_ok() || rng.chance(30) {
            self.entries.push(actor);
        }
        if let Ok(answer) = answer {
            self.moved.push((actor, answer));
            self.record.add(actor, answer);
        }
        answer.is_ok()
    }
}

/// Entries by chance, most of which move.
fn first(rng: &mut Rng, start: &State, length: usize) -> Run {
    let (mut run, mut idle) = (Run::new(start), 0);
    while run.entries.len() < length && idle < 40 {
        let favoured = rng.below(4);
        for _ in 0..rng.pick(&[1, 1, 2, 3, 6]) {
            let actor = if rng.chance(70) { favoured } else { rng.below(4) } as u8;
            idle = if run.entry(rng, actor) { 0 } else { idle + 1 };
        }
    }
    run
}

/// The same moves in another order: an actor's turn is put off while another has to send or to create before it.
fn second(rng: &mut Rng, start: &State, first: &Run) -> Run {
    let (mut run, mut idle) = (Run::new(start), 0);
    let slow = rng.below(5);
    while run.moved.len() < first.moved.len() && idle < 200 {
        let mut actor = rng.below(4);
        if actor == slow && rng.chance(80) {
            actor = rng.below(4);
        }
        let actor = actor as u8;
        idle += 1;
        if may(&run.record, first, actor) && run.entry(rng, actor) {
            idle = 0;
        }
    }
    run
}

/// Whether an actor's next move, as the first list had it, keeps the orders of senders and of creators.
fn may(done: &Record, first: &Run, actor: u8) -> bool {
    let mut own = first.moved.iter().filter(|(mover, _)| *mover == actor);
    let Some((_, answer)) = own.nth(done.moves[usize::from(actor)]) else { return false };
    match answer {
        Answer::Inner | Answer::Taken => true,
        Answer::Sent(to) => {
            let to = usize::from(to.0);
            first.record.senders[to].get(done.senders[to].len()) == Some(&actor)
        }
        Answer::Created(_) => first.record.creators.get(done.creators.len()) == Some(&actor),
    }
}

/// The first list's entries in any order, which may or may not meet the premise.
fn shuffled(rng: &mut Rng, start: &State, first: &Run) -> Run {
    let mut entries = first.entries.clone();
    (1..entries.len()).for_each(|at| entries.swap(at, rng.below(at as u64 + 1) as usize));
    let mut run = Run::new(start);
    for actor in entries {
        run.entry(rng, actor);
    }
    run
}

/// Makes a pair of lists on a start and plays both.
pub fn pair(checked: &mut Checked, start: &State) -> Result<(), Differs> {
    let length = checked.rng.pick(&[0, 5, 20, 60, 120]);
    let one = first(&mut checked.rng, start, length);
    let other = if checked.rng.chance(90) {
        second(&mut checked.rng, start, &one)
    } else {
        shuffled(&mut checked.rng, start, &one)
    };
    if one.record != other.record {
        checked.counts.apart.0 += usize::from(one.state == other.state);
        checked.counts.apart.1 += usize::from(one.state != other.state);
        return Ok(());
    }
    checked.counts.pairs.0 += 1;
    checked.counts.pairs.1 += usize::from(one.moved != other.moved);
    let (one, state) = play(checked, start, &one.entries)?;
    let (other, _) = play(checked, start, &other.entries)?;
    if one.cells()[..STATE] != other.cells()[..STATE] {
        return Err("two lists that meet the premise end in other words".to_owned());
    }
    let listing = oracle::list(&state);
    let room = checked.room(listing.len());
    let mut text = Lent::any(&mut checked.rng, room);
    let mut again = text.clone();
    let answer = checked.list_to(&one, Some(listing.clone()), &mut text)?;
    let answer_again = checked.list_to(&other, Some(listing), &mut again)?;
    if answer != answer_again || text.cells() != again.cells() {
        return Err("two lists that meet the premise end in other listings".to_owned());
    }
    Ok(())
}

/// Plays entries by single moves and by runs, with calls between them that are refused as a whole.
fn play(checked: &mut Checked, start: &State, entries: &[u8]) -> Result<(Lent<u32>, State), Differs> {
    let (words, longer) = (encode(start), STATE + checked.below(3));
    let mut lent = Lent::with(&mut checked.rng, &words, longer);
    let (mut native, mut rest) = (Some(start.clone()), entries);
    while !rest.is_empty() {
        if checked.rng.chance(3) {
            let short = checked.below(STATE);
            let mut short = Lent::with(&mut checked.rng, &words, short);
            checked.move_actor(&mut short, &mut Some(start.clone()), rest[0])?;
        }
        if checked.rng.chance(30) {
            checked.move_actor(&mut lent, &mut native, rest[0])?;
            rest = &rest[1..];
        } else {
            let (now, later) = rest.split_at(checked.below(12).min(rest.len()));
            checked.run(&mut lent, &mut native, now)?;
            rest = later;
        }
    }
    Ok((lent, native.expect("a state stays one")))
}
