//! Scripts with their schedules: every call, from reading to the last listing.

use oracle::loops::split;
use oracle::words::{encode, STATE, TABLE};
use oracle::{State, Table};

use crate::checked::{Checked, Differs};
use crate::lent::Lent;

/// What a script led to, for others to go on with.
pub struct Played {
    pub table: Option<Table>,
    /// A few states on the way, the first being the start.
    pub states: Vec<State>,
}

/// Plays an input: a schedule line and a text, neither always good.
pub fn play(checked: &mut Checked, input: &[u8]) -> Result<Played, Differs> {
    let end = input.iter().position(|byte| *byte == b'\n').map_or(0, |end| end + 1);
    let (schedule, text) = split(input).unwrap_or((Vec::new(), &input[end..]));
    let mut played = Played { table: None, states: Vec::new() };
    let (words, table) = read(checked, text)?;
    let Some(table) = table else { return Ok(played) };
    checked.print(&words, Some(&table))?;
    let loaded = load(checked, &words, &table)?;
    played.table = Some(table);
    let Some((mut words, state)) = loaded else { return Ok(played) };
    played.states.push(state.clone());
    moves(checked, &mut words, state, &schedule, &mut played.states)?;
    Ok(played)
}

/// Reads, at first perhaps into a table that is too short.
fn read(checked: &mut Checked, text: &[u8]) -> Result<(Lent<u32>, Option<Table>), Differs> {
    let length = checked.length(TABLE);
    let mut words = Lent::any(&mut checked.rng, length);
    let mut table = checked.read(text, &mut words)?;
    if length < TABLE {
        checked.print(&words, None)?;
        words = Lent::any(&mut checked.rng, TABLE);
        table = checked.read(text, &mut words)?;
    }
    Ok((words, table))
}

fn load(checked: &mut Checked, words: &Lent<u32>, table: &Table) -> Result<Option<(Lent<u32>, State)>, Differs> {
    let length = checked.length(STATE);
    let mut state = Lent::any(&mut checked.rng, length);
    let mut native = checked.load(words, Some(table), &mut state)?;
    if length < STATE {
        state = Lent::any(&mut checked.rng, STATE);
        native = checked.load(words, Some(table), &mut state)?;
    }
    Ok(native.map(|native| (state, native)))
}

/// Goes through a schedule by single moves and by runs, and lists now and then.
fn moves(
    checked: &mut Checked,
    words: &mut Lent<u32>,
    start: State,
    schedule: &[u8],
    states: &mut Vec<State>,
) -> Result<(), Differs> {
    let (mut rest, mut native) = (schedule, Some(start));
    checked.list(words, native.as_ref())?;
    while !rest.is_empty() {
        if checked.rng.chance(70) {
            checked.move_actor(words, &mut native, rest[0])?;
            rest = &rest[1..];
        } else {
            let (now, later) = rest.split_at(checked.below(20).min(rest.len()));
            let entries = entries(checked, now);
            checked.run(words, &mut native, &entries)?;
            rest = later;
        }
        if checked.rng.chance(20) {
            checked.list(words, native.as_ref())?;
        }
        if checked.rng.chance(2) {
            aside(checked, native.as_ref())?;
        }
        if states.len() < 6 && checked.rng.chance(5) {
            states.extend(native.clone());
        }
    }
    states.extend(native.clone());
    checked.list(words, native.as_ref())
}

/// A part of a schedule, at times with an actor in it that no state has.
fn entries(checked: &mut Checked, part: &[u8]) -> Vec<u8> {
    let mut entries = part.to_vec();
    if checked.rng.chance(20) {
        let (at, actor) = (checked.below(entries.len() + 1), 4 + checked.below(252) as u8);
        entries.insert(at, actor);
    }
    entries
}

/// Calls that are refused whatever the state: an actor that there is not, a buffer that is too short.
fn aside(checked: &mut Checked, native: Option<&State>) -> Result<(), Differs> {
    let Some(native) = native else { return Ok(()) };
    let words = encode(native);
    let actor = checked.below(256) as u8;
    if actor > 3 {
        let mut state = Lent::of(&mut checked.rng, &words);
        checked.move_actor(&mut state, &mut Some(native.clone()), actor)?;
    }
    let length = [0, checked.below(STATE), STATE - 1][checked.below(3)];
    let mut state = Lent::with(&mut checked.rng, &words, length);
    checked.move_actor(&mut state, &mut Some(native.clone()), actor)?;
    checked.run(&mut state, &mut Some(native.clone()), &[0, actor])?;
    checked.list(&state, Some(native))
}
