//! Words that are no table or state, or are one by chance: changed, mixed and made up.

use oracle::generate::rng::Rng;
use oracle::script::RESERVED;
use oracle::words::{encode, encode_table, STATE, TABLE};
use oracle::{State, Table};

use crate::alter;
use crate::checked::{Checked, Differs};
use crate::decode;
use crate::lent::Lent;

const HEAD: usize = 256;
const PART: usize = 3_200;

/// Where the regions of an actor's part begin and how long the things in them are.
const REGIONS: [(usize, usize); 8] = [(0, 1), (16, 1), (528, 6), (624, 6), (720, 8), (976, 8), (1_104, 1), (2_640, 1)];

/// The kinds of operators that name nothing, and the first ones behind them, which no node has.
const OPERATORS: [u32; 7] = [7, 8, 18, 19, 20, 21, 22];

/// Lends changed words of states to the calls; gives the states that some of them are.
pub fn states(checked: &mut Checked, states: &[State]) -> Result<Vec<State>, Differs> {
    let mut found = Vec::new();
    for _ in 0..5 {
        let pick = |rng: &mut Rng| &states[rng.below(states.len() as u64) as usize];
        let (one, other) = (pick(&mut checked.rng), pick(&mut checked.rng));
        let words = changed_state(&mut checked.rng, one, other);
        let native = decode::state(&words);
        if let Err(condition) = native {
            *checked.counts.conditions.entry(condition).or_default() += 1;
        }
        let mut native = native.ok();
        found.extend(native.clone());
        lend_state(checked, &words, &mut native)?;
    }
    Ok(found)
}

fn lend_state(checked: &mut Checked, words: &[u32], native: &mut Option<State>) -> Result<(), Differs> {
    checked.counts.states.0 += usize::from(native.is_some());
    checked.counts.states.1 += usize::from(native.is_none());
    checked.note(|| format!("words {:?}", crate::told(words)));
    let length = checked.length(STATE);
    let mut lent = Lent::with(&mut checked.rng, words, length);
    checked.list(&lent, native.as_ref())?;
    let actor = checked.below(5) as u8;
    checked.move_actor(&mut lent, native, actor)?;
    let entries: Vec<u8> = (0..checked.below(6)).map(|_| checked.rng.below(4) as u8).collect();
    checked.run(&mut lent, native, &entries)?;
    match native {
        Some(_) => checked.list(&lent, native.as_ref()),
        None => Ok(()),
    }
}

/// Lends changed words of tables to the calls.
pub fn tables(checked: &mut Checked, one: &Table, other: &Table) -> Result<(), Differs> {
    let (one, other) = (encode_table(one), encode_table(other));
    for _ in 0..3 {
        let mut words = one.clone();
        for _ in 0..checked.rng.pick(&[1, 1, 1, 2, 3]) {
            change(&mut checked.rng, &mut words, &other, false);
        }
        let native = decode::table(&words);
        checked.counts.tables.0 += usize::from(native.is_some());
        checked.counts.tables.1 += usize::from(native.is_none());
        checked.note(|| format!("words {:?}", crate::told(&words)));
        let (length, room) = (checked.length(TABLE), checked.length(STATE));
        let table = Lent::with(&mut checked.rng, &words, length);
        checked.print(&table, native.as_ref())?;
        let mut state = Lent::any(&mut checked.rng, room);
        checked.load(&table, native.as_ref(), &mut state)?;
    }
    Ok(())
}

/// One state's words with one to three changes, some made in the state and some in the words.
fn changed_state(rng: &mut Rng, one: &State, other: &State) -> Vec<u32> {
    let mut altered = one.clone();
    let inside = rng.chance(60);
    if inside {
        (0..rng.pick(&[1, 1, 1, 2])).for_each(|_| alter::state(rng, &mut altered));
    }
    let mut words = encode(&altered);
    if !inside || rng.chance(10) {
        (0..rng.pick(&[1, 1, 1, 2, 3])).for_each(|_| change(rng, &mut words, &encode(other), true));
    }
    words
}

/// The place of a word that is not 0, if any is.
fn used(rng: &mut Rng, words: &[u32]) -> usize {
    let count = words.iter().filter(|word| **word != 0).count();
    let which = rng.below(count as u64 + 1) as usize;
    (0..words.len()).filter(|at| words[*at] != 0).nth(which).unwrap_or(0)
}

/// Gives an operator that names nothing the kind of another, a payload, which none of them has, or another number of
/// operands.
fn operator(rng: &mut Rng, words: &mut [u32], is_state: bool) {
    let is_operator = |at: &usize| OPERATORS.contains(&(words[*at] >> 24));
    let found: Vec<usize> = (HEAD..words.len() - 2).filter(is_operator).collect();
    if found.is_empty() {
        return;
    }
    let at = rng.pick(&found);
    match rng.below(10) {
        0..=4 => words[at] = words[at] & 0xff_ffff | rng.pick(&OPERATORS) << 24,
        5 => words[at] |= 1 << rng.below(24),
        way => operands(words, at, is_state, way < 8),
    }
}

/// Puts a word behind an operator and makes that an if, or takes the word behind it away and makes it a same; the words
/// of the table or the expression are counted anew. It is right where the operator had two operands before, or three.
fn operands(words: &mut [u32], at: usize, is_state: bool, more: bool) {
    let end = (at..words.len() - 1).find(|place| words[*place] == 0).unwrap_or(words.len() - 2);
    let count = if is_state { HEAD + (at - HEAD) / PART * PART + 5 } else { 2 };
    if more {
        words.copy_within(at + 1..end.max(at + 1), at + 2);
        (words[at], words[at + 1]) = (19 << 24, 1 << 24);
        words[count] = words[count].wrapping_add(1);
    } else {
        words.copy_within(at + 2..(end + 1).max(at + 2), at + 1);
        words[at] = 18 << 24;
        words[count] = words[count].wrapping_sub(1);
    }
}

/// Makes an entry of the dictionary a word that stands for a form, or one that only looks like it.
fn dictionary(rng: &mut Rng, words: &mut [u32], is_state: bool) {
    let (count, first) = if is_state { (words[1], 2) } else { (words[0], 3) };
    let entry = first + 3 * rng.below(u64::from(count.clamp(1, 64))) as usize;
    let word = if rng.chance(70) { rng.pick(&RESERVED) } else { rng.pick(&["iff", "i", "sam", "same1", "apply"]) };
    let mut bytes = [0; 12];
    bytes[..word.len()].copy_from_slice(word.as_bytes());
    for (place, four) in words[entry..entry + 3].iter_mut().zip(bytes.chunks(4)) {
        *place = u32::from_le_bytes([four[0], four[1], four[2], four[3]]);
    }
}

/// Gives a method the name or all of the header of one that stands near it, or another number of parameters. Methods of
/// one name may then differ in that number, or no more.
fn header(rng: &mut Rng, words: &mut [u32]) {
    let found: Vec<usize> = (HEAD..words.len()).filter(|at| words[*at] >> 30 == 3).collect();
    if found.is_empty() {
        return;
    }
    let which = rng.below(found.len() as u64) as usize;
    let (at, near) = (found[which], words[found[(which + 1) % found.len()]]);
    let count = words[at] >> 7 & 3;
    let place = |number: u32| 9 + 7 * number;
    words[at] = match rng.below(8) {
        0..=3 => words[at] & !127 | near & 127,
        4 => near,
        5 | 6 if count > 0 => (words[at] | 127 << place(count - 1)) - (1 << 7),
        _ if count < 3 => {
            let param = rng.pick(&[near >> 9 & 127, 8, 9, 10, 11, 12]);
            (words[at] & !(127 << place(count)) | param << place(count)) + (1 << 7)
        }
        _ => words[at] ^ 1 << 7,
    };
}

/// A node that may stand somewhere.
fn node(rng: &mut Rng) -> u32 {
    let kind = match rng.below(5) {
        0 => rng.pick(&OPERATORS),
        _ => rng.pick(&[1, 2, 3, 6, 7, 8, 9, 10, 11, 12, 13, 14, 15, 16, 17, 64, 65, 66, 67, 68, 128, 130, 192]),
    };
    let payload = rng.pick(&[0, 1, 7, 8, 9, 1 << 7, 1 << 9, 1 << 16, 1 << 17, 0xff_ffff]) + rng.below(10) as u32;
    kind << 24 | payload & 0xff_ffff
}

/// One change. Most words of a state are 0, so what is changed is mostly sought among those that are not.
fn change(rng: &mut Rng, words: &mut [u32], other: &[u32], is_state: bool) {
    let (at, from) = (used(rng, words), used(rng, words));
    match rng.below(25) {
        0 => words[rng.below(words.len() as u64) as usize] = rng.below(1 << 32) as u32,
        1 | 2 => words[at] ^= 1 << rng.below(32),
        3 => words[at] = words[at].wrapping_add(1),
        4 => words[at] = words[at].wrapping_sub(1),
        5 | 6 => words[at] = words[from],
        7 => words[at] = words[at] & !0xff_ffff | rng.below(40) as u32,
        8 => words[at] = words[at] & 0xff_ffff | (rng.below(24) as u32) << 24,
        9 | 10 => words[at] = node(rng),
        11 => words[(at + 1) % words.len()] = node(rng),
        12 => words[rng.below(4) as usize] = rng.below(70) as u32,
        13 => words[at] = 0,
        14 => words.swap(at, from),
        15 => words[at..(at + 20).min(other.len())].rotate_left(1),
        16 => {
            let cut = rng.below(words.len() as u64) as usize;
            words[cut..].copy_from_slice(&other[cut..]);
        }
        17 if is_state => regions(rng, words, other),
        18 if is_state => counts(rng, words),
        17 | 18 => words[at] = other[at],
        19 | 20 => operator(rng, words, is_state),
        21 => dictionary(rng, words, is_state),
        22 | 23 => header(rng, words),
        _ if rng.chance(50) => words.fill_with(|| rng.below(1 << 32) as u32),
        _ => deep(rng, words, at),
    }
}

/// One thing nested in itself as often as there is room.
fn deep(rng: &mut Rng, words: &mut [u32], at: usize) {
    let node = if rng.chance(70) { node(rng) } else { words[at] };
    let end = (at + rng.pick(&[10, 100, 512, 1_536])).min(words.len());
    words[at..end].fill(node);
}

/// Takes a region from the other state, or swaps two of this one: actors, messages, entities.
fn regions(rng: &mut Rng, words: &mut [u32], other: &[u32]) {
    let part = |rng: &mut Rng| HEAD + PART * rng.below(4) as usize;
    let (one, two) = (part(rng), part(rng));
    let which = rng.below(7) as usize;
    let ((first, size), last) = (REGIONS[which], REGIONS[which + 1].0);
    match rng.below(4) {
        0 => words[one..one + PART].copy_from_slice(&other[two..two + PART]),
        1 => words[one + first..one + last].copy_from_slice(&other[two + first..two + last]),
        2 => (0..PART).for_each(|at| words.swap(one + at, two + at)),
        _ => {
            let thing = |rng: &mut Rng| size * rng.below(((last - first) / size).min(6) as u64) as usize;
            let (from, to) = (one + first + thing(rng), one + first + thing(rng));
            (0..size).for_each(|at| words.swap(from + at, to + at));
        }
    }
}

/// Changes a count of an actor.
fn counts(rng: &mut Rng, words: &mut [u32]) {
    let at = HEAD + PART * rng.below(4) as usize + rng.below(7) as usize;
    words[at] = match rng.below(4) {
        0 => words[at].wrapping_add(1),
        1 => words[at].wrapping_sub(1),
        2 => rng.pick(&[0, 16, 17, 32, 33, 512, 513, 16_777_215, 16_777_216]),
        _ => rng.below(40) as u32,
    };
}
