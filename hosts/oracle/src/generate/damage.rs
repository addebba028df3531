//! Inputs that are broken: a byte, a token, a line, the schedule.

use super::rng::Rng;
use crate::script::RESERVED;

/// Words and the like to put where they may not belong.
const TOKENS: &[&str] = &[
    "(",
    ")",
    "x",
    "f",
    "zz",
    "null",
    "this",
    "1",
    "16777215",
    "abcdefghijklm",
    "abcdefghijkl",
    "A",
    ".t",
    "m.f",
    "-1",
    "9x",
];
/// Expressions at the edge of the grammar and of what may be bound, some good, some not.
const FORMS: &[&str] = &[
    "0",
    "00",
    "07",
    "16777215",
    "16777216",
    "16777217",
    "99999999",
    "100000000",
    "(def x 1)",
    "(future x x 1)",
    "(future x y 1)",
    "(fn abcdefghijkl abcdefghijkl)",
    "(fn abcdefghijklm abcdefghijklm)",
    "(object (field a 1) (field a 2))",
    "(object (field a 1) (method a () 2))",
    "(object (field a 1) (field b 1) (field c 1) (field d 1))",
    "(object (field a 1) (field b 1) (field c 1) (field d 1) (field e 1))",
    "(object (method m () 1) (method m () 2))",
    "(object (method m () 1) (method m (x) x))",
    "(object (method m (x) x) (method m (y) y))",
    "(isolate (method m (x y) 1) (method m (x) 2) (method m (y x) 3))",
    "(actor (method m () 1) (method m (x) 2) (method m (x y) 3) (method m (x y z) 4))",
    "(actor (method m () 1) (method m (x) 2) (method m (x y) 3) (method m (x y z) 4) (method n () 5))",
    "(call (object (method m () 1) (method m (x) x)) m 2)",
    "(call (object (method m (x y) 1) (method m () 2)) m)",
    "(call (object (method m (x y) 1) (method m () 2)) m 3)",
    "(ask (object (method m (x y) 1) (method m (x) 2)) m 3)",
    "(object (method m () 1) (field a 2))",
    "(isolate (method a () 1) (method b () 1) (method c () 1) (method d () 1))",
    "(isolate (method a () 1) (method b () 1) (method c () 1) (method d () 1) (method e () 1))",
    "(object (method m (x x) 1))",
    "(object (method m (a b c) 1))",
    "(object (method m (a b c d) 1))",
    "(call null m 1 2 3)",
    "(call null m 1 2 3 4)",
    "(send null m 1 2 3 4)",
    "(ask null m 1 2 3)",
    "(ask null m 1 2 3 4)",
    "(let q 1 (isolate (field a q)))",
    "(let q 1 (actor (method m () q)))",
    "(let q 1 (actor (method m (q) (object (field a q)))))",
    "(let q q 1)",
    "(when q q 1)",
    "(get null set)",
    "(if 1 2 3)",
    "(if null (same 1 1) (if 0 1 2))",
    "(if 1 2)",
    "(if 1 2 3 4)",
    "(if)",
    "(same 1 null)",
    "(same 1)",
    "(same 1 2 3)",
    "(let if 1 2)",
    "(let same 1 same)",
    "(fn if if)",
    "(future same r 1)",
    "(get null same)",
    "(call null if 1)",
    "(object (field same 1))",
    "(actor (method if () 1))",
    "(object (method m (same) 1))",
    "(let iff 1 (if iff iff 2))",
    "(let sam 1 (same sam 2))",
    "(actor)",
];
/// Bytes to put where they may not belong.
const BYTES: &[u8] = b" ()\nabxz019AZ.\t-_\r\x00\xff";

/// An input with one to three faults, some of which may happen to do no harm.
pub fn input(rng: &mut Rng, whole: Vec<u8>) -> Vec<u8> {
    let mut input = whole;
    for _ in 0..rng.pick(&[1, 1, 1, 2, 3]) {
        let start = input.iter().position(|byte| *byte == b'\n').map_or(0, |end| end + 1);
        let mut text = input.split_off(start);
        match rng.below(22) {
            0 => byte(rng, &mut input),
            1 | 2 => byte(rng, &mut text),
            3..=7 => text = token(rng, &text),
            8..=10 => text = form(rng, &text),
            11 | 12 => text = line(rng, &text),
            13 => text.truncate(rng.below(text.len() as u64 + 1) as usize),
            14..=19 => text = names(rng, &text),
            _ => text = choices(rng, &text),
        }
        input.append(&mut text);
    }
    input
}

/// A short text of tokens, most likely of no sense.
pub fn tokens(rng: &mut Rng) -> String {
    let count = rng.between(0, 6);
    let mut text = String::new();
    for at in 0..count {
        text += if at > 0 { " " } else { "" };
        text += any_token(rng);
    }
    text + if rng.chance(90) { "\n" } else { "" }
}

fn any_token(rng: &mut Rng) -> &'static str {
    match rng.below(4) {
        0 => rng.pick(&RESERVED),
        1 => rng.pick(FORMS),
        _ => rng.pick(TOKENS),
    }
}

/// Takes out, puts in or changes one byte.
fn byte(rng: &mut Rng, bytes: &mut Vec<u8>) {
    if bytes.is_empty() {
        return;
    }
    let (at, new) = (rng.below(bytes.len() as u64) as usize, rng.pick(BYTES));
    match rng.below(3) {
        0 => drop(bytes.remove(at)),
        1 => bytes.insert(at, new),
        _ => bytes[at] = new,
    }
}

/// Replaces, repeats or takes out one word or number, or puts another in its place.
fn token(rng: &mut Rng, text: &[u8]) -> Vec<u8> {
    let spans = spans(text);
    if spans.is_empty() {
        return text.to_vec();
    }
    let (start, end) = rng.pick(&spans);
    let (other_start, other_end) = rng.pick(&spans);
    let new = match rng.below(8) {
        0 => Vec::new(),
        1 => [&text[start..end], b" ", &text[start..end]].concat(),
        2..=4 => text[other_start..other_end].to_vec(),
        _ => any_token(rng).as_bytes().to_vec(),
    };
    [&text[..start], &new, &text[end..]].concat()
}

/// Puts another expression in the place of a number.
fn form(rng: &mut Rng, text: &[u8]) -> Vec<u8> {
    let mut spans = spans(text);
    spans.retain(|(start, _)| text[*start].is_ascii_digit());
    if spans.is_empty() {
        return text.to_vec();
    }
    let (start, end) = rng.pick(&spans);
    [&text[..start], rng.pick(FORMS).as_bytes(), &text[end..]].concat()
}

/// Where the words and numbers of a text start and end.
fn spans(text: &[u8]) -> Vec<(usize, usize)> {
    let letter = |byte: &u8| byte.is_ascii_alphanumeric();
    let starts = (0..text.len()).filter(|at| letter(&text[*at]) && (*at == 0 || !letter(&text[*at - 1])));
    starts.map(|start| (start, start + text[start..].iter().take_while(|byte| letter(byte)).count())).collect()
}

/// Repeats, takes out or swaps lines.
fn line(rng: &mut Rng, text: &[u8]) -> Vec<u8> {
    let mut lines: Vec<&[u8]> = text.split_inclusive(|byte| *byte == b'\n').collect();
    if lines.is_empty() {
        return Vec::new();
    }
    let (at, other) = (rng.below(lines.len() as u64) as usize, rng.below(lines.len() as u64) as usize);
    match rng.below(4) {
        0 => drop(lines.remove(at)),
        1 => lines.insert(other, lines[at]),
        2 => lines = lines.repeat(rng.between(2, 12)),
        _ => lines.swap(at, other),
    }
    lines.concat()
}

/// Has names of a list fall together.
fn names(rng: &mut Rng, text: &[u8]) -> Vec<u8> {
    let (from, to) = rng.pick(&[
        ("(future f r", "(future f f"),
        ("(field b", "(field a"),
        ("(field c", "(field a"),
        ("(method run", "(method go"),
        ("(method run ()", "(method go (w)"),
        ("(method put (x y)", "(method go (x y)"),
        ("(method go (x)", "(method go (z x)"),
        ("(method go (x)", "(method run (x)"),
        ("(method m (x y)", "(method m (x)"),
        ("(method m ()", "(method m (x)"),
        ("(x y)", "(x x)"),
        ("(x y z)", "(x y x)"),
        ("(let x", "(let q"),
        ("(fn x", "(fn q"),
        ("(def ", "(seq "),
    ]);
    replaced(rng, text, from, to)
}

/// Has words of choices name something, or stand for another operator.
fn choices(rng: &mut Rng, text: &[u8]) -> Vec<u8> {
    let (from, to) = rng.pick(&[
        ("(def ", "(def if"),
        ("(def x", "(def same"),
        ("(let x", "(let if"),
        ("(field a", "(field same"),
        ("(method go", "(method if"),
        (" go", " same"),
        ("(x)", "(same)"),
        ("(plus ", "(same "),
        ("(percent ", "(if "),
        ("(if ", "(let "),
        ("(if ", "(same "),
        ("(same ", "(if "),
        ("(same ", "(plus "),
    ]);
    replaced(rng, text, from, to)
}

fn replaced(rng: &mut Rng, text: &[u8], from: &str, to: &str) -> Vec<u8> {
    String::from_utf8_lossy(text).replacen(from, to, rng.between(1, 3)).into_bytes()
}

#[cfg(test)]
mod tests {
    use super::*;
    use crate::loops;

    #[test]
    fn damage_brings_the_causes_of_reading() {
        let (mut rng, mut seen) = (Rng::new(2), [0; 17]);
        let whole = b"00\n(def x (object (field a 1) (field b 2) (method run (x y) x) (method go () 1)))\n\
                      (future f r (if x (same x f) 3))\n";
        for _ in 0..2000 {
            let printed = loops(&input(&mut rng, whole.to_vec()));
            if let Some(cause) = printed.strip_prefix(b"(refused ") {
                seen[usize::from(cause[0] - b'0')] += 1;
            }
        }
        assert!((1..=4).all(|cause| seen[cause] > 0), "{seen:?}");
    }
}
