//! Runs a script move by move and tells what each did: `trace SCRIPT SCHEDULE`.
//!
//! Each entry of the schedule is one line of words: the entry's number, the actor, the answer, and what can be seen of it in the listing.
//!
//! | Answer | Then |
//! |---|---|
//! | `inner` | `price 40000` where a field, or the value of a `future`, became what is named; `makes object` where something was made |
//! | `taken` | the message's name |
//! | `sent` | the actor that it went to, and the message's name |
//! | `created` | the new actor |
//! | `refused` | the number of the cause |

use std::error::Error;
use std::{env, fs};

use atlite::{Move, State, Table};

fn main() -> Result<(), Box<dyn Error>> {
    let names: Vec<String> = env::args().skip(1).collect();
    let [script, schedule] = names.as_slice() else {
        return Err("trace SCRIPT SCHEDULE".into());
    };
    let mut state = Table::read(&fs::read(script)?)?.load()?;
    let mut before = Listing::of(&state);
    for (at, digit) in fs::read_to_string(schedule)?.trim_end().bytes().enumerate() {
        let actor = digit.wrapping_sub(b'0');
        let answer = state.move_actor(actor);
        let after = Listing::of(&state);
        let told = match answer {
            Ok(Move::Inner) => format!("inner {}", after.change(&before, actor)),
            Ok(Move::Taken) => format!("taken {}", before.messages(actor).next().unwrap_or("")),
            Ok(Move::Sent(to)) => {
                format!("sent {to} {}", after.messages(to).last().unwrap_or(""))
            }
            Ok(Move::Created(other)) => format!("created {other}"),
            Err(cause) => format!("refused {}", cause.number()),
        };
        println!("{} {actor} {}", at + 1, told.trim_end());
        before = after;
    }
    Ok(())
}

/// The lines of a listing, those of an actor together.
struct Listing(Vec<Vec<String>>);

impl Listing {
    fn of(state: &State) -> Listing {
        let mut parts: Vec<Vec<String>> = Vec::new();
        for line in state.listing().lines() {
            if line.starts_with("(actor ") {
                parts.push(Vec::new());
            } else if let Some(part) = parts.last_mut() {
                part.push(line.to_owned());
            }
        }
        Listing(parts)
    }

    /// The lines of an actor, without the one that tells of its expression.
    fn lines(&self, actor: u8) -> impl Iterator<Item = &str> {
        let part = self.0.get(usize::from(actor));
        part.into_iter().flatten().map(String::as_str)
    }

    /// The names of the messages in an inbox, the oldest first.
    fn messages(&self, actor: u8) -> impl Iterator<Item = &str> {
        let messages = self
            .lines(actor)
            .filter(|line| line.starts_with("(message "));
        messages.filter_map(|line| line.split(") ").nth(1)?.split([' ', ')']).next())
    }

    /// What a move within an actor did to its entities, in two words, or nothing.
    fn change(&self, before: &Listing, actor: u8) -> String {
        let old: Vec<&str> = before.lines(actor).collect();
        let Some((at, new)) = self
            .lines(actor)
            .enumerate()
            .find(|(at, line)| old.get(*at) != Some(line))
        else {
            return String::new();
        };
        match old.get(at) {
            Some(old) if entity(old) == entity(new) => value(old, new),
            _ => format!("makes {}", entity(new)[0]),
        }
    }
}

/// The kind of a line's entity, its owner, series and number.
fn entity(line: &str) -> Vec<&str> {
    line.trim_matches(['(', ')'])
        .split([' ', ')'])
        .take(4)
        .collect()
}

/// The name and the new value of the field in which two lines of one entity differ, or the value that a future got.
fn value(old: &str, new: &str) -> String {
    let fields = old.split("(field ").zip(new.split("(field "));
    let Some((_, field)) = fields.into_iter().find(|(old, new)| old != new) else {
        return String::new();
    };
    let field = field.split(')').next().unwrap_or("").replace('(', "");
    match field.strip_prefix("future ") {
        Some(future) => format!("future {}", future.splitn(4, ' ').last().unwrap_or("")),
        None => field,
    }
}
