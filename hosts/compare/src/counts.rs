//! What was tried.

use std::collections::BTreeMap;
use std::fmt::{self, Display};

use oracle::census::Rule;

/// The calls of the engine.
#[derive(Clone, Copy, Debug, PartialEq, Eq, PartialOrd, Ord)]
pub enum Call {
    Read,
    Print,
    Load,
    Move,
    Run,
    List,
}

impl Call {
    const ALL: [Call; 6] = [Call::Read, Call::Print, Call::Load, Call::Move, Call::Run, Call::List];
}

/// The counts. Every buffer that a call is lent is counted once for the call, after which it was compared.
#[derive(Clone, Debug, Default)]
pub struct Counts {
    pub scripts: usize,
    pub buffers: usize,
    pub cells: usize,
    /// Places for one number, which are compared as buffers are.
    pub places: usize,
    /// By call and number that came back.
    pub answers: BTreeMap<(Call, u32), usize>,
    /// Moves made, by rule.
    pub rules: BTreeMap<Rule, usize>,
    /// Entries of runs that were moves, and that were refused.
    pub entries: (usize, usize),
    /// Words made by chance or by damage: those that are a table or a state all the same, and the rest.
    pub tables: (usize, usize),
    pub states: (usize, usize),
    /// By what keeps changed words from being a state.
    pub conditions: BTreeMap<&'static str, usize>,
    /// Pairs of lists that meet the premise, and those of them whose moves stand in another order.
    pub pairs: (usize, usize),
    /// Pairs that do not meet it: those that end alike all the same, and the rest.
    pub apart: (usize, usize),
}

impl Counts {
    pub fn calls(&self) -> usize {
        self.answers.values().sum()
    }

    pub fn add(&mut self, other: &Counts) {
        self.scripts += other.scripts;
        self.buffers += other.buffers;
        self.cells += other.cells;
        self.places += other.places;
        other.answers.iter().for_each(|(key, count)| *self.answers.entry(*key).or_default() += count);
        other.conditions.iter().for_each(|(key, count)| *self.conditions.entry(key).or_default() += count);
        other.rules.iter().for_each(|(key, count)| *self.rules.entry(*key).or_default() += count);
        self.entries = both(self.entries, other.entries);
        self.tables = both(self.tables, other.tables);
        self.states = both(self.states, other.states);
        self.pairs = both(self.pairs, other.pairs);
        self.apart = both(self.apart, other.apart);
    }

    /// The causes that a call can refuse with and that no call met, and the rules that no move was by.
    pub fn missing(&self) -> Vec<String> {
        let causes = Call::ALL.iter().flat_map(|call| possible(*call).iter().map(|cause| (*call, *cause)));
        let causes = causes.filter(|key| !self.answers.contains_key(key)).map(|key| format!("{key:?}"));
        let rules = Rule::ALL.iter().filter(|rule| **rule != Rule::None && !self.rules.contains_key(rule));
        causes.chain(rules.map(|rule| format!("{rule:?}"))).collect()
    }
}

fn both(a: (usize, usize), b: (usize, usize)) -> (usize, usize) {
    (a.0 + b.0, a.1 + b.1)
}

/// What a call can answer: 0, or the number of a cause.
fn possible(call: Call) -> &'static [u32] {
    match call {
        Call::Read => &[0, 1, 2, 3, 4, 5, 6],
        Call::Print | Call::Run | Call::List => &[0, 6, 7],
        Call::Load => &[0, 6, 7, 16],
        Call::Move => &[0, 6, 7, 8, 9, 10, 11, 12, 13, 14, 15, 16],
    }
}

impl Display for Counts {
    fn fmt(&self, out: &mut fmt::Formatter) -> fmt::Result {
        writeln!(out, "scripts {}, calls {}, buffers {}", self.scripts, self.calls(), self.buffers)?;
        writeln!(out, "cells compared {}, places {}", self.cells, self.places)?;
        for call in Call::ALL {
            let answers = self.answers.iter().filter(|((found, _), _)| *found == call);
            let answers: Vec<String> = answers.map(|((_, number), count)| format!("{number}: {count}")).collect();
            writeln!(out, "{:5} {}", format!("{call:?}").to_lowercase(), answers.join(", "))?;
        }
        writeln!(out, "entries of runs: {} moves, {} refused", self.entries.0, self.entries.1)?;
        let rules: Vec<String> = self.rules.iter().map(|(rule, count)| format!("{rule:?} {count}")).collect();
        writeln!(out, "moves by rule: {}", rules.join(", "))?;
        writeln!(out, "changed words: {} are a table, {} none", self.tables.0, self.tables.1)?;
        writeln!(out, "changed words: {} are a state, {} none", self.states.0, self.states.1)?;
        let conditions = self.conditions.iter().map(|(condition, count)| format!("{condition}: {count}"));
        writeln!(out, "broken: {}", conditions.collect::<Vec<_>>().join("; "))?;
        writeln!(out, "pairs of lists that end alike: {}, in another order {}", self.pairs.0, self.pairs.1)?;
        writeln!(out, "pairs that break the premise: {} end alike, {} apart", self.apart.0, self.apart.1)
    }
}
