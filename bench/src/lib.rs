//! The scripts that are timed, each ready to be run by both engines.
//!
//! A case is a script and two lists of entries: a lead that is run before anything is timed, and the entries that are timed. Both come of
//! letting the actors take turns and leaving out every entry that would be refused, so that what is timed are moves alone.

use std::path::Path;
use std::{fs, io};

/// What a case is made of: its name, what it is about, where its script is, and how many moves are made before the timed ones and how
/// many are timed at most.
struct Plan {
    name: &'static str,
    about: &'static str,
    file: &'static str,
    lead: usize,
    most: usize,
}

/// The cases in the order of the tables. Those that come to rest have fewer moves than the most.
const PLANS: [Plan; 10] = [
    Plan {
        name: "small",
        about: "one actor with one object that calls itself",
        file: "bench/scripts/small.atl",
        lead: 20,
        most: 1000,
    },
    Plan {
        name: "priceline",
        about: "one price line, an isolate, through three actors",
        file: "samples/priceline.atl",
        lead: 0,
        most: 1000,
    },
    Plan {
        name: "quotes",
        about: "sixteen price lines through the same three actors",
        file: "bench/scripts/quotes.atl",
        lead: 0,
        most: 1000,
    },
    Plan {
        name: "deep",
        about: "25 lets one in another, each put into all that follow",
        file: "bench/scripts/deep.atl",
        lead: 0,
        most: 1000,
    },
    Plan {
        name: "nest",
        about: "26 sums one in another, the innermost first",
        file: "bench/scripts/nest.atl",
        lead: 0,
        most: 1000,
    },
    Plan {
        name: "asks",
        about: "five questions, each handed on twice and answered by futures",
        file: "bench/scripts/asks.atl",
        lead: 0,
        most: 1000,
    },
    Plan {
        name: "copies",
        about: "twelve sends that copy four isolates each",
        file: "bench/scripts/copies.atl",
        lead: 0,
        most: 1000,
    },
    Plan {
        name: "full",
        about: "four actors with heaps, copies and inboxes full or nearly so",
        file: "bench/scripts/full.atl",
        lead: 2000,
        most: 1000,
    },
    Plan {
        name: "choose",
        about: "hulls and lengths told apart, and prices chosen by them",
        file: "bench/scripts/choose.atl",
        lead: 0,
        most: 1000,
    },
    Plan {
        name: "overload",
        about: "four methods of one name that call each other",
        file: "bench/scripts/overload.atl",
        lead: 0,
        most: 1000,
    },
];

/// A script that is ready to be run by both engines.
pub struct Case {
    /// What the tables call it.
    pub name: &'static str,
    /// What it is about, in a few words.
    pub about: &'static str,
    /// The script.
    pub text: Vec<u8>,
    /// The entries that are timed. Each of them is a move.
    pub entries: Vec<u8>,
    /// The script as each engine has it.
    pub tables: Both<atlite::Table, oracle::Table>,
    /// The state after the lead, from copies of which runs are timed.
    pub start: Both<atlite::State, oracle::State>,
    /// The state after the first half of them.
    pub middle: Both<atlite::State, oracle::State>,
    /// The state after the timed entries.
    pub end: Both<atlite::State, oracle::State>,
}

/// The same thing of the two engines.
pub struct Both<A, B> {
    /// Of the proved engine.
    pub proved: A,
    /// Of the one in plain Rust.
    pub plain: B,
}

/// All cases. The scripts are looked for from the folder of this crate on.
pub fn cases() -> io::Result<Vec<Case>> {
    PLANS.iter().map(case).collect()
}

fn case(plan: &Plan) -> io::Result<Case> {
    let root = Path::new(env!("CARGO_MANIFEST_DIR")).join("..");
    let text = fs::read(root.join(plan.file))?;
    let tables = Both {
        proved: atlite::Table::read(&text).expect("the script is read"),
        plain: oracle::read(&text).expect("the script is read"),
    };
    let mut at = Both {
        proved: tables.proved.load().expect("the script is loaded"),
        plain: oracle::load(&tables.plain).expect("the script is loaded"),
    };
    at.go(plan.lead);
    let start = at.copy();
    let entries = at.go(plan.most);
    let mut middle = start.copy();
    let half = &entries[..entries.len() / 2];
    middle.proved.run(half);
    oracle::run(&mut middle.plain, half);
    Ok(Case {
        name: plan.name,
        about: plan.about,
        text,
        entries,
        tables,
        start,
        middle,
        end: at,
    })
}

impl Both<atlite::State, oracle::State> {
    fn copy(&self) -> Self {
        Both {
            proved: self.proved.clone(),
            plain: self.plain.clone(),
        }
    }

    /// Lets the actors take turns until so many moves are made or none can move, and gives the entries that were moves. The proved engine
    /// runs the same entries, and must come to the same.
    fn go(&mut self, most: usize) -> Vec<u8> {
        let mut entries = Vec::new();
        let mut idle = 0;
        for actor in (0..4).cycle() {
            if entries.len() == most || idle == 4 {
                break;
            }
            idle += 1;
            if oracle::step(&mut self.plain, actor).is_ok() {
                entries.push(actor);
                idle = 0;
            }
        }
        assert_eq!(self.proved.run(&entries).moves, entries.len());
        assert_eq!(
            self.proved.listing().into_bytes(),
            oracle::list(&self.plain)
        );
        entries
    }
}
