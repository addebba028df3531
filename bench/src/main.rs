//! Prints how long the calls of the proved engine take, beside those of an engine in plain Rust: `bench [MILLISECONDS]`, the time for one
//! line of a table.

use std::hint::black_box;
use std::time::{Duration, Instant};
use std::{env, io};

use bench::{Case, cases};

/// The most entries that are made by single calls.
const SINGLE: usize = 20;

fn main() -> io::Result<()> {
    let millis = env::args().nth(1).and_then(|arg| arg.parse().ok());
    let clock = Clock::new(Duration::from_millis(millis.unwrap_or(500)));
    let cases = cases()?;
    println!("| Script | What it does | Bytes | Moves timed |\n|---|---|---|---|");
    for case in &cases {
        let (bytes, moves) = (case.text.len(), case.entries.len());
        println!("| {} | {} | {bytes} | {moves} |", case.name, case.about);
    }
    table("`run`, ns a move", &cases, |case| runs(&clock, case));
    table("one `move` call, µs", &cases, |case| moves(&clock, case));
    against("one `move` call, µs", ["whole", "test"], &cases, |case| {
        tests(&clock, case)
    });
    table("`read`, µs", &cases, |case| reads(&clock, case));
    table("`load`, µs", &cases, |case| loads(&clock, case));
    table("`list`, µs", &cases, |case| lists(&clock, case));
    let idle = clock.idle;
    println!("\nReading the clock takes {idle:.0} ns, which every time above is without.");
    Ok(())
}

fn table(title: &str, cases: &[Case], line: impl Fn(&Case) -> Line) {
    against(title, ["proved", "plain"], cases, line);
}

fn against(title: &str, [a, b]: [&str; 2], cases: &[Case], line: impl Fn(&Case) -> Line) {
    println!("\n| {title} | {a} | {b} | ratio | noise | rounds |\n|---|---|---|---|---|---|");
    for case in cases {
        let (name, line) = (case.name, line(case));
        let (first, second) = (line.first.median, line.second.median);
        let (ratio, noise) = (line.ratio.median, 100.0 * line.ratio.noise());
        let rounds = line.rounds;
        println!("| {name} | {first:.2} | {second:.2} | {ratio:.2} | {noise:.0} % | {rounds} |");
    }
}

fn runs(clock: &Clock, case: &Case) -> Line {
    let moves = case.entries.len() as f64;
    clock.compare(
        moves,
        || clock.time(case.start.proved.clone(), |s| s.run(&case.entries)),
        || clock.time(case.start.plain.clone(), |s| oracle::run(s, &case.entries)),
    )
}

/// The entries that are made by single calls, from the middle of the run on.
fn singles(case: &Case) -> &[u8] {
    let entries = &case.entries[case.entries.len() / 2..];
    &entries[..entries.len().min(SINGLE)]
}

/// The proved engine's single calls beside something else, as many times.
fn beside_moves(clock: &Clock, case: &Case, other: impl FnMut() -> f64) -> Line {
    clock.compare(
        1000.0 * singles(case).len() as f64,
        || {
            clock.time(case.middle.proved.clone(), |s| {
                for actor in singles(case) {
                    black_box(s.move_actor(*actor).is_ok());
                }
            })
        },
        other,
    )
}

fn moves(clock: &Clock, case: &Case) -> Line {
    beside_moves(clock, case, || {
        clock.time(case.middle.plain.clone(), |s| {
            for actor in singles(case) {
                black_box(oracle::step(s, *actor).is_ok());
            }
        })
    })
}

/// The test whether the words are a state, with which each call begins. A run of no entries is that test and nothing else.
fn tests(clock: &Clock, case: &Case) -> Line {
    beside_moves(clock, case, || {
        clock.time(case.middle.proved.clone(), |s| {
            for _ in singles(case) {
                black_box(s.run(black_box(&[])));
            }
        })
    })
}

fn reads(clock: &Clock, case: &Case) -> Line {
    let text = black_box(case.text.as_slice());
    clock.compare(
        1000.0,
        || {
            let words = vec![0; atlite::TABLE_WORDS];
            clock.time(words, |words| atlite::lent::read(text, words))
        },
        || clock.time((), |()| oracle::read(text)),
    )
}

fn loads(clock: &Clock, case: &Case) -> Line {
    let words = case.tables.proved.words();
    clock.compare(
        1000.0,
        || {
            let state = vec![0; atlite::STATE_WORDS];
            clock.time(state, |state| atlite::lent::load(words, state))
        },
        || clock.time((), |()| oracle::load(&case.tables.plain)),
    )
}

fn lists(clock: &Clock, case: &Case) -> Line {
    let words = case.end.proved.words();
    clock.compare(
        1000.0,
        || {
            let text = vec![0; 65536];
            clock.time(text, |text| atlite::lent::list(words, text))
        },
        || clock.time((), |()| oracle::list(&case.end.plain)),
    )
}

/// One line of a table. The ratio is of the two times of one round, which follow each other, so that what slows the machine for a while
/// slows both.
struct Line {
    first: Spread,
    second: Spread,
    ratio: Spread,
    rounds: usize,
}

struct Clock {
    /// How long one comparison goes on.
    span: Duration,
    /// What reading the clock takes, in nanoseconds.
    idle: f64,
}

impl Clock {
    fn new(span: Duration) -> Self {
        let mut clock = Clock { span, idle: 0.0 };
        let times = (0..10_000).map(|_| clock.time((), |()| ())).collect();
        clock.idle = Spread::of(times).median;
        clock
    }

    /// The nanoseconds that the work takes. What it works on is made before the clock is read and freed after, as is what it gives.
    fn time<T, R>(&self, mut input: T, work: impl FnOnce(&mut T) -> R) -> f64 {
        let start = Instant::now();
        let given = black_box(work(black_box(&mut input)));
        let nanos = start.elapsed().as_nanos() as f64;
        drop((given, input));
        nanos - self.idle
    }

    /// The two in turn, again and again while the time lasts. Each time is divided by `parts`.
    fn compare(
        &self,
        parts: f64,
        mut first: impl FnMut() -> f64,
        mut second: impl FnMut() -> f64,
    ) -> Line {
        let mut times = (Vec::new(), Vec::new());
        let begun = Instant::now();
        while begun.elapsed() < self.span || times.0.len() < 51 {
            times.0.push(first() / parts);
            times.1.push(second() / parts);
        }
        let ratios = times.0.iter().zip(&times.1).map(|(a, b)| a / b).collect();
        Line {
            rounds: times.0.len(),
            first: Spread::of(times.0),
            second: Spread::of(times.1),
            ratio: Spread::of(ratios),
        }
    }
}

/// The median of some figures, and those below and above which a quarter of them is.
struct Spread {
    lower: f64,
    median: f64,
    upper: f64,
}

impl Spread {
    fn of(mut figures: Vec<f64>) -> Self {
        figures.sort_by(f64::total_cmp);
        let at = |quarter: usize| figures[quarter * (figures.len() - 1) / 4];
        Spread {
            lower: at(1),
            median: at(2),
            upper: at(3),
        }
    }

    /// Half the way between the quarters, as a part of the median.
    fn noise(&self) -> f64 {
        (self.upper - self.lower) / 2.0 / self.median
    }
}
