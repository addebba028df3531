//! Writes inputs made at random, and what `loops` prints for them, as vectors: `oracle-generate NAME [COUNT [SEED]]`
//! makes NAME.in and NAME.out. With `--replay` they are inputs of `replay`.

use std::{env, fs, io};

use oracle::generate::{calls, input, rng::Rng};
use oracle::program::Program;
use oracle::vectors::add;

fn main() -> io::Result<()> {
    let (options, args): (Vec<_>, Vec<_>) = env::args().skip(1).partition(|arg| arg == "--replay");
    let (make, program): (fn(&mut Rng) -> Vec<u8>, Program) =
        if options.is_empty() { (input, oracle::loops) } else { (calls, oracle::replay) };
    let [name, numbers @ ..] = args.as_slice() else {
        return Err(io::Error::new(io::ErrorKind::InvalidInput, "a name for the files is needed"));
    };
    let number = |at: usize, otherwise| numbers.get(at).and_then(|arg| arg.parse().ok()).unwrap_or(otherwise);
    let (count, seed) = (number(0, 1000), number(1, 1));
    let (mut rng, mut inputs, mut outputs) = (Rng::new(seed), Vec::new(), Vec::new());
    for _ in 0..count {
        let input = make(&mut rng);
        add(&mut inputs, &input);
        add(&mut outputs, &program(&input));
    }
    fs::write(format!("{name}.in"), inputs)?;
    fs::write(format!("{name}.out"), outputs)
}
