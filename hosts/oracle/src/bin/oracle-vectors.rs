//! Runs stored vectors: for each NAME given, the inputs of NAME.in against the outputs of NAME.out, as `loops` prints
//! them or, with `--replay`, as `replay` does.
//!
//! Prints how many agree, shows those that don't, and fails if there is one.

use std::process::ExitCode;
use std::{env, fs, io};

use oracle::program::Program;
use oracle::vectors::entries;

fn main() -> io::Result<ExitCode> {
    let (options, names): (Vec<_>, Vec<_>) = env::args().skip(1).partition(|arg| arg == "--replay");
    let program: Program = if options.is_empty() { oracle::loops } else { oracle::replay };
    let (mut good, mut bad) = (0, 0);
    for name in names {
        let (found, wrong) = check(&name, program)?;
        println!("{name}: {found} agree, {wrong} differ");
        good += found;
        bad += wrong;
    }
    println!("all: {good} agree, {bad} differ");
    Ok(if bad == 0 && good > 0 { ExitCode::SUCCESS } else { ExitCode::FAILURE })
}

fn check(name: &str, program: Program) -> io::Result<(usize, usize)> {
    let (inputs, outputs) = (fs::read(format!("{name}.in"))?, fs::read(format!("{name}.out"))?);
    let malformed = || io::Error::new(io::ErrorKind::InvalidData, format!("{name} is no file of vectors"));
    let inputs = entries(&inputs).ok_or_else(malformed)?;
    let outputs = entries(&outputs).ok_or_else(malformed)?;
    let mut bad = inputs.len().abs_diff(outputs.len());
    let mut good = 0;
    for (at, (input, wanted)) in inputs.iter().zip(&outputs).enumerate() {
        let printed = program(input);
        if printed == *wanted {
            good += 1;
        } else {
            bad += 1;
            let show = |bytes: &[u8]| String::from_utf8_lossy(bytes).into_owned();
            println!("{name} {at}:\n{}wanted:\n{}printed:\n{}", show(input), show(wanted), show(&printed));
        }
    }
    Ok((good, bad))
}
