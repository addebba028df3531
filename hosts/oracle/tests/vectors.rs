//! Every NAME.in of a folder of `vectors` beside this file, against its NAME.out, through the program that has the
//! folder's name.

use std::fs;
use std::path::Path;

use oracle::program::Program;
use oracle::vectors::entries;
use oracle::{loops, replay};

/// Runs a folder's inputs through the program and gives how many there are.
fn check(folder: &str, program: Program) -> usize {
    let folder = Path::new(env!("CARGO_MANIFEST_DIR")).join("tests/vectors").join(folder);
    let mut checked = 0;
    for file in fs::read_dir(folder).unwrap() {
        let path = file.unwrap().path();
        if path.extension().is_none_or(|end| end != "in") {
            continue;
        }
        let (inputs, outputs) = (fs::read(&path).unwrap(), fs::read(path.with_extension("out")).unwrap());
        let (inputs, outputs) = (entries(&inputs).unwrap(), entries(&outputs).unwrap());
        assert_eq!(inputs.len(), outputs.len());
        for (input, wanted) in inputs.iter().zip(&outputs) {
            let show = |bytes: &[u8]| String::from_utf8_lossy(bytes).into_owned();
            assert_eq!(show(&program(input)), show(wanted), "for\n{}", show(input));
            checked += 1;
        }
    }
    checked
}

#[test]
fn stored_inputs_of_loops_print_what_is_stored() {
    assert_eq!(check("loops", loops), 73);
}

#[test]
fn stored_inputs_of_replay_print_what_is_stored() {
    assert_eq!(check("replay", replay), 189);
}
