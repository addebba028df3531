//! What the programs of `crates` have stored: the moves of `test_moves` are those that the cases here make, and it expects
//! as many to agree; the texts of `test_texts` have the answers that this engine gives.

use std::fs;
use std::path::{Path, PathBuf};

use oracle::stored::groups;
use oracle::{print, read};

/// A file of one of the crates.
fn file(name: &str) -> PathBuf {
    Path::new(env!("CARGO_MANIFEST_DIR")).join("../../crates").join(name)
}

/// A file of the crate `test_moves`.
fn stored(name: &str) -> PathBuf {
    file("test_moves").join(name)
}

#[test]
fn files_are_those_of_the_cases() {
    let groups = groups();
    for group in &groups {
        let file = fs::read_to_string(stored("data").join(group.name)).unwrap();
        assert!(file == group.file(), "{} is not as oracle-moves writes it", group.name);
    }
    assert_eq!(fs::read_dir(stored("data")).unwrap().count(), groups.len());
}

#[test]
fn every_case_is_expected_to_agree() {
    let lines = groups().into_iter().map(|group| (group.cases.len(), group.name));
    let lines: Vec<(usize, &str)> = lines.collect();
    let all: usize = lines.iter().map(|(count, _)| count).sum();
    let printed: String = lines.iter().map(|(count, name)| format!("{count} of {count} {name}\n")).collect();
    let wanted = fs::read_to_string(stored("stdout")).unwrap();
    assert_eq!(printed + &format!("{all} of {all} moves agree\n"), wanted);
}

/// The first record of a file, which is the text's length, the cause that refuses it or 0, and the text; and the rest.
fn record(file: &[u8]) -> (u8, &[u8], &[u8]) {
    let length: usize = std::str::from_utf8(&file[..4]).unwrap().parse().unwrap();
    let (text, rest) = file[7..].split_at(length);
    (file[5] - b'0', text, rest)
}

#[test]
fn stored_texts_have_their_answers() {
    let texts = fs::read(file("test_texts/data/texts")).unwrap();
    let (mut rest, mut count) = (texts.as_slice(), 0);
    while !rest.is_empty() {
        let (cause, text, others) = record(rest);
        let table = read(text);
        assert_eq!(table.as_ref().map_or_else(|cause| *cause, |_| 0), cause, "{}", String::from_utf8_lossy(text));
        assert!(table.map_or(true, |table| print(&table) == text), "{}", String::from_utf8_lossy(text));
        (rest, count) = (others, count + 1);
    }
    let wanted = fs::read_to_string(file("test_texts/stdout")).unwrap();
    assert_eq!(format!("{count} of {count} texts agree\n"), wanted);
}
