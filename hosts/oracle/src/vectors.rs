//! Files of inputs and outputs: each entry is its length in decimal on a line, and then that many bytes.

/// The entries of such a file, or nothing if it is not of that form.
pub fn entries(mut file: &[u8]) -> Option<Vec<&[u8]>> {
    let mut entries = Vec::new();
    while !file.is_empty() {
        let end = file.iter().position(|byte| *byte == b'\n')?;
        let size: usize = std::str::from_utf8(&file[..end]).ok()?.parse().ok()?;
        let entry = file.get(end + 1..end + 1 + size)?;
        entries.push(entry);
        file = &file[end + 1 + size..];
    }
    Some(entries)
}

/// Adds an entry.
pub fn add(file: &mut Vec<u8>, entry: &[u8]) {
    file.extend(format!("{}\n", entry.len()).into_bytes());
    file.extend(entry);
}

#[cfg(test)]
mod tests {
    use super::*;

    #[test]
    fn what_is_added_is_found() {
        let mut file = Vec::new();
        for entry in [&b"one\n2\n"[..], b"", b"\n"] {
            add(&mut file, entry);
        }
        assert_eq!(entries(&file).unwrap(), [&b"one\n2\n"[..], b"", b"\n"]);
        assert_eq!(entries(b"4\nabc"), None);
        assert_eq!(entries(b"x\nabc"), None);
    }
}
