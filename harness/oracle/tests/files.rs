//! What is compiled is what the client gave: the files as they are, and 000 with our tail after its last byte.

use std::fs;

#[test]
fn the_copy_of_000_is_the_file_and_the_tail() {
    if !oracle::AVAILABLE {
        return eprintln!("NOT run: the three files are not at hand");
    }
    let file = fs::read(oracle::DISTRIBUTION).unwrap();
    let copy = fs::read(oracle::COMPILED_DISTRIBUTION).unwrap();
    let tail = include_bytes!("../src/tail.rs");
    assert_eq!(copy.len(), file.len() + tail.len());
    assert!(copy.starts_with(&file) && copy.ends_with(tail));
}

#[test]
fn the_tail_decides_nothing() {
    let tail = include_str!("../src/tail.rs");
    let code = tail.lines().filter(|line| !line.starts_with("//"));
    for line in code {
        for word in ["if ", "match ", "for ", "while ", "loop", "impl "] {
            assert!(!line.trim_start().starts_with(word), "{line}");
        }
    }
}
