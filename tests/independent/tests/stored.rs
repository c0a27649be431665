// The stored files are what this implementation says today.
use independent::stored::{FOLDERS, root, stored};
use std::collections::BTreeSet;
use std::fs;

#[test]
fn every_stored_file_is_what_is_said_today() {
    for file in stored() {
        let found = fs::read(root().join(&file.path)).unwrap_or_default();
        assert!(
            found == file.content,
            "{} is not as stored: run `cargo run --release --bin store` in tests/",
            file.path
        );
    }
}

// The names of the files of the folder that are no text for readers.
fn names(folder: &str) -> Vec<String> {
    let entries = fs::read_dir(root().join(folder)).expect("the folder").map(|entry| entry.expect("an entry"));
    let files = entries.filter(|entry| entry.path().is_file()).map(|entry| entry.file_name().into_string());
    files.map(|name| name.expect("a name")).filter(|name| !name.ends_with(".md")).collect()
}

#[test]
fn the_folders_hold_no_other_file() {
    let known: BTreeSet<String> = stored().into_iter().map(|file| file.path).collect();
    for folder in FOLDERS {
        for path in names(folder).iter().map(|name| format!("{folder}/{name}")) {
            assert!(known.contains(&path), "{path} comes from nowhere");
        }
    }
}
