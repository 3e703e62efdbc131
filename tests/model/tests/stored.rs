//! The stored outputs of tests/list and tests/harvest are what the model says of their captures.

use model::listing;
use std::fs;
use std::path::{Path, PathBuf};

fn tests() -> PathBuf {
    Path::new(env!("CARGO_MANIFEST_DIR")).join("..")
}

/// The capture file of a name: a sample, or NAME.in of tests/list.
fn capture(name: &str) -> Vec<u8> {
    let path = match name.strip_prefix("sample_") {
        Some(sample) => tests().join(format!("../samples/{sample}.capture")),
        None => tests().join(format!("list/{name}.in")),
    };
    fs::read(&path).unwrap_or_else(|error| panic!("{}: {error}", path.display()))
}

/// The names and texts of the files with this ending in a folder; there are some.
fn stored(folder: &str, ending: &str) -> Vec<(String, String)> {
    let files = fs::read_dir(tests().join(folder)).expect("a folder");
    let mut stored = Vec::new();
    for file in files {
        let path = file.expect("a file").path();
        if path.extension().is_some_and(|e| e == ending) {
            let name = path.file_stem().expect("a name").to_str().expect("text");
            let text = fs::read_to_string(&path).expect("text");
            stored.push((name.to_string(), text));
        }
    }
    assert!(!stored.is_empty());
    stored
}

#[test]
fn listings() {
    for (name, text) in stored("list", "out") {
        assert_eq!(listing::list(&capture(&name)), text, "{name}");
    }
}

/// The capture and the profile of a stored harvest: NAME, or NAME@PROFILE.
fn harvested(name: &str) -> (Vec<u8>, u8) {
    match name.split_once('@') {
        Some((name, profile)) => (capture(name), profile.parse().expect("a profile")),
        None => (capture(name), 0),
    }
}

#[test]
fn harvests() {
    for (name, text) in stored("harvest", "out") {
        let (file, profile) = harvested(&name);
        assert_eq!(listing::summary(&file, profile), Ok(text), "{name}");
    }
    for (name, text) in stored("harvest", "csv") {
        let (file, profile) = harvested(&name);
        assert_eq!(listing::csv(&file, profile), Ok(text), "{name}");
    }
}
