//! The model's layouts, typed from the standard, and the library's own drawing of its tables
//! (crates/drawings/stdout) agree in every cell.

use model::layouts;
use std::fs;
use std::path::Path;

#[test]
fn the_library_draws_the_same_frames() {
    let file = Path::new(env!("CARGO_MANIFEST_DIR")).join("../../crates/drawings/stdout");
    let drawn = fs::read_to_string(file).expect("the stored drawing");
    let mut kinds: Vec<Vec<&str>> = Vec::new();
    for line in drawn.lines() {
        let words: Vec<&str> = line.split_whitespace().collect();
        match words[..] {
            ["Kind", ..] => kinds.push(Vec::new()),
            [_, ..] if words.len() == 9 => kinds.last_mut().expect("a kind").extend(&words[1..]),
            _ => {}
        }
    }
    let layouts = layouts::all();
    assert_eq!(kinds.len(), layouts.len());
    for (i, (drawn, layout)) in kinds.iter().zip(&layouts).enumerate() {
        assert_eq!(drawn.len(), 160, "kind {}", i + 1);
        for (place, (cell, name)) in drawn.iter().zip(layout).enumerate() {
            let (octet, bit) = (place / 8 + 1, place % 8 + 1);
            let same = match cell.strip_prefix("D'") {
                Some(k) => *name == format!("D{}", 63 + k.parse::<usize>().expect("a number")),
                None => cell == name,
            };
            assert!(
                same,
                "kind {}, octet {octet} bit {bit}: {cell}, {name}",
                i + 1
            );
        }
    }
}
