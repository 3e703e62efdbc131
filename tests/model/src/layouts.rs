//! The frames of clause 5.2 (layouts.txt, typed from the standard's drawings): the name of each of
//! the 160 cells of a kind.

/// Cells in the order of sending: octet 1 bit 1 first.
pub type Layout = Vec<String>;

/// The layouts of kinds 1 to 8, in that order. D'k of a data frame is called D(63+k).
pub fn all() -> Vec<Layout> {
    let mut all: Vec<Layout> = vec![Vec::new(); 8];
    let mut kinds: Vec<usize> = Vec::new();
    for line in include_str!("layouts.txt").lines() {
        let words: Vec<&str> = line.split_whitespace().collect();
        let numbers = |words: &[&str]| words.iter().map_while(|word| word.parse().ok()).collect();
        match words[..] {
            ["kind", ..] => kinds = numbers(&words[1..]),
            [octet, ..] if !kinds.is_empty() => {
                for &kind in &kinds {
                    let layout = &mut all[kind - 1];
                    assert_eq!(octet.parse(), Ok(layout.len() / 8 + 1), "kind {kind}");
                    row(layout, &words[1..]);
                }
            }
            _ => {}
        }
    }
    assert!(all.iter().all(|layout| layout.len() == 160));
    // 5.2.4.2.1: of a No_Speech frame, "D126 .. T" are T1 .. T2.
    assert_eq!(all[4][158..], ["D126", "T"]);
    all[4].splice(158.., ["T1".to_string(), "T2".to_string()]);
    all
}

/// Puts the eight cells of a row behind a layout. The numbers of D bits rise one by one.
fn row(layout: &mut Layout, words: &[&str]) {
    let end = layout.len() + 8;
    let empty = 8 + 1 - words.len();
    for word in words {
        let last = layout.iter().filter(|cell| d_number(cell).is_some());
        let mut next = 1 + last.count();
        if *word == ".." {
            for _ in 0..empty {
                layout.push(format!("D{next}"));
                next += 1;
            }
        } else {
            let d = d_number(word);
            assert!(
                d.is_none() || d == Some(next),
                "{word} where D{next} is due"
            );
            layout.push(d.map_or(word.to_string(), |d| format!("D{d}")));
        }
    }
    assert_eq!(layout.len(), end, "{words:?}");
}

/// The number of a D bit, D'1 being the 64th; none for other cells.
fn d_number(cell: &str) -> Option<usize> {
    match cell.strip_prefix("D'") {
        Some(number) => number.parse::<usize>().ok().map(|k| 63 + k),
        None => cell.strip_prefix('D')?.parse().ok(),
    }
}
