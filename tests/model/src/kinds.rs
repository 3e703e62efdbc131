//! The table of kinds, the places of their named bits, and what each CRC covers.

use crate::layouts;
use std::sync::OnceLock;

/// Body, least tail up and down, usual tail of kinds 1 to 8.
const TABLE: [(usize, [usize; 2], usize); 8] = [
    (158, [1, 0], 2),
    (159, [1, 1], 1),
    (159, [1, 1], 1),
    (158, [2, 2], 2),
    (158, [1, 0], 2),
    (159, [0, 0], 1),
    (160, [0, 0], 0),
    (160, [0, 0], 0),
];

/// The CRCs of a kind and mode (0: no mode), CRC1 first: the covered bits, then the CRC bits. For a
/// kind 5 mode 1 stands for a class that carries a CRC.
const CRCS: [(usize, usize, &str); 13] = [
    (1, 0, "D1..D44 CRC2 CRC1 CRC0"),
    (5, 1, "C1..C5 D1..D51 D52..D54"),
    (6, 1, "C1..C5 s1..s16 s18 s19 s21..s29 s45..s48 D52..D54"),
    (6, 1, "D55..D59 s49 s50 D73..D75"),
    (6, 1, "s62 s63 s79..s82 D97..D99"),
    (6, 1, "s83 s84 D113..D115"),
    (6, 2, "C1..C5 s1..s16 s19..s29 s42..s46 D52..D54"),
    (6, 2, "D55..D59 s47 s48 s61..s65 D79..D81"),
    (6, 2, "s66 s67 s80..s84 D101..D103"),
    (6, 2, "s85 s86 s99..s103 D123..D125"),
    (6, 3, "C1..C5 s1..s17 s27..s34 s48..s51 D52..D54"),
    (7, 0, "C1..C3 D1..D17 D20 D24 D27..D34 D49..D53 D56..D58"),
    (
        8,
        0,
        "C1..C3 D1..D20 D22..D24 D27..D32 D52 D53 D55..D57 D59..D61",
    ),
];

/// In mode 1 to 3, from which s number on the s bits begin at which D number.
const S_BITS: [&[(usize, usize)]; 3] = [
    &[(1, 4), (49, 60), (62, 76), (83, 100)],
    &[(1, 6), (47, 60), (66, 82), (85, 104)],
    &[(1, 1)],
];

/// A kind: its numbers, and the places of its bits counted from the first bit of the body.
pub struct Kind {
    pub number: usize,
    pub body: usize,
    pub least_tail: [usize; 2],
    pub usual_tail: usize,
    pub fixed: Vec<(usize, bool)>,
    pub c: Vec<usize>,
    pub xc: Vec<usize>,
    /// CRC2, CRC1, CRC0 of kind 1.
    pub crc: Vec<usize>,
    pub d: Vec<usize>,
    /// By mode, then CRC1 up: the places covered, then those of the three CRC bits.
    pub crcs: [Vec<Vec<usize>>; 4],
}

/// The kind of a number from 1 to 8.
pub fn kind(number: usize) -> &'static Kind {
    static KINDS: OnceLock<Vec<Kind>> = OnceLock::new();
    &KINDS.get_or_init(|| (1..=8).map(make).collect())[number - 1]
}

fn make(number: usize) -> Kind {
    let (body, least_tail, usual_tail) = TABLE[number - 1];
    let cells = &layouts::all()[number - 1][..body];
    let find = |name: &str| cells.iter().position(|cell| cell == name);
    let count = |letters: &str| -> Vec<usize> {
        (1..)
            .map_while(|i| find(&format!("{letters}{i}")))
            .collect()
    };
    let place = |name: &str| find(name).unwrap_or_else(|| panic!("{name} in kind {number}"));
    let fixed = |(i, cell): (usize, &String)| match cell.as_str() {
        "0" => Some((i, false)),
        "1" => Some((i, true)),
        _ => None,
    };
    let mut crcs: [Vec<Vec<usize>>; 4] = Default::default();
    for (_, mode, list) in CRCS.iter().filter(|crc| crc.0 == number) {
        crcs[*mode].push(names(list, *mode).iter().map(|n| place(n)).collect());
    }
    Kind {
        number,
        body,
        least_tail,
        usual_tail,
        fixed: cells.iter().enumerate().filter_map(fixed).collect(),
        c: count("C"),
        xc: count("XC"),
        crc: ["CRC2", "CRC1", "CRC0"]
            .iter()
            .filter_map(|n| find(n))
            .collect(),
        d: count("D"),
        crcs,
    }
}

/// The single names of a list such as "C1..C5 s1 s3"; s bits by their D names.
fn names(list: &str, mode: usize) -> Vec<String> {
    let mut names = Vec::new();
    for part in list.split_whitespace() {
        match part.split_once("..") {
            Some((from, to)) => {
                for i in number(from)..=number(to) {
                    names.push(d_name(&format!("{}{i}", &from[..1]), mode));
                }
            }
            None => names.push(d_name(part, mode)),
        }
    }
    names
}

fn d_name(name: &str, mode: usize) -> String {
    match name.starts_with('s') {
        true => format!("D{}", d_of_s(mode, number(name))),
        false => name.to_string(),
    }
}

fn number(name: &str) -> usize {
    name[1..].parse().expect("a number")
}

fn d_of_s(mode: usize, s: usize) -> usize {
    let part = S_BITS[mode - 1].iter().rev().find(|part| part.0 <= s);
    let (first_s, first_d) = part.expect("an s bit");
    first_d + (s - first_s)
}
