//! The examples of the specification with their numbers, and its tables counted.

use model::capture::{Capture, Terms, DOWNLINK, UPLINK};
use model::crc;
use model::kinds::kind;
use model::page::{page, Request};
use model::reading::{reading, Cursor, Item};
use model::record::record;
use model::rules;

fn h() -> Vec<u8> {
    let mut h = vec![0x00, 0x88, 0x44];
    h.extend([0x80; 6]);
    h.push(0xF0);
    h.extend([0x80; 9]);
    h.push(0xBF);
    h
}

fn z() -> Vec<u8> {
    let mut z = vec![0x20, 0x00, 0x80];
    z.extend([0; 17]);
    z
}

/// The whole reading from bit 0 in context 0, which keeps rules 1 to 4.
fn read(bytes: &[u8], n: usize, terms: Terms) -> Vec<Item> {
    let capture = Capture::new(bytes, n, terms);
    let start = Cursor {
        position: 0,
        context: 0,
    };
    let items: Vec<Item> = reading(&capture, start).collect();
    assert_eq!(rules::check(&capture, start, &items), Ok(()));
    items
}

/// Items as the listing program writes them.
fn list(bytes: &[u8], n: usize, direction: usize) -> Vec<String> {
    list_by(bytes, n, Terms::of(direction))
}

fn list_by(bytes: &[u8], n: usize, terms: Terms) -> Vec<String> {
    let line = |item: &Item| match item {
        Item::Gap { start, length } => format!("G {start} {length}"),
        Item::Frame { frame, verdict } => {
            format!("F {} {} {} {verdict}", frame.kind, frame.start, frame.tail)
        }
    };
    read(bytes, n, terms).iter().map(line).collect()
}

fn bits(text: &str) -> Vec<bool> {
    text.chars().map(|c| c == '1').collect()
}

fn crc_of(covered: &[bool]) -> String {
    let crc = crc::of(covered);
    crc.map(|bit| if bit { '1' } else { '0' }).iter().collect()
}

#[test]
fn p1_to_p5() {
    let only = |d: usize| (1..=44).map(|i| i == d).collect::<Vec<bool>>();
    assert_eq!(crc_of(&[false; 44]), "111");
    assert_eq!(crc_of(&only(44)), "100");
    assert_eq!(crc_of(&only(1)), "001");
    assert_eq!(crc_of(&[true; 44]), "010");
    assert_eq!(crc_of(&bits("10")), "001");
}

#[test]
fn p6_and_p7() {
    assert!(crc::odd(&bits("00010")) && !crc::odd(&bits("00011")));
    assert!(crc::odd(&bits("11111")) && !crc::odd(&bits("11110")));
    assert!(crc::odd(&bits("000001")) && !crc::odd(&bits("000000")));
    assert!(crc::odd(&bits("111110")) && !crc::odd(&bits("111111")));
}

#[test]
fn p8_to_p10() {
    let ff_h = [vec![0xFF], h()].concat();
    assert_eq!(list(&ff_h, 168, DOWNLINK), ["G 0 8", "F 1 8 2 0"]);
    let record = record(&read(&ff_h, 168, Terms::of(DOWNLINK))[1]);
    assert_eq!(record[..12], [1, 0, 0, 0, 8, 0, 0, 0, 2, 0x1F, 0x07, 0]);
    assert_eq!(record[12..], [0; 14]);
    assert_eq!(list(&ff_h, 166, DOWNLINK), ["G 0 8", "F 1 8 0 0"]);
    assert_eq!(list(&ff_h, 166, UPLINK), ["G 0 166"]);
}

#[test]
fn p11_and_p12() {
    let mut seven = vec![0x00, 0x80, 0x90, 0x80, 0x80, 0x00, 0x80, 0x00, 0x80, 0x60];
    seven.extend([0x80, 0x00].repeat(5));
    let seven_z = [seven, z()].concat();
    for direction in [UPLINK, DOWNLINK] {
        assert_eq!(list(&z(), 160, direction), ["G 0 160"]);
        let lines = list(&seven_z, 320, direction);
        assert_eq!(lines, ["F 7 0 0 0", "F 8 160 0 1"]);
    }
}

#[test]
fn h_then_z_and_nothing() {
    let h_z = [h(), z()].concat();
    assert_eq!(list(&h_z, 320, DOWNLINK), ["F 1 0 2 0", "G 160 160"]);
    assert!(list(&h_z, 0, DOWNLINK).is_empty());
    assert!(list(&[], 0, UPLINK).is_empty());
}

fn request() -> Request {
    Request {
        capture: h(),
        n: 160,
        direction: 1,
        profile: 0,
        position: 0,
        context: 0,
        most: 1,
        buffer: vec![0xEE; 26],
    }
}

#[test]
fn a_page_of_25_and_26() {
    let taken = page(&request());
    assert_eq!(taken.answer.number, 0);
    assert_eq!((taken.answer.items, taken.answer.bytes), (1, 26));
    assert_eq!((taken.answer.position, taken.answer.context), (160, 1));
    let mut short = request();
    short.buffer.pop();
    let refused = page(&short);
    assert_eq!(refused.answer.number, 4);
    assert_eq!((refused.answer.items, refused.answer.bytes), (0, 0));
    assert_eq!((refused.answer.position, refused.answer.context), (0, 0));
    assert_eq!(refused.buffer, [0xEE; 25]);
}

#[test]
fn refusals_in_order() {
    let number = |change: &dyn Fn(&mut Request)| {
        let mut changed = request();
        change(&mut changed);
        page(&changed).answer.number
    };
    assert_eq!(number(&|r| r.direction = 2), 1);
    assert_eq!(number(&|r| r.most = 0), 1);
    assert_eq!(number(&|r| r.capture = vec![0; 65_537]), 2);
    assert_eq!(number(&|r| r.n = 161), 2);
    assert_eq!(number(&|r| r.position = 161), 3);
    assert_eq!(number(&|r| r.context = 6), 3);
    assert_eq!(number(&|r| (r.most, r.n, r.context) = (0, 161, 6)), 1);
    assert_eq!(number(&|r| (r.n, r.context) = (161, 6)), 2);
    assert_eq!(number(&|r| (r.context, r.buffer) = (6, vec![])), 3);
    assert_eq!(number(&|r| (r.position, r.buffer) = (160, vec![])), 0);
}

#[test]
fn counts_of_d_bits_and_bytes() {
    let d: Vec<usize> = (1..=8).map(|k| kind(k).d.len()).collect();
    assert_eq!(d, [112, 126, 120, 125, 125, 126, 137, 151]);
    assert_eq!(d.iter().sum::<usize>(), 1_022);
    let totals: Vec<usize> = d.iter().map(|d| 12 + d.div_ceil(8)).collect();
    assert_eq!(totals, [26, 28, 27, 28, 28, 28, 30, 31]);
    let gap = Item::Gap {
        start: 0x0102_0304,
        length: 5,
    };
    assert_eq!(record(&gap), [0, 1, 2, 3, 4, 0, 0, 0, 5]);
}

#[test]
fn every_place_of_a_body_has_one_meaning() {
    for number in 1..=8 {
        let kind = kind(number);
        assert!(kind.d.windows(2).all(|two| two[0] < two[1]));
        let mut places: Vec<usize> = kind.fixed.iter().map(|fixed| fixed.0).collect();
        for list in [&kind.c, &kind.xc, &kind.crc, &kind.d] {
            places.extend(list);
        }
        places.sort();
        assert_eq!(places, (0..kind.body).collect::<Vec<usize>>());
    }
}

/// The place of a bit of an octet, both counted from 1.
fn at(octet: usize, bit: usize) -> usize {
    8 * (octet - 1) + bit - 1
}

#[test]
fn the_four_patterns() {
    let zero_octet = (1..=8).map(|bit| (at(1, bit), false));
    let ones = |octets: &mut dyn Iterator<Item = usize>| -> Vec<(usize, bool)> {
        octets.map(|octet| (at(octet, 1), true)).collect()
    };
    let with_zero = |rest: Vec<(usize, bool)>| {
        let mut all: Vec<(usize, bool)> = zero_octet.clone().chain(rest).collect();
        all.sort();
        all
    };
    let mut hr = ones(&mut (2..=20).filter(|octet| *octet != 3));
    hr.extend([(at(3, 1), false), (at(3, 2), true)]);
    let mut low = ones(&mut (2..=20).filter(|octet| *octet != 4));
    low.extend([(at(4, 1), false), (at(4, 2), true)]);
    let mut six = ones(&mut (2..=5).chain((7..=19).step_by(2)));
    six.push((at(6, 1), false));
    let seven = vec![
        (at(1, 1), false),
        (at(1, 2), false),
        (at(1, 3), true),
        (at(2, 1), false),
        (at(3, 1), true),
        (at(4, 1), false),
    ];
    for number in 1..=4 {
        assert_eq!(kind(number).fixed, with_zero(hr.clone()));
    }
    assert_eq!(kind(5).fixed, with_zero(low.clone()));
    assert_eq!(kind(6).fixed, with_zero(low));
    assert_eq!(with_zero(six.clone()).len(), 20);
    assert_eq!(kind(7).fixed, with_zero(six));
    assert_eq!(kind(8).fixed, seven);
}

#[test]
fn places_of_control_bits() {
    let row = |octet, bits: std::ops::RangeInclusive<usize>| {
        bits.map(|bit| at(octet, bit)).collect::<Vec<usize>>()
    };
    assert_eq!(kind(1).c, [row(2, 2..=6), row(20, 3..=6)].concat());
    assert_eq!(kind(1).crc, row(10, 2..=4));
    for number in 2..=4 {
        assert_eq!(kind(number).c, row(2, 2..=6));
    }
    for number in 1..=8 {
        let xc = [row(2, 7..=8), row(3, 3..=6)].concat();
        let expected = if [1, 3].contains(&number) { xc } else { vec![] };
        assert_eq!(kind(number).xc, expected);
    }
    assert_eq!(kind(5).c, row(3, 2..=6));
    assert_eq!(kind(6).c, row(3, 2..=6));
    assert_eq!(kind(7).c, row(3, 2..=4));
    assert_eq!(kind(8).c, row(3, 2..=4));
}

#[test]
fn lengths_of_covered_lists() {
    let lengths = |number: usize, mode: usize| -> Vec<usize> {
        let crcs = &kind(number).crcs[mode];
        crcs.iter().map(|places| places.len() - 3).collect()
    };
    assert_eq!(lengths(1, 0), [44]);
    assert_eq!(lengths(6, 0), [0; 0]);
    assert_eq!(lengths(6, 1), [36, 7, 6, 2]);
    assert_eq!(lengths(6, 2), [37, 12, 7, 7]);
    assert_eq!(lengths(6, 3), [34]);
    assert_eq!(lengths(7, 0), [35]);
    assert_eq!(lengths(8, 0), [37]);
}

/// A No_Speech frame of class 4, downlink: of D1..D51 only D8 is one. D52..D54 are 101 where the
/// CRC is right, by hand: X^58 + X^46 + X^2 + 1 divided by X^3 + X + 1 leaves X^2 + X + 1, since
/// the powers of X repeat after seven.
fn silence(d52_to_d54: u8) -> Vec<u8> {
    let mut bytes = vec![0x00, 0x80, 0xC2, 0x40, 0x80, 0x80, 0x80, 0x80, 0x80];
    bytes.push(0x80 | d52_to_d54 << 3);
    bytes.extend([0x80; 9]);
    bytes.push(0x83);
    bytes
}

#[test]
fn silence_frames_by_their_class() {
    let down = |profile: u8| Terms {
        direction: DOWNLINK,
        profile,
    };
    let run = [silence(0b101), silence(0b100)].concat();
    for profile in 0..=255 {
        let lines = list_by(&run, 320, down(profile));
        match profile & 0b0001_0000 {
            0 => assert_eq!(lines, ["F 5 0 2 128", "F 5 160 2 128"]),
            _ => assert_eq!(lines, ["F 5 0 2 0", "F 5 160 2 1"]),
        }
    }
    let wrong: Vec<u8> = (0..8).filter(|crc| *crc != 0b101).collect();
    for crc in wrong {
        assert_eq!(list_by(&silence(crc), 160, down(0b0001_0000)), ["G 0 160"]);
        assert_eq!(
            list_by(&silence(crc), 160, down(0b1110_1111)),
            ["F 5 0 2 128"]
        );
    }
}
