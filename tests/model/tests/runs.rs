//! The readings that were seen to go wrong, and the tails, on frames made for it.

use model::capture::{Capture, Terms};
use model::frame::stands;
use model::kinds::kind;
use model::make::{body, right_crcs};
use model::reading::{reading, Cursor, Item};
use model::rng::Rng;

/// A kind 6 with these C1..C5, its CRCs right in a context, and a tail of 1.
fn lower(rng: &mut Rng, c: [bool; 5], context: u64) -> Vec<bool> {
    let mut bits = body(rng, 6, Terms::of(0), 0);
    for (&i, bit) in kind(6).c.iter().zip(c) {
        bits[i] = bit;
    }
    right_crcs(&mut bits, 6, 0, context);
    bits.push(true);
    bits
}

fn capture(bits: Vec<bool>, direction: usize) -> Capture {
    let terms = Terms::of(direction);
    Capture { bits, terms }
}

/// Kind, verdict (0 for a gap) and context behind each item.
fn items(capture: &Capture, context: u64) -> Vec<(usize, u8, u64)> {
    let cursor = Cursor {
        position: 0,
        context,
    };
    let three = |item: Item| match &item {
        Item::Gap { .. } => (0, 0, item.after().context),
        Item::Frame { frame, verdict } => (frame.kind, *verdict, item.after().context),
    };
    reading(capture, cursor).map(three).collect()
}

const NAMES_475: [bool; 5] = [false, false, false, true, true];
const NAMES_515: [bool; 5] = [false, false, true, true, true];
const NAMES_590: [bool; 5] = [false, true, false, true, true];
const NAMES_NONE: [bool; 5] = [false, true, true, true, true];

#[test]
fn a_mode_is_one_frame_old_at_most() {
    let rng = &mut Rng::new(1, 1);
    for (named, mode) in [(NAMES_475, 1), (NAMES_515, 2), (NAMES_590, 3)] {
        let context = mode as u64 + 2;
        let mut bits = lower(rng, named, 0);
        bits.extend(lower(rng, NAMES_NONE, context));
        bits.extend(lower(rng, NAMES_NONE, context));
        let expected = [(6, mode << 4, context), (6, mode << 4, 2), (6, 0x80, 2)];
        assert_eq!(items(&capture(bits, 0), 0), expected);
    }
}

#[test]
fn what_starts_a_run() {
    let rng = &mut Rng::new(1, 2);
    let unnamed = lower(rng, NAMES_NONE, 0);
    assert_eq!(items(&capture(unnamed.clone(), 1), 0), [(0, 0, 0)]);
    assert_eq!(items(&capture(unnamed, 1), 1), [(6, 0x80, 2)]);
    let mut wrong = lower(rng, NAMES_475, 0);
    wrong[kind(6).d[51]] ^= true;
    assert_eq!(items(&capture(wrong.clone(), 1), 0), [(0, 0, 0)]);
    assert_eq!(items(&capture(wrong, 1), 5), [(6, 0x11, 3)]);
    let five = body(rng, 5, Terms::of(1), 0);
    assert_eq!(items(&capture(five, 1), 0), [(5, 0x80, 2)]);
    let eight = body(rng, 8, Terms::of(1), 0);
    let by_context = [
        (0, 0, 0),
        (0, 0, 0),
        (8, 0, 2),
        (8, 0, 2),
        (8, 0, 2),
        (8, 0, 2),
    ];
    for (context, expected) in by_context.into_iter().enumerate() {
        let capture = capture(eight.clone(), 1);
        assert_eq!(items(&capture, context as u64), [expected]);
    }
}

#[test]
fn least_tails() {
    let rng = &mut Rng::new(1, 3);
    for number in 1..=8 {
        for direction in [0, 1] {
            let least = kind(number).least_tail[direction];
            for tail in 0..5 {
                for behind in [vec![], vec![false]] {
                    let mut bits = body(rng, number, Terms::of(direction), 0);
                    bits.extend(vec![true; tail]);
                    bits.extend(behind);
                    let frame = stands(&capture(bits, direction), 0);
                    let found = frame.map(|frame| (frame.kind, frame.tail));
                    assert_eq!(found, (tail >= least).then_some((number, tail)));
                }
            }
        }
    }
}

#[test]
fn a_bit_error_in_a_fixed_bit_is_no_frame() {
    let rng = &mut Rng::new(1, 4);
    for number in 1..=8 {
        let mut bits = body(rng, number, Terms::of(0), 0);
        bits.extend([true, true]);
        assert!(stands(&capture(bits.clone(), 0), 0).is_some());
        for &(i, _) in &kind(number).fixed {
            bits[i] ^= true;
            let frame = stands(&capture(bits.clone(), 0), 0);
            assert!(frame.is_none_or(|frame| frame.kind != number));
            bits[i] ^= true;
        }
    }
}
