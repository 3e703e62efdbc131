//! Frames made for captures: bodies with any allowed coding and right CRCs, and spoilt ones.

use crate::capture::Terms;
use crate::crc;
use crate::frame::{coding_holds, Frame};
use crate::kinds::kind;
use crate::rng::Rng;

/// A body of a kind whose coding holds and whose CRCs are right in a context.
pub fn body(rng: &mut Rng, number: usize, terms: Terms, context: u64) -> Vec<bool> {
    let kind = kind(number);
    let ones = rng.of(&[0, 4_096, 32_768, 32_768, 32_768, 61_440, 65_536]);
    let mut body: Vec<bool> = (0..kind.body).map(|_| rng.parts(ones)).collect();
    for &(i, bit) in &kind.fixed {
        body[i] = bit;
    }
    loop {
        for &i in kind.c.iter().chain(&kind.xc) {
            body[i] = rng.bit();
        }
        if coding_holds(&body, kind, terms.direction) {
            break;
        }
    }
    right_crcs(&mut body, number, terms.profile, context);
    body
}

/// The frame of a body, as if it stood at bit 0 without a tail.
pub fn frame(number: usize, body: &[bool]) -> Frame {
    Frame {
        kind: number,
        start: 0,
        tail: 0,
        body: body.to_vec(),
    }
}

/// Makes each CRC right in a context. A later CRC may cover no earlier one.
pub fn right_crcs(body: &mut [bool], number: usize, profile: u8, context: u64) {
    for places in frame(number, body).crcs(profile, context) {
        let (covered, three) = places.split_at(places.len() - 3);
        let covered: Vec<bool> = covered.iter().map(|&i| body[i]).collect();
        for (&i, bit) in three.iter().zip(crc::of(&covered)) {
            body[i] = bit;
        }
    }
}

/// Makes some CRCs of a context wrong, by one bit each.
pub fn wrong_crcs(rng: &mut Rng, body: &mut [bool], number: usize, profile: u8, context: u64) {
    for places in frame(number, body).crcs(profile, context) {
        if rng.bit() {
            let i = places[places.len() - 1 - rng.below(3)];
            body[i] = !body[i];
        }
    }
}

/// Spoils a body a little, so that it is just no frame, or another, or one with a wrong CRC.
pub fn near_miss(rng: &mut Rng, body: &mut [bool], number: usize) {
    let kind = kind(number);
    let flip = |body: &mut [bool], i: usize| body[i] = !body[i];
    match rng.below(6) {
        0 => flip(body, rng.of(&kind.fixed).0),
        1 => flip(body, rng.of(&kind.c)),
        2 if !kind.xc.is_empty() => flip(body, rng.of(&kind.xc)),
        // Another coding with the parity that it needs.
        3 if number <= 4 => {
            for &i in &kind.c[..4] {
                body[i] = rng.bit();
            }
            odd(body, &kind.c[..5]);
        }
        4 if !kind.xc.is_empty() => {
            for &i in &kind.xc {
                body[i] = rng.bit();
            }
            odd(body, &kind.xc);
        }
        4 if number == 5 => {
            for &i in &kind.c[..3] {
                body[i] = rng.bit();
            }
        }
        // One bit that a CRC covers, or a CRC bit; it may be a CRC of another mode.
        _ => {
            let crcs: Vec<&Vec<usize>> = kind.crcs.iter().flatten().collect();
            let places = match crcs.is_empty() {
                true => &kind.d,
                false => rng.of(&crcs),
            };
            flip(body, rng.of(places));
        }
    }
}

/// Sets the last of the places so that their ones are odd.
fn odd(body: &mut [bool], places: &[usize]) {
    let (last, first) = places.split_last().expect("places");
    let first: Vec<bool> = first.iter().map(|&i| body[i]).collect();
    body[*last] = !crc::odd(&first);
}
