//! Records spoilt a little, so that each cause of a refusal comes up, and nonsense in the numbers.

use crate::capture::LONGEST;
use crate::fields::{length, Fields, D_BITS};
use crate::kinds::kind;
use crate::rng::Rng;
use crate::stretches::Stretch;
use crate::write::{Request, MOST};

/// Spoils one record of a stretch, the list of them, or what they are held against.
pub fn spoil(rng: &mut Rng, stretch: &mut Stretch) {
    if stretch.records.is_empty() {
        let garbage = (0..1 + rng.below(60)).map(|_| rng.draw() as u8 & 15);
        stretch.records.push(garbage.collect());
        return;
    }
    let k = rng.below(stretch.records.len());
    match rng.below(21) {
        0..=12 => record(rng, &mut stretch.records[k], stretch.terms.direction),
        13 => cut(rng, &mut stretch.records, k),
        14 => stretch.records.insert(k, gap(rng, stretch.from.position)),
        15 => order(rng, &mut stretch.records, k),
        16 => stretch.records.push(vec![rng.of(&[0, 1, 5, 8, 9, 255])]),
        17 => stretch.terms.direction ^= 1,
        // The verdicts of silence frames are then those of another profile.
        20 => stretch.terms.profile = rng.draw() as u8,
        18 => context(rng, stretch),
        _ => stretch.from.position = (stretch.from.position + rng.below(17)).saturating_sub(8),
    }
}

/// Spoils a record in one field. One that was spoilt in its kind or length is left alone.
fn record(rng: &mut Rng, record: &mut [u8], direction: usize) {
    if !whole(record) {
        return;
    }
    let number = record[0] as usize;
    let kind = kind(number);
    let least = kind.least_tail[direction];
    let any = rng.draw() as u8;
    let bit = 1 << rng.below(8);
    let tail = rng.of(&[0, 1, 2, 500, 1 << 20, 1 << 31, u32::MAX as usize]);
    let start = Fields::of(record).start;
    match rng.below(13) {
        0 => record[rng.below(record.len())] = any,
        1 => record[rng.below(record.len())] ^= bit,
        2 => record[0] = rng.of(&[0, 1, 2, 3, 4, 5, 6, 7, 8, 9, 255, any]),
        // Kinds 2, 4, 5 and 6 have records of one length.
        3 => record[0] = rng.of(&[2, 4, 5, 6]),
        4 => set_four(record, 1, start.wrapping_add(rng.below(17)).wrapping_sub(8)),
        5 => record[rng.of(&[1, 2, 3, 4])] ^= bit,
        6 => record[11] = rng.of(&[0, 128, 1, 16, 32, 48, any]),
        7 => record[11] ^= bit,
        8 => set_four(record, 5, least.saturating_sub(1)),
        9 => set_four(record, 5, tail),
        10 => record[9] = rng.of(&[any, record[9] ^ bit, record[9] ^ 0x18]),
        11 => record[10] = rng.of(&[any, record[10] ^ bit, 0, 248]),
        _ => {
            let padded = 8 * (record.len() - D_BITS) - kind.d.len();
            if padded > 0 {
                record[length(number) - 1] |= 1 << rng.below(padded);
            }
        }
    }
}

fn whole(record: &[u8]) -> bool {
    let number = record[0] as usize;
    (1..=8).contains(&number) && record.len() == length(number)
}

/// Puts the stretch into another context, often with the verdict that is due there: then rule 2
/// alone can refuse.
fn context(rng: &mut Rng, stretch: &mut Stretch) {
    stretch.from.context = rng.of(&[0, 0, 0, 1, 1, 2, 3, 4, 5]);
    let first = &mut stretch.records[0];
    if whole(first) && !rng.once_in(3) {
        mend_verdict(first, stretch.terms.profile, stretch.from.context);
    }
}

/// Cuts a record and drops those behind it.
fn cut(rng: &mut Rng, records: &mut Vec<Vec<u8>>, k: usize) {
    records.truncate(k + 1);
    let record = &mut records[k];
    let any = rng.below(record.len());
    let short = rng.of(&[1, record.len() - 1, any]);
    record.truncate(short.max(1));
}

/// The record of a gap.
fn gap(rng: &mut Rng, start: usize) -> Vec<u8> {
    let mut gap = vec![0; 9];
    set_four(&mut gap, 1, start);
    set_four(&mut gap, 5, rng.below(300));
    gap
}

/// Records twice, left out or in another order.
fn order(rng: &mut Rng, records: &mut Vec<Vec<u8>>, k: usize) {
    let other = rng.below(records.len());
    match rng.below(3) {
        0 => records.insert(k, records[k].clone()),
        1 => drop(records.remove(k)),
        _ => records.swap(k, other),
    }
}

/// Puts the low 32 bits of a number into a record.
pub fn set_four(record: &mut [u8], at: usize, number: usize) {
    record[at..at + 4].copy_from_slice(&(number as u32).to_be_bytes());
}

/// Puts the verdict that is due by a profile in a context into the record of a frame.
pub fn mend_verdict(record: &mut [u8], profile: u8, context: u64) {
    record[11] = Fields::of(record).frame().verdict(profile, context);
}

/// Puts nonsense into one or more numbers or lengths of a request.
pub fn nonsense(rng: &mut Rng, request: &mut Request) {
    for _ in 0..rng.of(&[1, 1, 1, 2, 3]) {
        let number = match rng.below(40) {
            0 => {
                request.records.resize(MOST + 1 + rng.below(40), 0);
                continue;
            }
            1 => {
                request.buffer.resize(LONGEST + 1 + rng.below(40), 0);
                continue;
            }
            2..=14 => &mut request.direction,
            15..=27 => &mut request.position,
            _ => &mut request.context,
        };
        *number = match rng.below(9) {
            0 => number.wrapping_add(1 << 32),
            1 => number.wrapping_add(1 << 63),
            2 => *number | 1 << rng.below(64),
            3 => u64::MAX - rng.below(4) as u64,
            4 => rng.of(&[0, 0, 1 << 8, 1 << 16, 1 << 31, 1 << 32, 1 << 61, 1 << 63]),
            5 => rng.draw(),
            6 => 8 * request.buffer.len() as u64 + rng.below(2) as u64,
            7 => number.wrapping_add(1 + rng.below(8) as u64),
            _ => number.wrapping_neg(),
        };
    }
}
