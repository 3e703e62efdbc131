//! Writing held against reading, apart from how a record was judged: a record is taken exactly
//! when a reader at that cursor makes it of the bits that it names.

use crate::capture::{unpack, Capture, Terms};
use crate::fields::length;
use crate::frame::{coding_holds, Frame};
use crate::kinds::kind;
use crate::make::frame;
use crate::reading::{reading, Cursor, Item};
use crate::record::record;
use crate::write::{write, Request, Written};
use std::sync::OnceLock;

/// Whether what the model did with a request is what its own reading makes of it.
pub fn check(request: &Request, written: &Written) -> Result<(), String> {
    let answer = written.answer;
    match answer.number {
        0 => reads_back(request, written),
        1..=3 => Ok(()),
        _ => {
            let (sound, rest) = split(&request.records, answer.index);
            let sound = Request {
                records: sound.to_vec(),
                ..request.clone()
            };
            let before = write(&sound);
            let taken = before.answer.number == 0 && before.answer.items == answer.index;
            if !taken {
                return Err(format!("not the first to fail: {answer:?}"));
            }
            reads_back(&sound, &before)?;
            let cursor = Cursor {
                position: before.answer.position as usize,
                context: before.answer.context,
            };
            let bits = 8 * request.buffer.len();
            let due = number(rest, request.terms(), cursor, bits);
            match due == answer.number {
                true => Ok(()),
                false => Err(format!("{answer:?}, but by reading it is {due}")),
            }
        }
    }
}

/// The first so many records, whole and of known kinds, and the rest.
pub fn split(records: &[u8], index: u64) -> (&[u8], &[u8]) {
    let mut at = 0;
    for _ in 0..index {
        at += match records.get(at) {
            Some(number @ 1..=8) => length(*number as usize),
            _ => break,
        };
    }
    records.split_at(at.min(records.len()))
}

/// The bits written must read as the records, and no other bit may have changed.
fn reads_back(request: &Request, written: &Written) -> Result<(), String> {
    let from = request.position as usize;
    let to = written.answer.position as usize;
    let capture = Capture::new(&written.buffer, to, request.terms());
    let cursor = Cursor {
        position: from,
        context: request.context,
    };
    let items = reading(&capture, cursor);
    let read: Vec<u8> = items.flat_map(|item| record(&item)).collect();
    if read != request.records {
        return Err(format!("{:?} does not read back", written.answer));
    }
    let before = unpack(&request.buffer);
    let after = unpack(&written.buffer);
    let same = before[..from] == after[..from] && before[to..] == after[to..];
    match same && before.len() == after.len() {
        true => Ok(()),
        false => Err(format!("{:?} changed other bits", written.answer)),
    }
}

/// The number that the record at the head of `rest` is due, 0 where it is taken.
fn number(rest: &[u8], terms: Terms, cursor: Cursor, bits: usize) -> u64 {
    let Some((mut frame, verdict)) = named(rest, terms.direction) else {
        return 5;
    };
    let end = frame.end();
    // A tail may be too long for a capture; beyond the least its length changes no judgement.
    frame.tail = frame.tail.min(8);
    let before = vec![false; cursor.position];
    let capture = Capture {
        bits: [before, frame.body.clone(), vec![true; frame.tail]].concat(),
        terms,
    };
    match reading(&capture, cursor).next() {
        Some(item) if item == (Item::Frame { frame, verdict }) => 4 * u64::from(end > bits),
        _ => 6,
    }
}

/// The frame and verdict whose record stands at the head of `rest`, if there are such: places that
/// a record shows are taken from it, the others are found by trying all values.
pub fn named(rest: &[u8], direction: usize) -> Option<(Frame, u8)> {
    let number = Some(rest[0] as usize).filter(|number| (1..=8).contains(number))?;
    let bytes = rest.get(..length(number))?;
    let kind = kind(number);
    let record_bits = unpack(bytes);
    let mut body = vec![false; kind.body];
    let mut hidden = Vec::new();
    for (i, place) in shown()[number - 1].iter().enumerate() {
        match place {
            Some(bit) => body[i] = record_bits[*bit],
            None => hidden.push(i),
        }
    }
    for &(i, bit) in &kind.fixed {
        body[i] = bit;
        hidden.retain(|k| *k != i);
    }
    let mut found = None;
    for values in 0..1_usize << hidden.len() {
        for (k, &i) in hidden.iter().enumerate() {
            body[i] = values >> k & 1 != 0;
        }
        let mut frame = frame(number, &body);
        frame.start = u32::from_be_bytes(bytes[1..5].try_into().ok()?) as usize;
        frame.tail = u32::from_be_bytes(bytes[5..9].try_into().ok()?) as usize;
        let enough = frame.tail >= kind.least_tail[direction];
        let verdict = bytes[11];
        let item = Item::Frame { frame, verdict };
        if coding_holds(&body, kind, direction) && enough && record(&item) == bytes {
            assert!(found.is_none(), "two frames have one record");
            found = Some(item);
        }
    }
    match found? {
        Item::Frame { frame, verdict } => Some((frame, verdict)),
        Item::Gap { .. } => None,
    }
}

/// For kinds 1 to 8 and each place of the body, the bit of the record that shows it, if one does.
fn shown() -> &'static Vec<Vec<Option<usize>>> {
    static SHOWN: OnceLock<Vec<Vec<Option<usize>>>> = OnceLock::new();
    SHOWN.get_or_init(|| {
        let record_of = |number: usize, body: &[bool]| {
            let frame = frame(number, body);
            unpack(&record(&Item::Frame { frame, verdict: 0 }))
        };
        let place = |number: usize, i: usize| {
            let mut body = vec![false; kind(number).body];
            let without = record_of(number, &body);
            body[i] = true;
            let with = record_of(number, &body);
            let differ: Vec<usize> = (0..with.len()).filter(|&k| with[k] != without[k]).collect();
            assert!(differ.len() <= 1);
            differ.first().copied()
        };
        let places = |number: usize| (0..kind(number).body).map(|i| place(number, i)).collect();
        (1..=8).map(places).collect()
    })
}
