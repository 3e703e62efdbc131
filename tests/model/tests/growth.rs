//! Captures that grow: the law, the ways in which the last item of a reading changes, and pages.

use model::capture::{pack, Capture, Terms, DOWNLINK, UPLINK};
use model::families::{bits, make, FAMILIES, H, SEVEN, Z};
use model::growth::{change, law, Change, CHANGES};
use model::kinds::kind;
use model::make::body;
use model::page::{page, Page, Request};
use model::reading::{reading, Cursor, Item};
use model::requests::Lent;
use model::rng::Rng;
use std::collections::BTreeMap;

const START: Cursor = Cursor {
    position: 0,
    context: 0,
};

fn capture_of(bits: &[bool], terms: Terms) -> Capture {
    let bits = bits.to_vec();
    Capture { bits, terms }
}

fn capture(bits: &[bool], direction: usize) -> Capture {
    capture_of(bits, Terms::of(direction))
}

fn read(capture: &Capture, cursor: Cursor) -> Vec<Item> {
    reading(capture, cursor).collect()
}

/// The reading of the first n bits from a cursor, and what becomes of its last item when all the
/// bits have come.
fn grown(bits: &[bool], n: usize, direction: usize, cursor: Cursor) -> (Vec<Item>, Change) {
    let old = read(&capture(&bits[..n], direction), cursor);
    let new = read(&capture(bits, direction), cursor);
    let change = law(&old, &new).expect("the law");
    (old, change.expect("an item"))
}

/// What becomes of the last item from bit 0 in context 0, and of how many items it is the last.
fn last(bits: &[bool], n: usize, direction: usize) -> (usize, Change) {
    let (old, change) = grown(bits, n, direction, START);
    (old.len(), change)
}

fn gap(start: usize, length: usize) -> Item {
    Item::Gap { start, length }
}

#[test]
fn a_tail_goes_on() {
    let ff_h = bits(&["FF", H].concat());
    // P9 and P8.
    assert_eq!(last(&ff_h, 166, DOWNLINK), (2, Change::TailGoesOn));
    assert_eq!(last(&ff_h, 167, DOWNLINK), (2, Change::TailGoesOn));
    // The next frame ends it.
    let ff_h_h = bits(&["FF", H, H].concat());
    assert_eq!(last(&ff_h_h, 167, DOWNLINK), (2, Change::TailGoesOn));
    assert_eq!(last(&ff_h_h, 168, DOWNLINK), (2, Change::Stays));
    // Any kind that follows.
    let rng = &mut Rng::new(3, 1);
    let after_amr = Cursor {
        position: 0,
        context: 2,
    };
    for number in 1..=8 {
        let mut bits = body(rng, number, Terms::of(UPLINK), 0);
        let n = bits.len() + kind(number).least_tail[UPLINK];
        bits.extend([true; 9]);
        let (old, change) = grown(&bits, n, UPLINK, after_amr);
        assert_eq!((old[0].kind(), change), (number, Change::TailGoesOn));
    }
}

#[test]
fn a_gap_goes_on() {
    // P11: one gap.
    for n in 1..160 {
        assert_eq!(last(&bits(Z), n, DOWNLINK), (1, Change::GapGoesOn));
    }
    // Behind H too, where Z does not follow.
    let h_z = bits(&[H, Z].concat());
    assert_eq!(last(&h_z, 319, DOWNLINK), (2, Change::GapGoesOn));
}

#[test]
fn a_gap_begins_with_a_frame() {
    assert_eq!(
        last(&bits(H), 157, DOWNLINK),
        (1, Change::GapBeginsWithFrame)
    );
    // The tail alone is missing.
    assert_eq!(last(&bits(H), 158, UPLINK), (1, Change::GapBeginsWithFrame));
    // P12: its kind 8 starts no run, but follows.
    let seven_z = bits(&[SEVEN, Z].concat());
    for n in 161..320 {
        let change = last(&seven_z, n, UPLINK);
        assert_eq!(change, (2, Change::GapBeginsWithFrame));
    }
}

#[test]
fn a_gap_ends_earlier() {
    // P10, one gap, with more bits.
    let ff_h = bits(&["FF", H].concat());
    for n in 9..=166 {
        assert_eq!(last(&ff_h, n, UPLINK), (1, Change::GapEndsEarlier));
    }
    assert_eq!(last(&ff_h, 167, UPLINK), (2, Change::TailGoesOn));
}

#[test]
fn the_last_item_stays() {
    // A frame with its tail, and a gap up to where a frame starts a run.
    let h_z = bits(&[H, Z].concat());
    assert_eq!(last(&h_z, 160, DOWNLINK), (1, Change::Stays));
    let ff_h = bits(&["FF", H].concat());
    assert_eq!(last(&ff_h, 8, DOWNLINK), (1, Change::Stays));
}

/// The cursor before the last item is good in the grown capture; that behind it is not.
#[test]
fn the_cursor_behind_the_last_item_is_not_good() {
    let ff_h = bits(&["FF", H].concat());
    let seven_z = bits(&[SEVEN, Z].concat());
    for (bits, n, direction) in [
        (&ff_h, 166, DOWNLINK),
        (&ff_h, 100, DOWNLINK),
        (&ff_h, 166, UPLINK),
        (&seven_z, 319, UPLINK),
    ] {
        let (mut old, _) = grown(bits, n, direction, START);
        let whole = capture(bits, direction);
        let behind = old[old.len() - 1].after();
        let from_behind = [old.clone(), read(&whole, behind)].concat();
        assert_ne!(from_behind, read(&whole, START));
        old.pop();
        let before = old.last().map_or(START, Item::after);
        let from_before = [old, read(&whole, before)].concat();
        assert_eq!(from_before, read(&whole, START));
    }
    // P9 with two bits more: not the frame of P8, but a gap behind one without a tail.
    let down = capture(&ff_h, DOWNLINK);
    let cursor = Cursor {
        position: 166,
        context: 1,
    };
    assert_eq!(read(&down, cursor), [gap(166, 2)]);
}

/// What cannot become of a last item is none of the ways.
#[test]
fn other_changes_are_errors() {
    let frame = |bits: &[bool]| read(&capture(bits, DOWNLINK), START).remove(0);
    let h = frame(&bits(H));
    let six_seventy = frame(&bits(SEVEN));
    let short = frame(&bits(H)[..158]);
    for (last, new) in [
        (&h, &six_seventy),
        (&h, &short),
        (&h, &gap(0, 160)),
        (&gap(0, 160), &h),
        (&gap(1, 50), &h),
        (&gap(0, 50), &gap(1, 50)),
    ] {
        assert!(change(last, new).is_err(), "{last:?} {new:?}");
    }
    assert!(law(&[gap(0, 50)], &[]).is_err());
    assert!(law(&[gap(0, 50)], &[gap(0, 40)]).is_err());
    assert!(law(&[gap(0, 50), h.clone()], &[gap(0, 49), h]).is_err());
}

/// A piece of random bits of any family, often from their middle.
fn piece(rng: &mut Rng, met: &mut BTreeMap<String, usize>) -> Capture {
    let made = make(rng);
    *met.entry(format!("{:?}", made.family)).or_default() += 1;
    let length = (700 + rng.below(300)).min(made.bits.len());
    let first = match rng.bit() {
        true => rng.below(made.bits.len() - length + 1),
        false => 0,
    };
    capture_of(&made.bits[first..first + length], made.terms)
}

/// The law from one cursor, cut at every bit: with one bit more, and with all of them. Where the next
/// bit is a one, no last item stays.
fn every_cut(whole: &Capture, cursor: Cursor, changes: &mut BTreeMap<Change, usize>) {
    let all = read(whole, cursor);
    let mut cut = whole.clone();
    cut.bits.truncate(cursor.position);
    let mut old = read(&cut, cursor);
    for &bit in &whole.bits[cursor.position..] {
        cut.bits.push(bit);
        let new = read(&cut, cursor);
        for grown in [&new, &all] {
            let place = || format!("{cursor:?}, n {}, {whole:?}", cut.n() - 1);
            let change = law(&old, grown).unwrap_or_else(|broken| panic!("{broken}: {}", place()));
            assert!(!bit || change != Some(Change::Stays), "{}", place());
            if let Some(change) = change {
                *changes.entry(change).or_default() += 1;
            }
        }
        old = new;
    }
}

#[test]
fn the_law_at_every_bit() {
    let rng = &mut Rng::new(3, 2);
    let mut met = BTreeMap::new();
    let mut changes = BTreeMap::new();
    for _ in 0..400 {
        let whole = piece(rng, &mut met);
        every_cut(&whole, START, &mut changes);
        for _ in 0..2 {
            let position = rng.below(whole.n() + 1);
            let context = rng.below(6) as u64;
            every_cut(&whole, Cursor { position, context }, &mut changes);
        }
    }
    assert_eq!(met.len(), FAMILIES.len(), "{met:?}");
    assert_eq!(changes.len(), CHANGES.len(), "{changes:?}");
}

/// The page of a request, or, where it reaches n, that of the same cursor with one item less;
/// nothing where that settles no item.
fn settled(request: &mut Request) -> Option<Page> {
    let first = page(request);
    let reached = first.answer.position == request.n;
    match first.answer.items {
        0 => None,
        _ if !reached => Some(first),
        1 => None,
        items => {
            request.most = items - 1;
            let page = page(request);
            assert!(page.answer.items == items - 1 && page.answer.position < request.n);
            Some(page)
        }
    }
}

/// A page that is not refused and ends before n is the same in the grown capture, byte for byte.
#[test]
fn pages_below_n_stay() {
    let rng = &mut Rng::new(3, 3);
    let mut pages = 0;
    for _ in 0..200 {
        let whole = piece(rng, &mut BTreeMap::new());
        for _ in 0..40 {
            let n = rng.below(whole.n() + 1);
            let cut = Lent {
                bytes: pack(&whole.bits),
                capture: capture_of(&whole.bits[..n], whole.terms),
                borders: vec![0],
            };
            let mut request = cut.request(rng);
            let Some(old) = settled(&mut request) else {
                continue;
            };
            pages += 1;
            for more in [1, rng.below(300), whole.n()] {
                request.n = (n + more).min(whole.n()) as u64;
                let grown = page(&request);
                assert_eq!(
                    (grown.answer, grown.buffer),
                    (old.answer, old.buffer.clone())
                );
            }
        }
    }
    assert!(pages > 1_000, "{pages}");
}
