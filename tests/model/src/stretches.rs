//! Records to be written from a cursor: frames that were read without a gap, and frames made by
//! hand.

use crate::capture::{Capture, Terms, LONGEST};
use crate::families::terms;
use crate::fields::length;
use crate::frame::Frame;
use crate::kinds::kind;
use crate::make::{body, wrong_crcs};
use crate::reading::{reading, Cursor, Item};
use crate::record::record;
use crate::rng::Rng;
use crate::write::{Request, MOST};

/// Records one behind the other, the cursor before the first, the one behind the last, and where
/// the last body ends.
#[derive(Clone, Debug)]
pub struct Stretch {
    pub terms: Terms,
    pub from: Cursor,
    pub to: Cursor,
    pub body_end: usize,
    pub records: Vec<Vec<u8>>,
}

impl Stretch {
    fn new(terms: Terms, from: Cursor) -> Stretch {
        Stretch {
            terms,
            from,
            to: from,
            body_end: from.position,
            records: Vec::new(),
        }
    }

    fn push(&mut self, item: &Item) {
        self.body_end = self.to.position + kind(item.kind()).body;
        self.to = item.after();
        self.records.push(record(item));
    }

    /// Frames of the reading from a cursor, without a gap before or between them.
    pub fn read(rng: &mut Rng, capture: &Capture, cursor: Cursor) -> Stretch {
        let items: Vec<Item> = reading(capture, cursor).take(40).collect();
        let frames: Vec<usize> = (0..items.len()).filter(|&i| items[i].kind() != 0).collect();
        if frames.is_empty() {
            return Stretch::new(capture.terms, cursor);
        }
        let first = rng.of(&frames);
        let from = match first {
            0 => cursor,
            _ => items[first - 1].after(),
        };
        let mut stretch = Stretch::new(capture.terms, from);
        let run = items[first..].iter().take_while(|item| item.kind() != 0);
        for item in run.take(1 + rng.below(12)) {
            stretch.push(item);
        }
        stretch
    }

    /// Frames made by hand from any cursor, nearly all of them due.
    pub fn made(rng: &mut Rng) -> Stretch {
        let position = match rng.below(8) {
            0..=3 => rng.below(9),
            4..=6 => rng.below(1_000),
            _ if rng.once_in(20) => 8 * LONGEST - rng.below(1_000),
            _ => 0,
        };
        let context = rng.below(6) as u64;
        let mut stretch = Stretch::new(terms(rng), Cursor { position, context });
        for _ in 0..rng.of(&[0, 1, 1, 1, 1, 2, 2, 3, 4, 8]) {
            let sloppy = rng.once_in(if stretch.to.context == 0 { 2 } else { 8 });
            let number = 1 + rng.below(8);
            stretch.add(rng, number, sloppy);
        }
        stretch
    }

    /// A frame of one kind from a context in which it is due.
    pub fn single(rng: &mut Rng, number: usize, terms: Terms) -> Stretch {
        let position = rng.below(40);
        let context = rng.of(&[0, 1, 2, 3, 4, 5]);
        let context = if number == 8 { context.max(2) } else { context };
        let mut stretch = Stretch::new(terms, Cursor { position, context });
        while stretch.records.is_empty() {
            stretch.add(rng, number, false);
        }
        stretch
    }

    /// As many records as are allowed: 65,536 bytes, or a few more or less.
    pub fn full(rng: &mut Rng) -> Stretch {
        let position = rng.below(9);
        let context = 1 + rng.below(5) as u64;
        let mut stretch = Stretch::new(terms(rng), Cursor { position, context });
        let mut left = MOST + rng.of(&[0, 0, 0, 1, 2, 26]) - rng.of(&[0, 0, 0, 1]);
        // From 650 on each number is a sum of 26 and 27, the lengths of kinds 1 and 3.
        while left >= 750 {
            let number = 1 + rng.below(8);
            left -= stretch.add(rng, number, false);
        }
        while left > 0 {
            let number = match left % 26 {
                0 => 1,
                _ => 3,
            };
            left -= stretch.add(rng, number, false);
        }
        stretch
    }

    /// Adds a frame of a kind and gives the length of its record. One that is not due is added
    /// only by a sloppy call; else the length is 0.
    fn add(&mut self, rng: &mut Rng, number: usize, sloppy: bool) -> usize {
        let context = self.to.context;
        // Often right by another context than the one that it stands in.
        let checked_by = if rng.once_in(4) {
            rng.below(6) as u64
        } else {
            context
        };
        let mut body = body(rng, number, self.terms, checked_by);
        if (context != 0 || sloppy) && rng.once_in(3) {
            wrong_crcs(rng, &mut body, number, self.terms.profile, checked_by);
        }
        let frame = Frame {
            kind: number,
            start: self.to.position,
            tail: tail(rng, number, self.terms.direction),
            body,
        };
        let allowed = match context {
            0 => frame.starts_run(self.terms.profile),
            _ => frame.follows(context),
        };
        if !allowed && !sloppy {
            return 0;
        }
        let verdict = frame.verdict(self.terms.profile, context);
        self.push(&Item::Frame { frame, verdict });
        length(number)
    }

    /// The stretch lent a buffer: of enough bits or just too few, zeros, ones or garbage.
    pub fn lend(&self, rng: &mut Rng) -> Request {
        let end = self.to.position;
        let enough = end.div_ceil(8);
        let length = match rng.below(16) {
            0..=6 => enough,
            7 => end / 8,
            8 => self.body_end.div_ceil(8),
            9 => self.body_end / 8,
            10 => rng.below(enough + 1),
            11..=13 => enough + rng.below(4),
            14 => enough + rng.below(100),
            _ if rng.once_in(8) => LONGEST + rng.below(2),
            _ => self.from.position.div_ceil(8),
        };
        let any = rng.draw() as u8;
        let fill = rng.of(&[0x00, 0xFF, any]);
        let buffer = match length < 10_000 && rng.once_in(3) {
            true => (0..length).map(|_| rng.draw() as u8).collect(),
            false => vec![fill; length],
        };
        Request {
            records: self.records.concat(),
            direction: self.terms.direction as u64,
            profile: self.terms.profile,
            position: self.from.position as u64,
            context: self.from.context,
            buffer,
        }
    }
}

fn tail(rng: &mut Rng, number: usize, direction: usize) -> usize {
    let least = kind(number).least_tail[direction];
    match rng.below(8) {
        0..=2 => least,
        3 | 4 => kind(number).usual_tail,
        5 | 6 => least + rng.below(12),
        _ => least + rng.below(200),
    }
}
