//! Silence frames of every sort: each class, carrying a CRC by the profile or not, the CRC right or
//! wrong, in each context and direction.

use crate::capture::{pack, Terms};
use crate::frame::Frame;
use crate::kinds::kind;
use crate::make::{body, right_crcs};
use crate::page;
use crate::reading::Item;
use crate::record::record;
use crate::rng::Rng;
use crate::write;

pub const SORTS: usize = 8 * 2 * 2 * 2 * 6;

/// A silence frame at a cursor whose position is its start.
pub struct Silence {
    pub terms: Terms,
    pub context: u64,
    pub frame: Frame,
}

impl Silence {
    /// One of a sort, whose number is below `SORTS`.
    pub fn new(rng: &mut Rng, sort: usize) -> Silence {
        let (class, carried, right) = (sort % 8, sort / 8 % 2 != 0, sort / 16 % 2 != 0);
        let (direction, context) = (sort / 32 % 2, (sort / 64) as u64);
        let others = rng.draw() as u8 & !(1 << class);
        let profile = others | u8::from(carried) << class;
        let terms = Terms { direction, profile };
        let mut body = body(rng, 5, terms, 0);
        let d = &kind(5).d;
        for (i, &place) in d[7..10].iter().enumerate() {
            body[place] = class >> (2 - i) & 1 != 0;
        }
        right_crcs(&mut body, 5, u8::MAX, 0);
        if !right {
            let place = d[51 + rng.below(3)];
            body[place] = !body[place];
        }
        let frame = Frame {
            kind: 5,
            start: rng.below(40),
            tail: kind(5).least_tail[direction] + rng.below(4),
            body,
        };
        Silence {
            terms,
            context,
            frame,
        }
    }

    /// A page from it.
    pub fn page(&self, rng: &mut Rng) -> page::Request {
        let before: Vec<bool> = (0..self.frame.start).map(|_| rng.bit()).collect();
        let tail = vec![true; self.frame.tail];
        let bits = [before, self.frame.body.clone(), tail].concat();
        page::Request {
            capture: pack(&bits),
            n: bits.len() as u64,
            direction: self.terms.direction as u64,
            profile: self.terms.profile,
            position: self.frame.start as u64,
            context: self.context,
            most: 1,
            buffer: vec![rng.draw() as u8; 28 + rng.below(3)],
        }
    }

    /// Its record written, with the verdict due.
    pub fn write(&self, rng: &mut Rng) -> write::Request {
        let verdict = self.frame.verdict(self.terms.profile, self.context);
        let frame = self.frame.clone();
        write::Request {
            records: record(&Item::Frame { frame, verdict }),
            direction: self.terms.direction as u64,
            profile: self.terms.profile,
            position: self.frame.start as u64,
            context: self.context,
            buffer: vec![rng.draw() as u8; self.frame.end().div_ceil(8)],
        }
    }
}
