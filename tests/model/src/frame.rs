//! Frames: whether one stands at a place, its mode, its verdict and the context behind it.

use crate::capture::{Capture, UPLINK};
use crate::crc;
use crate::kinds::{kind, Kind};

#[derive(Clone, Debug, PartialEq)]
pub struct Frame {
    pub kind: usize,
    pub start: usize,
    pub tail: usize,
    pub body: Vec<bool>,
}

/// The frame that stands at `p`, if one does. All eight kinds are tried; at most one fits.
pub fn stands(capture: &Capture, p: usize) -> Option<Frame> {
    let mut found = None;
    for number in 1..=8 {
        if let Some(frame) = stands_as(capture, p, kind(number)) {
            assert!(found.is_none(), "two kinds stand at {p}");
            found = Some(frame);
        }
    }
    found
}

fn stands_as(capture: &Capture, p: usize, kind: &Kind) -> Option<Frame> {
    let end = p + kind.body;
    if end > capture.n() {
        return None;
    }
    if !fixed_bits_hold(&capture.bits[p..end], kind) {
        return None;
    }
    let body = capture.bits[p..end].to_vec();
    let tail = capture.bits[end..].iter().take_while(|bit| **bit).count();
    let enough = tail >= kind.least_tail[capture.terms.direction];
    if !enough || !coding_holds(&body, kind, capture.terms.direction) {
        return None;
    }
    Some(Frame {
        kind: kind.number,
        start: p,
        tail,
        body,
    })
}

pub fn fixed_bits_hold(body: &[bool], kind: &Kind) -> bool {
    kind.fixed.iter().all(|&(i, bit)| body[i] == bit)
}

pub fn coding_holds(body: &[bool], kind: &Kind, direction: usize) -> bool {
    let c = bits_at(body, &kind.c);
    let xc = bits_at(body, &kind.xc);
    match kind.number {
        1..=4 => {
            let first = number(&c[..3]);
            let c4 = c[3];
            let kind_named = first == [0b000, 0b001, 0b010, 0b111][kind.number - 1];
            let c4_allowed = direction != UPLINK || c4;
            kind_named && c4_allowed && crc::odd(&c[..5]) && extended_holds(&xc, kind, direction)
        }
        5 => !c[3] && !c[4] && [0b100, 0b101].contains(&number(&c[..3])),
        6 => c[3] || c[4],
        _ => true,
    }
}

fn extended_holds(xc: &[bool], kind: &Kind, direction: usize) -> bool {
    match (kind.number, direction) {
        (1, UPLINK) => crc::odd(xc) && matches!(number(&xc[..5]), 0..=3 | 8..=15),
        (1, _) => crc::odd(xc) && matches!(number(&xc[..5]), 0 | 2),
        (3, _) => crc::odd(xc) && number(&xc[..5]) == 31,
        _ => true,
    }
}

impl Frame {
    pub fn end(&self) -> usize {
        self.start + self.body.len() + self.tail
    }

    /// C1, C2, .. of the frame.
    pub fn c(&self) -> Vec<bool> {
        bits_at(&self.body, &kind(self.kind).c)
    }

    /// XC1, XC2, .. of the frame.
    pub fn xc(&self) -> Vec<bool> {
        bits_at(&self.body, &kind(self.kind).xc)
    }

    /// CRC2, CRC1, CRC0 of kind 1.
    pub fn crc(&self) -> Vec<bool> {
        bits_at(&self.body, &kind(self.kind).crc)
    }

    /// D1, D2, .. of the frame.
    pub fn d(&self) -> Vec<bool> {
        bits_at(&self.body, &kind(self.kind).d)
    }

    /// The mode that the frame's own C bits name: 1 for 4,75, 2 for 5,15, 3 for 5,90, else 0.
    pub fn named_mode(&self) -> usize {
        match (self.kind, number(&self.c()[..3])) {
            (6, 0b000) => 1,
            (6, 0b001) => 2,
            (6, 0b010) => 3,
            _ => 0,
        }
    }

    /// The mode of a kind 6 in a context, 0 for none.
    pub fn mode(&self, context: u64) -> usize {
        match (self.kind, self.named_mode(), context) {
            (6, 0, 3) => 1,
            (6, 0, 4) => 2,
            (6, 0, 5) => 3,
            (_, named, _) => named,
        }
    }

    /// The class of a No_Speech frame: D8, D9, D10 as a number, D8 at the top.
    pub fn class(&self) -> usize {
        number(&self.d()[7..10])
    }

    /// Whether the frame is a No_Speech of a class that carries a CRC.
    pub fn carries(&self, profile: u8) -> bool {
        self.kind == 5 && profile >> self.class() & 1 != 0
    }

    /// Whether the CRC that a No_Speech frame may carry is right, carried or not.
    pub fn silence_right(&self) -> bool {
        crc::right(&bits_at(&self.body, &kind(5).crcs[1][0]))
    }

    /// Whether no CRC of the frame can be checked in a context.
    pub fn unchecked(&self, profile: u8, context: u64) -> bool {
        match self.kind {
            5 => !self.carries(profile),
            6 => self.mode(context) == 0,
            _ => false,
        }
    }

    /// For CRC1 up, the places covered and then those of the CRC, in a context.
    pub fn crcs(&self, profile: u8, context: u64) -> &'static [Vec<usize>] {
        let by = match self.kind {
            5 => usize::from(self.carries(profile)),
            _ => self.mode(context),
        };
        &kind(self.kind).crcs[by]
    }

    /// For CRC1 up, whether it is wrong in a context.
    pub fn wrong_crcs(&self, profile: u8, context: u64) -> Vec<bool> {
        let wrong = |places: &Vec<usize>| !crc::right(&bits_at(&self.body, places));
        self.crcs(profile, context).iter().map(wrong).collect()
    }

    pub fn verdict(&self, profile: u8, context: u64) -> u8 {
        let mut verdict = 0;
        if self.unchecked(profile, context) {
            verdict |= 0x80;
        }
        verdict |= (self.mode(context) as u8) << 4;
        for (i, wrong) in self.wrong_crcs(profile, context).iter().enumerate() {
            if *wrong {
                verdict |= 1 << i;
            }
        }
        verdict
    }

    /// Whether the frame follows in a context.
    pub fn follows(&self, context: u64) -> bool {
        match self.kind {
            8 => context >= 2,
            _ => context != 0,
        }
    }

    /// Whether the frame starts a run; that is judged in context 0.
    pub fn starts_run(&self, profile: u8) -> bool {
        let all_right = !self.wrong_crcs(profile, 0).contains(&true);
        let unchecked_6 = self.kind == 6 && self.unchecked(profile, 0);
        self.kind != 8 && all_right && !unchecked_6
    }

    /// The context behind the frame.
    pub fn context_after(&self) -> u64 {
        match (self.kind, self.named_mode()) {
            (1..=4, _) => 1,
            (6, 1) => 3,
            (6, 2) => 4,
            (6, 3) => 5,
            _ => 2,
        }
    }
}

fn bits_at(body: &[bool], places: &[usize]) -> Vec<bool> {
    places.iter().map(|&i| body[i]).collect()
}

/// Bits as a number, the first at the top.
fn number(bits: &[bool]) -> usize {
    bits.iter().fold(0, |sum, &bit| 2 * sum + usize::from(bit))
}
