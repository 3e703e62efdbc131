//! Families of captures: the bits before n, and places where something begins or ends.

use crate::capture::Terms;
use crate::kinds::kind;
use crate::make::{body, frame, near_miss, wrong_crcs};
use crate::rng::Rng;

#[derive(Clone, Copy, Debug, PartialEq, Eq, PartialOrd, Ord)]
pub enum Family {
    Clean,
    Slipped,
    Damaged,
    NearMisses,
    Modes,
    Overlaid,
    Noise,
    Zeros,
    Ones,
    Examples,
    Empty,
    Full,
}

pub const FAMILIES: [Family; 12] = [
    Family::Clean,
    Family::Slipped,
    Family::Damaged,
    Family::NearMisses,
    Family::Modes,
    Family::Overlaid,
    Family::Noise,
    Family::Zeros,
    Family::Ones,
    Family::Examples,
    Family::Empty,
    Family::Full,
];

/// Bits made for a capture.
pub struct Made {
    pub family: Family,
    pub terms: Terms,
    pub bits: Vec<bool>,
    pub borders: Vec<usize>,
}

/// The frames of the specification's examples: H, Z, and the kind 7 of P12.
pub const H: &str = "008844 808080808080 F0 808080808080808080 BF";
pub const Z: &str = "200080 0000000000000000000000000000000000";
pub const SEVEN: &str = "00809080800080008060 80008000800080008000";

/// The bits of a text of hexadecimal digits and blanks.
pub fn bits(text: &str) -> Vec<bool> {
    let digits = text.chars().filter(|digit| *digit != ' ');
    let digits = digits.map(|digit| digit.to_digit(16).expect("a digit"));
    let four = |digit: u32| [3, 2, 1, 0].map(|i| digit >> i & 1 != 0);
    digits.flat_map(four).collect()
}

/// Bit errors in 65,536: from 1e-1 to 1e-4.
const DAMAGE: [usize; 7] = [6_554, 1_966, 655, 197, 66, 20, 7];

/// Either direction; no class of No_Speech carries a CRC, each does, or some do.
pub fn terms(rng: &mut Rng) -> Terms {
    let any = rng.draw() as u8;
    Terms {
        direction: rng.below(2),
        profile: rng.of(&[0, 255, any, any, any]),
    }
}

pub fn make(rng: &mut Rng) -> Made {
    let family = match rng.below(400) {
        0..=4 => Family::Full,
        5..=8 => Family::Empty,
        9..=12 => Family::Zeros,
        13..=18 => Family::Ones,
        19..=32 => Family::Examples,
        33..=49 => Family::Noise,
        50..=99 => Family::Overlaid,
        100..=169 => Family::Modes,
        170..=249 => Family::NearMisses,
        250..=309 => Family::Damaged,
        310..=359 => Family::Slipped,
        _ => Family::Clean,
    };
    let mut made = Made {
        family,
        terms: terms(rng),
        bits: Vec::new(),
        borders: Vec::new(),
    };
    let length = rng.below(4_000);
    let frames = 1 + rng.below(12);
    match family {
        Family::Clean | Family::Slipped | Family::NearMisses => made.run(rng, frames),
        Family::Damaged => {
            made.run(rng, frames);
            made.damage(rng);
        }
        Family::Modes => made.modes(rng, frames),
        Family::Overlaid => made.overlaid(rng, frames),
        Family::Noise => made.noise(rng, length),
        Family::Zeros => made.bits = vec![false; length],
        Family::Ones => made.bits = vec![true; length],
        Family::Examples => made.example(rng),
        Family::Empty => {}
        Family::Full => made.full(rng),
    }
    made
}

impl Made {
    /// Frames one behind the other, with what the family does to them.
    fn run(&mut self, rng: &mut Rng, frames: usize) {
        if rng.bit() {
            let length = rng.below(20);
            self.noise(rng, length);
        }
        let all: Vec<usize> = (1..=8).collect();
        let some = [rng.of(&all), rng.of(&all)];
        let kinds = if rng.bit() { &all[..] } else { &some[..] };
        let mut context = 0;
        for _ in 0..frames {
            let number = rng.of(kinds);
            context = self.frame(rng, number, context);
        }
    }

    /// Puts a frame behind the bits that there are, and gives the context behind it.
    fn frame(&mut self, rng: &mut Rng, number: usize, context: u64) -> u64 {
        let mut body = body(rng, number, self.terms, context);
        let after = frame(number, &body).context_after();
        let least = kind(number).least_tail[self.terms.direction];
        let mut tail = kind(number).usual_tail;
        match self.family {
            Family::Slipped => {
                tail = match rng.below(8) {
                    0 => rng.below(600),
                    1..=4 => least + rng.below(4),
                    _ => tail,
                };
                match rng.below(8) {
                    0 => drop(body.remove(rng.below(body.len()))),
                    1 => body.insert(rng.below(body.len()), rng.bit()),
                    _ => {}
                }
            }
            Family::NearMisses => match rng.below(6) {
                0 | 1 => near_miss(rng, &mut body, number),
                2 => tail = least.saturating_sub(1),
                3 => tail = least,
                _ => {}
            },
            _ => {}
        }
        self.borders.push(self.bits.len());
        self.bits.extend(&body);
        self.borders.push(self.bits.len());
        self.bits.extend(vec![true; tail]);
        self.borders.push(self.bits.len());
        after
    }

    /// Runs for the memory of modes: mostly kind 6, CRCs wrong one by one.
    fn modes(&mut self, rng: &mut Rng, frames: usize) {
        let mut context = 0;
        for _ in 0..2 * frames {
            let number = rng.of(&[6, 6, 6, 6, 5, 7, 8, 1, 2]);
            // Often right by another context than the one that it stands in.
            let checked_by = if rng.once_in(4) {
                2 + rng.below(4) as u64
            } else {
                context
            };
            let mut body = body(rng, number, self.terms, checked_by);
            if rng.bit() {
                wrong_crcs(rng, &mut body, number, self.terms.profile, checked_by);
            }
            context = frame(number, &body).context_after();
            self.borders.push(self.bits.len());
            self.bits.extend(body);
            self.bits.extend(vec![true; kind(number).usual_tail]);
        }
    }

    /// Frames put over one another.
    fn overlaid(&mut self, rng: &mut Rng, frames: usize) {
        let length = 170 + rng.below(1_000);
        self.noise(rng, length);
        for _ in 0..frames {
            let number = 1 + rng.below(8);
            let context = rng.below(6) as u64;
            let mut bits = body(rng, number, self.terms, context);
            bits.extend(vec![true; rng.below(4)]);
            let at = rng.below(length - bits.len());
            self.bits[at..at + bits.len()].copy_from_slice(&bits);
            self.borders.extend([at, at + bits.len()]);
        }
    }

    fn noise(&mut self, rng: &mut Rng, length: usize) {
        let ones = rng.of(&[32_768, 32_768, 16_384, 4_096, 500, 49_152, 61_440]);
        self.bits.extend((0..length).map(|_| rng.parts(ones)));
    }

    fn damage(&mut self, rng: &mut Rng) {
        let errors = rng.of(&DAMAGE);
        for bit in &mut self.bits {
            *bit ^= rng.parts(errors);
        }
    }

    /// The captures of the specification's examples, one behind the other in any order.
    fn example(&mut self, rng: &mut Rng) {
        for _ in 0..1 + rng.below(4) {
            self.borders.push(self.bits.len());
            self.bits.extend(bits(rng.of(&["FF", H, Z, SEVEN])));
        }
    }

    /// The longest capture that is allowed: frames, noise, zeros or ones, often with a frame at
    /// the start and at the end.
    fn full(&mut self, rng: &mut Rng) {
        let all = 8 * crate::capture::LONGEST;
        if rng.bit() {
            let number = 1 + rng.below(8);
            self.frame(rng, number, 0);
        }
        match rng.below(6) {
            0 => self.noise(rng, all),
            1 => self.bits.resize(all, false),
            2 => self.bits.resize(all, true),
            _ => {
                self.family = rng.of(&[Family::Clean, Family::Slipped, Family::NearMisses]);
                while self.bits.len() < all {
                    self.run(rng, 100);
                }
                self.family = Family::Full;
                self.damage(rng);
            }
        }
        let number = 1 + rng.below(8);
        let mut last = body(rng, number, self.terms, 0);
        last.extend(vec![true; rng.below(4)]);
        self.bits.truncate(all - last.len());
        self.borders.retain(|&p| p <= all - last.len());
        self.borders.push(self.bits.len());
        self.bits.extend(last);
    }
}
