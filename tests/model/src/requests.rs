//! Requests of paging for a capture: cursors, counts and buffers of every sort, and nonsense.

use crate::capture::{pack, Capture, LONGEST};
use crate::families::{Family, Made};
use crate::page::Request;
use crate::reading::{reading, Cursor};
use crate::record::record;
use crate::rng::Rng;

/// A capture in bytes with its n: often cut at some place, with garbage behind n.
pub struct Lent {
    pub bytes: Vec<u8>,
    pub capture: Capture,
    pub borders: Vec<usize>,
}

impl Lent {
    pub fn new(rng: &mut Rng, made: Made) -> Lent {
        let mut bits = made.bits;
        let all = bits.len();
        let n = match rng.below(4) {
            0 => rng.below(all + 1),
            1 if !made.borders.is_empty() => {
                let p = rng.of(&made.borders);
                near(rng, p, all)
            }
            _ => all,
        };
        bits.truncate(n);
        let mut bytes = pack(&bits);
        let longest = LONGEST - bytes.len();
        bytes.extend(vec![0; rng.of(&[0, 0, 1, 2, 30]).min(longest)]);
        if made.family == Family::Full && rng.bit() {
            let length = rng.of(&[LONGEST - 1, LONGEST, LONGEST + 1, LONGEST + 4_096]);
            bytes.resize(length, 0);
            bits.truncate(8 * bytes.len());
        }
        let mut borders = made.borders;
        borders.retain(|&p| p <= bits.len());
        borders.extend([0, bits.len()]);
        let terms = made.terms;
        let capture = Capture { bits, terms };
        let mut lent = Lent {
            bytes,
            capture,
            borders,
        };
        garbage(rng, &mut lent.bytes, lent.capture.n());
        lent
    }

    pub fn too_long(&self) -> bool {
        self.bytes.len() > LONGEST
    }

    /// Whether reading it takes long.
    pub fn long(&self) -> bool {
        self.capture.n() >= 10_000
    }

    /// The capture when it had n bits. Behind them stand those that come later, garbage, or none.
    pub fn cut(&self, rng: &mut Rng, n: usize) -> Lent {
        let mut bytes = self.bytes.clone();
        if rng.bit() {
            bytes.truncate(n.div_ceil(8));
        }
        if rng.bit() {
            garbage(rng, &mut bytes, n);
        }
        let bits = self.capture.bits[..n].to_vec();
        let terms = self.capture.terms;
        Lent {
            bytes,
            capture: Capture { bits, terms },
            borders: Vec::new(),
        }
    }

    /// Where n stands at the next look: a bit on, a few bits, about a frame, near the next border,
    /// or far on, as mostly in a long capture.
    pub fn grow(&self, rng: &mut Rng, n: usize) -> usize {
        let end = self.capture.n();
        let ways = if self.long() { 24 } else { 8 };
        let next = match rng.below(ways) {
            0 => n + 1,
            1 => n + 1 + rng.below(8),
            2 | 3 => n + 150 + rng.below(20),
            4..=6 => {
                let borders = self.borders.iter().filter(|p| **p > n);
                let next = *borders.min().unwrap_or(&end);
                match rng.bit() {
                    true => next,
                    false => near(rng, next, end),
                }
            }
            _ => n + rng.below(end / 4 + 1),
        };
        next.max(n + 1).min(end)
    }

    /// Any cursor, often where something begins or ends.
    pub fn cursor(&self, rng: &mut Rng) -> Cursor {
        let n = self.capture.n();
        let position = match rng.below(8) {
            0 | 1 => 0,
            2 => rng.below(n + 1),
            3 => {
                let p = rng.of(&self.borders);
                near(rng, p, n)
            }
            4 if rng.once_in(4) => n,
            _ => rng.of(&self.borders),
        };
        let context = rng.below(6) as u64;
        Cursor { position, context }
    }

    /// A request that no number refuses: any cursor, any count, any buffer.
    pub fn request(&self, rng: &mut Rng) -> Request {
        let cursor = self.cursor(rng);
        let other_way = rng.once_in(8);
        let direction = self.capture.terms.direction ^ usize::from(other_way);
        let profile = match rng.once_in(8) {
            true => rng.draw() as u8,
            false => self.capture.terms.profile,
        };
        let length = self.buffer_length(rng, cursor);
        let fill = rng.draw() as u8;
        let buffer = match length < 1_000 && rng.bit() {
            true => (0..length).map(|_| rng.draw() as u8).collect(),
            false => vec![fill; length],
        };
        Request {
            capture: self.bytes.clone(),
            n: self.capture.n() as u64,
            direction: direction as u64,
            profile,
            position: cursor.position as u64,
            context: cursor.context,
            most: most(rng),
            buffer,
        }
    }

    /// Any length up to 80, one at which a record just fits or just does not, or a large one.
    fn buffer_length(&self, rng: &mut Rng, cursor: Cursor) -> usize {
        match rng.below(16) {
            0..=5 => rng.below(81),
            6..=10 => {
                let items = reading(&self.capture, cursor).take(1 + rng.below(6));
                let total: usize = items.map(|item| record(&item).len()).sum();
                (total + rng.below(3)).saturating_sub(1)
            }
            11..=14 => 81 + rng.below(600),
            _ if rng.once_in(200) => 1_000_000 + rng.below(1_000_000),
            _ => rng.below(20_000),
        }
    }
}

/// The same request with other garbage behind n, more of it, or other bits before the cursor: the
/// answer must be the same.
pub fn twin(rng: &mut Rng, request: &Request) -> Request {
    let mut twin = request.clone();
    let capture = &mut twin.capture;
    if rng.once_in(3) && capture.len() < LONGEST {
        let more = (1 + rng.below(40)).min(LONGEST - capture.len());
        capture.extend(vec![0; more]);
    }
    if rng.once_in(3) && request.position <= request.n {
        for i in 0..request.position as usize {
            if rng.bit() {
                capture[i / 8] ^= 0x80 >> (i % 8);
            }
        }
    }
    garbage(rng, capture, request.n as usize);
    twin
}

/// Fills the bits from n on with garbage.
pub fn garbage(rng: &mut Rng, bytes: &mut [u8], n: usize) {
    let whole = rng.of(&[0x00, 0xFF, 0x80]);
    let random = rng.bit();
    for i in n..8 * bytes.len() {
        let bit = if random {
            rng.bit()
        } else {
            whole >> (7 - i % 8) & 1 != 0
        };
        let mask = 0x80 >> (i % 8);
        match bit {
            true => bytes[i / 8] |= mask,
            false => bytes[i / 8] &= !mask,
        }
    }
}

/// Puts nonsense into one or more numbers of a request.
pub fn nonsense(rng: &mut Rng, request: &mut Request) {
    for _ in 0..rng.of(&[1, 1, 1, 2, 3]) {
        let number = match rng.below(5) {
            0 => &mut request.n,
            1 => &mut request.direction,
            2 => &mut request.position,
            3 => &mut request.context,
            _ => &mut request.most,
        };
        *number = match rng.below(10) {
            0 => number.wrapping_add(1 << 32),
            1 => number.wrapping_add(1 << 63),
            2 => *number | 1 << rng.below(64),
            3 => u64::MAX - rng.below(4) as u64,
            4 => rng.of(&[0, 0, 1 << 8, 1 << 16, 1 << 31, 1 << 32, 1 << 61, 1 << 63]),
            5 => rng.draw(),
            6 => 8 * request.capture.len() as u64 + 1,
            7 => number.wrapping_add(1 + rng.below(8) as u64),
            8 => number.wrapping_neg(),
            _ => rng.below(3) as u64,
        };
    }
}

fn most(rng: &mut Rng) -> u64 {
    match rng.below(8) {
        0 | 1 => 1,
        2 => 2,
        3 => 3 + rng.below(6) as u64,
        4 => 1 << rng.below(64),
        5 => u64::MAX,
        _ => 1_000,
    }
}

/// A place next to another, at most `end`.
fn near(rng: &mut Rng, place: usize, end: usize) -> usize {
    (place + rng.below(7)).saturating_sub(3).min(end)
}
