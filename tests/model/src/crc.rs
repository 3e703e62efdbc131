//! The CRC (5.1.4.1): long division over GF(2), and odd parity.

/// X^3 + X + 1, the highest power first.
const DIVISOR: [bool; 4] = [true, false, true, true];

/// What a right frame leaves: X^2 + X + 1.
const REMAINDER: [bool; 3] = [true, true, true];

/// The remainder of a polynomial (the constant term last) divided by the divisor.
pub fn remainder(polynomial: &[bool]) -> Vec<bool> {
    // Leading zeros change nothing, and make the dividend long enough.
    let mut rest = vec![false; 3];
    rest.extend(polynomial);
    for at in 0..rest.len() - 3 {
        if rest[at] {
            for (i, &d) in DIVISOR.iter().enumerate() {
                rest[at + i] ^= d;
            }
        }
    }
    rest.split_off(rest.len() - 3)
}

/// Whether covered bits and the three CRC bits behind them are right.
pub fn right(covered_then_crc: &[bool]) -> bool {
    remainder(covered_then_crc) == REMAINDER
}

/// The CRC of covered bits, found by trying all eight.
pub fn of(covered: &[bool]) -> [bool; 3] {
    let all = (0..8).map(|v| [v & 4 != 0, v & 2 != 0, v & 1 != 0]);
    let mut fit = all.filter(|crc| right(&[covered, crc].concat()));
    let crc = fit.next().expect("a CRC that is right");
    assert!(fit.next().is_none(), "two CRCs are right");
    crc
}

/// Whether an odd number of the bits is one.
pub fn odd(bits: &[bool]) -> bool {
    let mut odd = false;
    for &bit in bits {
        odd ^= bit;
    }
    odd
}
