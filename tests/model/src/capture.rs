//! A capture: its bits before n, and the terms that they are read on. Bits from n on do not exist
//! here.

pub const UPLINK: usize = 0;
pub const DOWNLINK: usize = 1;

/// The longest capture, in bytes.
pub const LONGEST: usize = 65_536;

/// What bits are read and written on: the direction, and the profile, whose bit k (the lowest is
/// bit 0) is set where No_Speech frames of class k carry a CRC.
#[derive(Clone, Copy, Debug, PartialEq)]
pub struct Terms {
    pub direction: usize,
    pub profile: u8,
}

impl Terms {
    /// A direction, and profile 0: no No_Speech frame is checked.
    pub fn of(direction: usize) -> Terms {
        let profile = 0;
        Terms { direction, profile }
    }
}

#[derive(Clone, Debug)]
pub struct Capture {
    pub bits: Vec<bool>,
    pub terms: Terms,
}

impl Capture {
    /// The first `n` bits of `bytes`; the top bit of the first byte was sent first.
    pub fn new(bytes: &[u8], n: usize, terms: Terms) -> Capture {
        let mut bits = unpack(&bytes[..n.div_ceil(8)]);
        bits.truncate(n);
        Capture { bits, terms }
    }

    pub fn n(&self) -> usize {
        self.bits.len()
    }
}

/// The bits of bytes, the top bit of the first byte first.
pub fn unpack(bytes: &[u8]) -> Vec<bool> {
    let bits = (0..8 * bytes.len()).map(|i| bytes[i / 8] & (0x80 >> (i % 8)) != 0);
    bits.collect()
}

/// Bits packed into bytes, the first at the top; the last byte is filled with zeros.
pub fn pack(bits: &[bool]) -> Vec<u8> {
    let mut bytes = Vec::new();
    for eight in bits.chunks(8) {
        let mut byte = 0;
        for (i, &bit) in eight.iter().enumerate() {
            if bit {
                byte |= 0x80 >> i;
            }
        }
        bytes.push(byte);
    }
    bytes
}
