//! A record taken apart, and the frame that it names.

use crate::capture::unpack;
use crate::frame::Frame;
use crate::kinds::kind;

/// The fields of a record of kinds 1 to 8.
#[derive(Clone, Debug)]
pub struct Fields {
    pub kind: usize,
    pub start: usize,
    pub tail: usize,
    pub control: u8,
    pub extended: u8,
    pub verdict: u8,
    pub d: Vec<bool>,
    pub padding: Vec<bool>,
}

/// Where the D bits begin in a record: behind kind, start, tail, control, extended, verdict.
pub const D_BITS: usize = 1 + 4 + 4 + 3;

/// The bytes of a record of kinds 1 to 8.
pub fn length(number: usize) -> usize {
    D_BITS + kind(number).d.len().div_ceil(8)
}

impl Fields {
    /// The fields of the record that `bytes` begin with. It is whole, and its kind is 1 to 8.
    pub fn of(bytes: &[u8]) -> Fields {
        let number = bytes[0] as usize;
        let mut d = unpack(&bytes[D_BITS..length(number)]);
        let padding = d.split_off(kind(number).d.len());
        Fields {
            kind: number,
            start: four(&bytes[1..5]),
            tail: four(&bytes[5..9]),
            control: bytes[9],
            extended: bytes[10],
            verdict: bytes[11],
            d,
            padding,
        }
    }

    /// The frame of the fields, whether or not its coding holds. Bits that must be zero are not
    /// looked at.
    pub fn frame(&self) -> Frame {
        let kind = kind(self.kind);
        let mut body = vec![false; kind.body];
        for &(i, bit) in &kind.fixed {
            body[i] = bit;
        }
        put(&mut body, &kind.c, &self.c());
        put(&mut body, &kind.xc, &self.xc());
        put(&mut body, &kind.crc, &self.crc());
        put(&mut body, &kind.d, &self.d);
        Frame {
            kind: self.kind,
            start: self.start,
            tail: self.tail,
            body,
        }
    }

    /// C1, C2, .. by the control byte. C5 of an HR frame is not in it.
    fn c(&self) -> Vec<bool> {
        let control = unpack(&[self.control]);
        let c5 = odd_with(&control[..4]);
        match self.kind {
            1 => [&control[..4], &[c5], &control[4..]].concat(),
            2..=4 => [&control[..4], &[c5]].concat(),
            5 | 6 => control[..5].to_vec(),
            _ => control[..3].to_vec(),
        }
    }

    /// XC1, XC2, .. by the extended byte. XC6 is not in it.
    fn xc(&self) -> Vec<bool> {
        let extended = unpack(&[self.extended]);
        let xc6 = odd_with(&extended[..5]);
        match self.kind {
            1 | 3 => [&extended[..5], &[xc6]].concat(),
            _ => Vec::new(),
        }
    }

    /// CRC2, CRC1, CRC0 of kind 1, by the extended byte.
    fn crc(&self) -> Vec<bool> {
        match self.kind {
            1 => unpack(&[self.extended])[5..].to_vec(),
            _ => Vec::new(),
        }
    }
}

/// The bit that makes the number of ones odd.
fn odd_with(bits: &[bool]) -> bool {
    let ones = bits.iter().filter(|bit| **bit).count();
    ones % 2 == 0
}

fn put(body: &mut [bool], places: &[usize], bits: &[bool]) {
    assert_eq!(places.len(), bits.len());
    for (&i, &bit) in places.iter().zip(bits) {
        body[i] = bit;
    }
}

/// A number of four bytes, the high byte first.
fn four(bytes: &[u8]) -> usize {
    bytes
        .iter()
        .fold(0, |number, &byte| 256 * number + byte as usize)
}
