//! Timeslots, and requests to take a channel out of one and to put one back: of every sort, and
//! nonsense.

use crate::capture::pack;
use crate::families::make;
use crate::requests::garbage;
use crate::rng::Rng;
use crate::timeslot::{needed, Request, OCTETS_MOST};

/// Numbers of no channel, near the first and the last and in more than 32 bits.
pub const NO_CHANNELS: [u64; 4] = [0, 9, (1 << 32) + 1, u64::MAX];

/// A request that is not refused.
pub fn sound(rng: &mut Rng) -> Request {
    let octets = match rng.below(16) {
        0..=6 => rng.below(65),
        7..=13 => rng.below(2_000),
        14 => OCTETS_MOST - rng.below(2),
        _ => rng.below(OCTETS_MOST + 1),
    };
    let timeslot = match rng.once_in(4) {
        true => side_by_side(&channels(rng), octets),
        false => any(rng, octets),
    };
    Request {
        timeslot,
        channel: 1 + rng.below(8) as u64,
        bytes: room(rng, octets),
    }
}

/// Any bytes in which the channels of a timeslot have room, often with more behind.
pub fn room(rng: &mut Rng, octets: usize) -> Vec<u8> {
    let more = rng.of(&[0, 0, 1, 2, 40]);
    any(rng, needed(octets) + more)
}

/// Puts nonsense into a request: no channel, too long a timeslot, with bytes enough for it or not,
/// or too few bytes.
pub fn nonsense(rng: &mut Rng, request: &mut Request) {
    for _ in 0..rng.of(&[1, 1, 1, 2, 3]) {
        let fill = rng.draw() as u8;
        let needed = needed(request.timeslot.len());
        match rng.below(6) {
            0 => request
                .timeslot
                .resize(OCTETS_MOST + 1 + rng.below(40), fill),
            1 => request.bytes.resize(10_000, fill),
            2 => request.bytes.truncate(needed.saturating_sub(1)),
            3 => request.bytes.truncate(rng.below(needed + 1)),
            _ => request.channel = no_channel(rng),
        }
    }
}

/// A number of no channel; often its low bits are those of one.
fn no_channel(rng: &mut Rng) -> u64 {
    let high = rng.of(&[3, 4, 8, 16, 31, 32, 61, 63]);
    match rng.below(3) {
        0 => rng.of(&NO_CHANNELS),
        1 => rng.draw().max(9),
        _ => (1 << high) + 1 + rng.below(8) as u64,
    }
}

/// The lengths of timeslots that are swept.
pub fn lengths() -> Vec<usize> {
    let longest = OCTETS_MOST - 1..=OCTETS_MOST + 1;
    (0..=64).chain(longest).collect()
}

/// Timeslots of one length: each channel and some that there are not, with one byte too few, just
/// enough and more than enough.
pub fn sweep(rng: &mut Rng, octets: usize) -> Vec<Request> {
    let enough = needed(octets);
    let mut requests = Vec::new();
    for channel in (1..=8).chain(NO_CHANNELS) {
        for bytes in [enough.saturating_sub(1), enough, enough + 1 + rng.below(40)] {
            requests.push(Request {
                timeslot: any(rng, octets),
                channel,
                bytes: any(rng, bytes),
            });
        }
    }
    requests
}

/// The bits of eight channels as they are recorded.
pub fn channels(rng: &mut Rng) -> Vec<Vec<bool>> {
    (0..8).map(|_| make(rng).bits).collect()
}

/// A timeslot of eight channels. Behind the end of one stand ones.
pub fn side_by_side(channels: &[Vec<bool>], octets: usize) -> Vec<u8> {
    let octet = |i| {
        channels
            .iter()
            .map(move |bits| *bits.get(i).unwrap_or(&true))
    };
    let bits: Vec<bool> = (0..octets).flat_map(octet).collect();
    pack(&bits)
}

/// Any bytes: noise, ones, zeros, or the top bit of each.
fn any(rng: &mut Rng, length: usize) -> Vec<u8> {
    let mut bytes = vec![0; length];
    garbage(rng, &mut bytes, 0);
    bytes
}
