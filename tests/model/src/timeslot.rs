//! A timeslot of 64 kbit/s: bit k of each octet belongs to channel k, k from 1 to 8, top bit first.
//! One channel taken out of it, and put back.

use crate::answer::Answer;
use crate::capture::{pack, unpack};

/// The most octets of a timeslot.
pub const OCTETS_MOST: usize = 65_536;

/// The refusals in the order in which they decide.
pub const ORDER: [u64; 3] = [7, 2, 4];

/// What a caller of either call gives. `bytes` are the channel's: the lent buffer for them as it was
/// before the call, or those to put back.
#[derive(Clone, Debug)]
pub struct Request {
    pub timeslot: Vec<u8>,
    pub channel: u64,
    pub bytes: Vec<u8>,
}

/// What either call does: the answer, what may change (the buffer or the timeslot) as it is after
/// the call, and the number of every refusal that holds, in their order.
pub struct Done {
    pub answer: Answer,
    pub after: Vec<u8>,
    pub refusals: Vec<u64>,
}

/// How many bytes the channels of a timeslot need: one bit for each octet.
pub fn needed(octets: usize) -> usize {
    octets.div_ceil(8)
}

fn refusals(request: &Request) -> Vec<u64> {
    let octets = request.timeslot.len();
    let holds = |number: &u64| match number {
        7 => !(1..=8).contains(&request.channel),
        2 => octets > OCTETS_MOST,
        _ => request.bytes.len() < needed(octets),
    };
    ORDER.into_iter().filter(holds).collect()
}

/// Where bit i of a channel stands among the bits of a timeslot.
fn place(i: usize, channel: u64) -> usize {
    8 * i + channel as usize - 1
}

/// The channel's bits at the front of the buffer. In a last byte partly filled zeros stand below.
pub fn take(request: &Request) -> Done {
    let refusals = refusals(request);
    let mut after = request.bytes.clone();
    if refusals.is_empty() {
        let bits = unpack(&request.timeslot);
        let octets = 0..request.timeslot.len();
        let channel: Vec<bool> = octets.map(|i| bits[place(i, request.channel)]).collect();
        for (byte, taken) in after.iter_mut().zip(pack(&channel)) {
            *byte = taken;
        }
    }
    done(after, refusals)
}

/// The first bits of the bytes as the channel's, one in each octet of the timeslot.
pub fn put(request: &Request) -> Done {
    let refusals = refusals(request);
    let mut bits = unpack(&request.timeslot);
    if refusals.is_empty() {
        let channel = unpack(&request.bytes);
        for (i, bit) in channel.into_iter().take(bits.len() / 8).enumerate() {
            bits[place(i, request.channel)] = bit;
        }
    }
    done(pack(&bits), refusals)
}

/// The number answered is that of the first refusal.
fn done(after: Vec<u8>, refusals: Vec<u64>) -> Done {
    Done {
        answer: Answer::alone(*refusals.first().unwrap_or(&0)),
        after,
        refusals,
    }
}
