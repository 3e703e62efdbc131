//! Channels of a timeslot: examples worked by hand, each refusal and their order, and what holds of
//! taking out and putting back together.

use model::answer::Answer;
use model::capture::{pack, unpack};
use model::rng::Rng;
use model::timeslot::{put, take, Done, Request};
use model::timeslots::{channels, side_by_side, sound};

/// One octet for each channel, which alone has a one in it, and then channel 1 again.
const STAIRS: [u8; 9] = [0x80, 0x40, 0x20, 0x10, 0x08, 0x04, 0x02, 0x01, 0x80];

fn request(timeslot: &[u8], channel: u64, bytes: &[u8]) -> Request {
    Request {
        timeslot: timeslot.to_vec(),
        channel,
        bytes: bytes.to_vec(),
    }
}

/// What a call that is not refused leaves.
fn after(done: Done) -> Vec<u8> {
    assert_eq!(done.answer, Answer::alone(0));
    done.after
}

fn taken(timeslot: &[u8], channel: u64, buffer: &[u8]) -> Vec<u8> {
    after(take(&request(timeslot, channel, buffer)))
}

fn with(timeslot: &[u8], channel: u64, bytes: &[u8]) -> Vec<u8> {
    after(put(&request(timeslot, channel, bytes)))
}

#[test]
fn each_channel_taken_out() {
    let expected = [
        [0x80, 0x80],
        [0x40, 0x00],
        [0x20, 0x00],
        [0x10, 0x00],
        [0x08, 0x00],
        [0x04, 0x00],
        [0x02, 0x00],
        [0x01, 0x00],
    ];
    for (channel, bytes) in (1..=8).zip(expected) {
        assert_eq!(taken(&STAIRS, channel, &[0xEE; 2]), bytes);
    }
    // 05 is bits 6 and 8, A3 bits 1, 3, 7 and 8.
    let octets = [0x05, 0xA3, 0x05];
    let expected = [0x40, 0x00, 0x40, 0x00, 0x00, 0xA0, 0x40, 0xE0];
    for (channel, byte) in (1..=8).zip(expected) {
        assert_eq!(taken(&octets, channel, &[0xFF]), [byte]);
    }
}

#[test]
fn each_channel_put_back() {
    // Ones among zeros: only that channel's bit of each octet.
    for channel in 1..=8 {
        let bit = STAIRS[channel as usize - 1];
        assert_eq!(with(&[0; 9], channel, &[0xFF, 0xFF]), [bit; 9]);
        assert_eq!(with(&[0xFF; 9], channel, &[0, 0]), [!bit; 9]);
    }
    // 101 into channel 7, whose bits were 010.
    assert_eq!(with(&[0x05, 0xA3, 0x05], 7, &[0xA0]), [0x07, 0xA1, 0x07]);
}

#[test]
fn below_a_last_byte_and_behind() {
    // Ones below and behind: taking out leaves zeros below and the rest as it is.
    assert_eq!(taken(&[0xFF; 3], 4, &[0xFF; 3]), [0xE0, 0xFF, 0xFF]);
    assert_eq!(taken(&[0; 8], 4, &[0xFF; 2]), [0, 0xFF]);
    // Putting back does not look at them.
    assert_eq!(with(&[0; 3], 8, &[0x5F, 0xFF]), [0, 1, 0]);
    assert_eq!(with(&[0; 3], 8, &[0x40]), [0, 1, 0]);
}

#[test]
fn an_empty_timeslot() {
    for channel in 1..=8 {
        for length in [0, 1, 8_193] {
            let bytes = vec![0xEE; length];
            assert_eq!(taken(&[], channel, &bytes), bytes);
            assert_eq!(with(&[], channel, &bytes), []);
        }
    }
}

/// Both calls refuse with the number, for these reasons, and change nothing.
fn refused(request: &Request, refusals: &[u64]) {
    for (done, before) in [
        (take(request), &request.bytes),
        (put(request), &request.timeslot),
    ] {
        assert_eq!(done.answer, Answer::alone(refusals[0]));
        assert_eq!(done.refusals, refusals);
        assert_eq!(done.after, *before);
    }
}

#[test]
fn refusals_in_their_order() {
    let request = |octets, channel, bytes| Request {
        timeslot: vec![0x5A; octets],
        channel,
        bytes: vec![0xA5; bytes],
    };
    for channel in [0, 9, 255, 257, (1 << 32) + 1, 1 << 63, u64::MAX] {
        refused(&request(8, channel, 1), &[7]);
        refused(&request(65_537, channel, 8_193), &[7, 2]);
        refused(&request(9, channel, 1), &[7, 4]);
        refused(&request(65_537, channel, 8_192), &[7, 2, 4]);
        refused(&request(0, channel, 0), &[7]);
    }
    for channel in 1..=8 {
        refused(&request(65_537, channel, 8_193), &[2]);
        refused(&request(65_537, channel, 8_192), &[2, 4]);
        refused(&request(65_536, channel, 8_191), &[4]);
        refused(&request(9, channel, 1), &[4]);
        refused(&request(1, channel, 0), &[4]);
        after(take(&request(65_536, channel, 8_192)));
        after(put(&request(65_536, channel, 8_192)));
        after(take(&request(8, channel, 1)));
        after(put(&request(8, channel, 100_000)));
    }
}

/// Taking out reads what putting back writes, and the other way round.
#[test]
fn both_ways_round() {
    let rng = &mut Rng::new(4, 1);
    for _ in 0..200 {
        let Request {
            timeslot,
            channel,
            bytes,
        } = sound(rng);
        let out = taken(&timeslot, channel, &bytes);
        assert_eq!(with(&timeslot, channel, &out), timeslot);
        let back = with(&timeslot, channel, &bytes);
        let again = taken(&back, channel, &bytes);
        let octets = timeslot.len();
        assert_eq!(unpack(&again)[..octets], unpack(&bytes)[..octets]);
        for other in (1..=8).filter(|other| *other != channel) {
            let same = taken(&timeslot, other, &bytes);
            assert_eq!(taken(&back, other, &bytes), same);
        }
    }
}

#[test]
fn either_order() {
    let rng = &mut Rng::new(4, 2);
    for _ in 0..200 {
        let one = sound(rng);
        let other = one.channel % 8 + 1;
        let bytes: Vec<u8> = one.bytes.iter().map(|_| rng.draw() as u8).collect();
        let back = |channels: [(u64, &[u8]); 2]| {
            let put = |octets: Vec<u8>, (channel, bytes)| with(&octets, channel, bytes);
            channels.into_iter().fold(one.timeslot.clone(), put)
        };
        let (first, second) = ((one.channel, &one.bytes[..]), (other, &bytes[..]));
        assert_eq!(back([first, second]), back([second, first]));
    }
}

/// A timeslot made of eight channels has them.
#[test]
fn side_by_side_they_are_taken_out() {
    let rng = &mut Rng::new(4, 3);
    for _ in 0..50 {
        let channels = channels(rng);
        let octets = rng.below(700);
        let timeslot = side_by_side(&channels, octets);
        for (channel, bits) in (1..=8).zip(&channels) {
            let mut bits = bits.clone();
            bits.resize(octets, true);
            let bytes = vec![0; octets.div_ceil(8)];
            assert_eq!(taken(&timeslot, channel, &bytes), pack(&bits));
        }
    }
}
