//! What the calls hit that take a channel out of a timeslot and put one back.

use crate::coverage::{range, Counts, Line};
use model::capture::unpack;
use model::timeslot::{needed, Done, Request, ORDER};
use model::timeslots::{lengths, NO_CHANNELS};

/// Counts one compared call of either sort.
pub fn count(counts: &mut Counts, request: &Request, done: &Done) {
    counts.add(&format!("number {}", done.answer.number));
    counts.add(&swept(
        request.channel,
        request.timeslot.len(),
        room(request),
    ));
    match done.refusals[..] {
        [] => taken(counts, request),
        [number] => counts.add(&format!("{number} alone")),
        _ => {}
    }
    for (first, later) in pairs() {
        if done.refusals.contains(&first) && done.refusals.contains(&later) {
            counts.add(&format!("{first} before {later}"));
        }
    }
}

fn taken(counts: &mut Counts, request: &Request) {
    let octets = request.timeslot.len();
    let end = needed(octets);
    counts.add(&format!("channel {}", request.channel));
    if octets > 0 {
        counts.add(&format!("last byte of {}", (octets - 1) % 8 + 1));
    }
    let all = |octet: u8| octets > 0 && request.timeslot.iter().all(|other| *other == octet);
    let below = &unpack(&request.bytes[..end])[octets..];
    for (name, holds) in [
        ("no octets", octets == 0),
        ("octets of ones", all(0xFF)),
        ("octets of zeros", all(0x00)),
        ("ones below the last bit", below.contains(&true)),
        (
            "bytes behind",
            request.bytes[end..].iter().any(|byte| *byte != 0),
        ),
    ] {
        if holds {
            counts.add(name);
        }
    }
    counts.add(room(request));
}

/// Counts what a call did that put a channel back: bits that change, and bits put that do not.
pub fn count_bits(counts: &mut Counts, request: &Request, done: &Done) {
    let octets = request.timeslot.iter().zip(&done.after);
    let changed = octets.filter(|(before, after)| before != after).count();
    if changed > 0 {
        counts.add(CHANGES);
    }
    if done.answer.number == 0 && changed < request.timeslot.len() {
        counts.add(STAYS);
    }
}

/// The bytes lent, beside those that are needed.
fn room(request: &Request) -> &'static str {
    let enough = needed(request.timeslot.len());
    match request.bytes.len() {
        bytes if bytes + 1 == enough => ROOM[0],
        bytes if bytes == enough => ROOM[1],
        bytes if bytes > enough => ROOM[2],
        _ => "far too short",
    }
}

const ROOM: [&str; 3] = ["one short", "exact", "longer"];

fn swept(channel: u64, octets: usize, room: &str) -> String {
    format!("channel {channel} of {octets} octets, {room}")
}

/// All that is swept.
fn sweeps() -> Vec<String> {
    let mut names = Vec::new();
    for octets in lengths() {
        for channel in (1..=8).chain(NO_CHANNELS) {
            let rooms = ROOM.iter().skip(usize::from(octets == 0));
            names.extend(rooms.map(|room| swept(channel, octets, room)));
        }
    }
    names
}

/// Refusals that can hold together.
fn pairs() -> [(u64, u64); 3] {
    let [first, second, third] = ORDER;
    [(first, second), (first, third), (second, third)]
}

/// What is counted of both calls together, and of the bits that are put.
pub const OWN_BITS: &str = "own bits taken";
pub const GOES_ON: &str = "channel harvested";
pub const SAME_TIMESLOT: &str = "same timeslot";
pub const EITHER_ORDER: &str = "either order";
const CHANGES: &str = "bit that changes";
const STAYS: &str = "bit that stays";

/// The coverage line of taking out, and what was never hit.
pub fn line_of_taking(counts: &Counts) -> (String, Vec<String>) {
    let mut line = line(counts);
    line.each(&[OWN_BITS, GOES_ON].map(String::from));
    line.end("taking out")
}

/// The coverage line of putting back, and what was never hit.
pub fn line_of_putting(counts: &Counts) -> (String, Vec<String>) {
    let mut line = line(counts);
    line.each(&[CHANGES, STAYS, SAME_TIMESLOT, EITHER_ORDER].map(String::from));
    line.end("putting back")
}

/// What both calls have to hit.
fn line(counts: &Counts) -> Line<'_> {
    let mut line = Line::new(counts);
    line.each(&[0, 7, 2, 4].map(|number| format!("number {number}")));
    line.each(&ORDER.map(|number| format!("{number} alone")));
    line.each(&pairs().map(|(first, later)| format!("{first} before {later}")));
    line.list("channel 1..8", &range("channel", 1, 8));
    line.list("last byte of 1..8 bits", &range("last byte of", 1, 8));
    line.each(
        &[
            "no octets",
            "octets of ones",
            "octets of zeros",
            "exact",
            "longer",
            "ones below the last bit",
            "bytes behind",
        ]
        .map(String::from),
    );
    line.share("lengths by channel and room", &sweeps());
    line
}
