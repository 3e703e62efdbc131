//! What the calls of writing hit.

use crate::coverage::{range, silence, silences, verdicts_of_6, Counts, Line};
use model::capture::LONGEST;
use model::causes::{Cause, CAUSES, ORDER};
use model::fields::{length, Fields};
use model::inverse::split;
use model::sweeps::SWEEPS;
use model::write::{Request, Written, MOST};

/// Counts one compared call.
pub fn count(counts: &mut Counts, request: &Request, written: &Written) {
    counts.add(&format!("number {}", written.answer.number));
    match written.answer.number {
        0 => taken(counts, request, written),
        _ => refused(counts, request, written),
    }
}

fn taken(counts: &mut Counts, request: &Request, written: &Written) {
    let (mut at, bits) = (0, 8 * request.buffer.len() as u64);
    for (frame, context) in &written.frames {
        let fields = Fields::of(&request.records[at..]);
        at += length(frame.kind);
        let direction = request.direction;
        let (kind, verdict) = (frame.kind, fields.verdict);
        counts.add(&format!("kind {kind} in context {context}, {direction}"));
        counts.add(&format!(
            "control {} of {kind}, {direction}",
            fields.control
        ));
        if kind == 1 {
            counts.add(&format!("XC {}, {direction}", fields.extended >> 3));
        }
        if kind == 5 {
            counts.add(&silence(frame, request.profile, *context, direction));
        }
        if kind == 6 {
            counts.add(&format!("verdict {verdict}"));
        }
    }
    let items = written.answer.items;
    counts.add(&format!("context after {}", written.answer.context));
    counts.add(&format!("items {}", items.min(4)));
    for (name, holds) in [
        ("empty buffer", request.buffer.is_empty()),
        ("cursor at the end of the buffer", request.position == bits),
        ("fits exactly", items > 0 && written.answer.position == bits),
        ("65,536 bytes of records", request.records.len() == MOST),
        ("65,536 bytes of buffer", request.buffer.len() == LONGEST),
    ] {
        if holds {
            counts.add(name);
        }
    }
}

/// A cause counts where it alone gives its number.
fn refused(counts: &mut Counts, request: &Request, written: &Written) {
    let number = written.answer.number;
    let causes = written.causes.iter();
    let (first, later): (Vec<Cause>, Vec<Cause>) =
        causes.partition(|cause| cause.number() == number);
    let index = written.answer.index;
    if let [cause] = first[..] {
        counts.add(&format!("{cause:?}"));
        if index > 0 {
            counts.add(&format!("{cause:?} later"));
        }
    }
    for later in later {
        counts.add(&format!("{number} before {}", later.number()));
    }
    counts.add(&format!("{number} at {}", index.min(2)));
    if first == [Cause::WrongCrcInContext0] && request.records[0] == 5 {
        let frame = Fields::of(&request.records).frame();
        counts.add(&silence(
            &frame,
            request.profile,
            request.context,
            request.direction,
        ));
    }
    if number == 4 {
        let frame = Fields::of(split(&request.records, index).1).frame();
        let bits = 8 * request.buffer.len();
        if frame.end() == bits + 1 {
            let what = if frame.tail == 0 { "body" } else { "tail" };
            counts.add(&format!("one bit too few for a {what}"));
        }
    }
}

/// The coverage line, and what was never hit.
pub fn line(counts: &Counts) -> (String, Vec<String>) {
    let mut line = Line::new(counts);
    line.list("number 0..6", &range("number", 0, 6));
    line.each(&CAUSES.map(|(cause, _)| format!("{cause:?}")));
    for (i, first) in ORDER.iter().enumerate() {
        // What the numbers alone refuse is not looked at further.
        let later = ORDER[i + 1..]
            .iter()
            .filter(|later| (**later > 3) == (*first > 3));
        let pairs: Vec<String> = later
            .map(|later| format!("{first} before {later}"))
            .collect();
        line.each(&pairs);
    }
    line.share("causes behind a sound record", &later_causes());
    for number in [4, 5, 6] {
        let title = format!("{number} at 0, 1, more");
        line.list(&title, &range(&format!("{number} at"), 0, 2));
    }
    line.list("items 0..3, more", &range("items", 0, 4));
    line.list("context after 0..5", &range("context after", 0, 5));
    line.each(
        &[
            "empty buffer",
            "cursor at the end of the buffer",
            "fits exactly",
            "one bit too few for a body",
            "one bit too few for a tail",
            "65,536 bytes of records",
            "65,536 bytes of buffer",
            "read back",
            "own bits",
        ]
        .map(String::from),
    );
    line.share("kinds by context and direction", &kinds_by_context());
    line.share("controls", &controls());
    line.share("XC numbers of speech", &xc_of_speech());
    line.share("verdicts of kind 6", &verdicts_of_6());
    line.share("silence frames taken, or refused in context 0", &silences());
    line.share("sweeps", &range("sweep", 0, SWEEPS - 1));
    line.end("writing")
}

/// The causes that a record behind a sound one can have: its context is not 0.
fn later_causes() -> Vec<String> {
    let all = CAUSES.iter().filter(|(_, number)| *number > 3);
    let names = all.map(|(cause, _)| format!("{cause:?} later"));
    names.filter(|name| !name.contains("InContext0")).collect()
}

fn kinds_by_context() -> Vec<String> {
    let mut names = Vec::new();
    for direction in 0..=1 {
        for context in 0..=5 {
            let kinds = (1..=8).filter(|kind| *kind != 8 || context >= 2);
            names
                .extend(kinds.map(|kind| format!("kind {kind} in context {context}, {direction}")));
        }
    }
    names
}

/// The control bytes that are a coding.
fn controls() -> Vec<String> {
    let mut names = Vec::new();
    for number in 1..=8 {
        for direction in 0..=1 {
            for control in 0..=255_u8 {
                let (c4, c5) = (control & 0x10 != 0, control & 0x08 != 0);
                let coding = match number {
                    1 => control >> 5 == 0b000,
                    2 => control & 0xEF == 0b001 << 5,
                    3 => control & 0xEF == 0b010 << 5,
                    4 => control & 0xEF == 0b111 << 5,
                    5 => control == 0b100 << 5 || control == 0b101 << 5,
                    6 => control & 7 == 0 && (c4 || c5),
                    _ => control & 0x1F == 0,
                };
                if coding && (number > 4 || direction == 1 || c4) {
                    names.push(format!("control {control} of {number}, {direction}"));
                }
            }
        }
    }
    assert_eq!(names.len(), 61 + 80);
    names
}

fn xc_of_speech() -> Vec<String> {
    let up = (0..=3).chain(8..=15).map(|xc| format!("XC {xc}, 0"));
    up.chain([0, 2].map(|xc| format!("XC {xc}, 1"))).collect()
}
