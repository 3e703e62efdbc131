//! Rules 1 to 4 tested on a list of items, apart from how the list was made.

use crate::capture::Capture;
use crate::frame::stands;
use crate::reading::{Cursor, Item};

/// Whether `items` is a reading from `cursor`; if not, which rule is broken and where.
pub fn check(capture: &Capture, cursor: Cursor, items: &[Item]) -> Result<(), String> {
    let Cursor {
        mut position,
        mut context,
    } = cursor;
    let profile = capture.terms.profile;
    let starts_run = |p: usize| stands(capture, p).is_some_and(|frame| frame.starts_run(profile));
    for item in items {
        let rule = |number: usize, holds: bool| match holds {
            true => Ok(()),
            false => Err(format!("rule {number} is broken at {position}: {item:?}")),
        };
        match item {
            Item::Frame { frame, verdict } => {
                rule(1, frame.start == position)?;
                rule(2, stands(capture, position).as_ref() == Some(frame))?;
                match context {
                    0 => rule(2, frame.starts_run(profile))?,
                    _ => rule(2, frame.follows(context))?,
                }
                rule(2, *verdict == frame.verdict(profile, context))?;
                let body_end = position + frame.body.len();
                let end = body_end + frame.tail;
                rule(3, capture.bits[body_end..end].iter().all(|bit| *bit))?;
                rule(3, end == capture.n() || !capture.bits[end])?;
                position = end;
                context = match (frame.kind, frame.c()[..3] == [false; 3]) {
                    (1..=4, _) => 1,
                    (6, true) => 3,
                    (6, _) if frame.c()[..3] == [false, false, true] => 4,
                    (6, _) if frame.c()[..3] == [false, true, false] => 5,
                    _ => 2,
                };
            }
            Item::Gap { start, length } => {
                rule(1, *start == position && *length > 0)?;
                let end = position + length;
                rule(1, end <= capture.n())?;
                rule(4, end == capture.n() || starts_run(end))?;
                rule(4, !(position..end).any(starts_run))?;
                let here = stands(capture, position);
                rule(4, !here.is_some_and(|frame| frame.follows(context)))?;
                position = end;
                context = 0;
            }
        }
    }
    match position == capture.n() {
        true => Ok(()),
        false => Err(format!("rule 1 is broken: the list ends at {position}")),
    }
}
