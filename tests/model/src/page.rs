//! Paging: the refusals in their order, or the longest leading part of the reading that fits.

use crate::answer::Answer;
use crate::capture::{Capture, Terms, LONGEST};
use crate::frame::{stands, Frame};
use crate::reading::{reading, Cursor, Item};
use crate::record::record;

/// What a caller of paging gives; `buffer` is the lent buffer as it was before the call.
#[derive(Clone, Debug)]
pub struct Request {
    pub capture: Vec<u8>,
    pub n: u64,
    pub direction: u64,
    pub profile: u8,
    pub position: u64,
    pub context: u64,
    pub most: u64,
    pub buffer: Vec<u8>,
}

#[derive(Clone, Copy, Debug, PartialEq, Eq, PartialOrd, Ord)]
pub enum Cause {
    Direction,
    MostZero,
    CaptureTooLong,
    NTooLarge,
    CursorBeyondN,
    ContextAbove5,
    FirstDoesNotFit,
}

pub const CAUSES: [Cause; 7] = [
    Cause::Direction,
    Cause::MostZero,
    Cause::CaptureTooLong,
    Cause::NTooLarge,
    Cause::CursorBeyondN,
    Cause::ContextAbove5,
    Cause::FirstDoesNotFit,
];

impl Cause {
    pub fn number(self) -> u64 {
        match self {
            Cause::Direction | Cause::MostZero => 1,
            Cause::CaptureTooLong | Cause::NTooLarge => 2,
            Cause::CursorBeyondN | Cause::ContextAbove5 => 3,
            Cause::FirstDoesNotFit => 4,
        }
    }
}

/// A page: the answer, the buffer after the call, the items in it and every cause of a refusal.
pub struct Page {
    pub answer: Answer,
    pub buffer: Vec<u8>,
    pub items: Vec<Item>,
    pub causes: Vec<Cause>,
    /// The frame that stands at the cursor, an item or not.
    pub standing: Option<Frame>,
}

/// The causes that the numbers alone give.
fn causes(request: &Request) -> Vec<Cause> {
    let length = request.capture.len();
    let hold = [
        (Cause::Direction, request.direction > 1),
        (Cause::MostZero, request.most == 0),
        (Cause::CaptureTooLong, length > LONGEST),
        (Cause::NTooLarge, request.n > 8 * length as u64),
        (Cause::CursorBeyondN, request.position > request.n),
        (Cause::ContextAbove5, request.context > 5),
    ];
    let held = hold.iter().filter(|(_, holds)| *holds);
    held.map(|(cause, _)| *cause).collect()
}

pub fn page(request: &Request) -> Page {
    let causes = causes(request);
    if let Some(number) = causes.iter().map(|cause| cause.number()).min() {
        return refusal(request, number, causes);
    }
    let terms = Terms {
        direction: request.direction as usize,
        profile: request.profile,
    };
    let capture = Capture::new(&request.capture, request.n as usize, terms);
    page_of(request, &capture)
}

/// A page of a request that no number refuses, whose capture is unpacked already.
pub fn page_of(request: &Request, capture: &Capture) -> Page {
    let mut cursor = Cursor {
        position: request.position as usize,
        context: request.context,
    };
    let mut written = Vec::new();
    let mut items = Vec::new();
    for item in reading(capture, cursor) {
        if items.len() as u64 == request.most {
            break;
        }
        let record = record(&item);
        if written.len() + record.len() > request.buffer.len() {
            if items.is_empty() {
                return refusal(request, 4, vec![Cause::FirstDoesNotFit]);
            }
            break;
        }
        written.extend(record);
        cursor = item.after();
        items.push(item);
    }
    let mut buffer = request.buffer.clone();
    buffer[..written.len()].copy_from_slice(&written);
    let answer = Answer {
        number: 0,
        index: 0,
        items: items.len() as u64,
        bytes: written.len() as u64,
        position: cursor.position as u64,
        context: cursor.context,
    };
    Page {
        answer,
        buffer,
        items,
        causes: Vec::new(),
        standing: stands(capture, request.position as usize),
    }
}

fn refusal(request: &Request, number: u64, causes: Vec<Cause>) -> Page {
    Page {
        answer: Answer::refusal(number, 0, request.position, request.context),
        buffer: request.buffer.clone(),
        items: Vec::new(),
        causes,
        standing: None,
    }
}
