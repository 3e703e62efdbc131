//! Writing: the refusals in their order, or body and tail of each record in the buffer.

use crate::answer::Answer;
use crate::capture::{pack, unpack, Terms, LONGEST};
use crate::causes::{first, held, Cause};
use crate::fields::{length, Fields};
use crate::frame::Frame;
use crate::judge::judge;
use crate::reading::Cursor;

/// What a caller of writing gives; `buffer` is the lent buffer as it was before the call.
#[derive(Clone, Debug)]
pub struct Request {
    pub records: Vec<u8>,
    pub direction: u64,
    pub profile: u8,
    pub position: u64,
    pub context: u64,
    pub buffer: Vec<u8>,
}

impl Request {
    /// The terms of a request whose direction there is.
    pub fn terms(&self) -> Terms {
        Terms {
            direction: self.direction as usize,
            profile: self.profile,
        }
    }
}

/// What writing does: the answer, the buffer after the call, the frames written, each with the
/// context that it stands in, and every cause of a refusal.
pub struct Written {
    pub answer: Answer,
    pub buffer: Vec<u8>,
    pub frames: Vec<(Frame, u64)>,
    pub causes: Vec<Cause>,
}

/// The most bytes of records.
pub const MOST: usize = 65_536;

/// The causes that the numbers alone give.
fn causes(request: &Request) -> Vec<Cause> {
    let bits = 8 * request.buffer.len() as u64;
    held(&[
        (Cause::Direction, request.direction > 1),
        (Cause::RecordsTooLong, request.records.len() > MOST),
        (Cause::BufferTooLong, request.buffer.len() > LONGEST),
        (Cause::CursorBeyondBuffer, request.position > bits),
        (Cause::ContextAbove5, request.context > 5),
    ])
}

pub fn write(request: &Request) -> Written {
    let causes = causes(request);
    if !causes.is_empty() {
        return refusal(request, 0, causes);
    }
    let terms = request.terms();
    let mut cursor = Cursor {
        position: request.position as usize,
        context: request.context,
    };
    let mut bits = unpack(&request.buffer);
    let mut frames = Vec::new();
    let mut rest = &request.records[..];
    while !rest.is_empty() {
        let causes = judge(rest, terms, cursor, bits.len());
        if !causes.is_empty() {
            return refusal(request, frames.len() as u64, causes);
        }
        let frame = Fields::of(rest).frame();
        put(&mut bits, &frame);
        rest = &rest[length(frame.kind)..];
        let context = cursor.context;
        cursor = Cursor {
            position: frame.end(),
            context: frame.context_after(),
        };
        frames.push((frame, context));
    }
    let answer = Answer {
        number: 0,
        index: 0,
        items: frames.len() as u64,
        bytes: 0,
        position: cursor.position as u64,
        context: cursor.context,
    };
    Written {
        answer,
        buffer: pack(&bits),
        frames,
        causes: Vec::new(),
    }
}

fn put(bits: &mut [bool], frame: &Frame) {
    let tail = frame.start + frame.body.len();
    bits[frame.start..tail].copy_from_slice(&frame.body);
    bits[tail..frame.end()].fill(true);
}

fn refusal(request: &Request, index: u64, causes: Vec<Cause>) -> Written {
    let number = first(&causes).expect("a cause");
    Written {
        answer: Answer::refusal(number, index, request.position, request.context),
        buffer: request.buffer.clone(),
        frames: Vec::new(),
        causes,
    }
}
