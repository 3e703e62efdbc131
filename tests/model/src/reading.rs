//! The reading from a cursor: items one after the other until n.

use crate::capture::Capture;
use crate::frame::{stands, Frame};

#[derive(Clone, Copy, Debug, PartialEq)]
pub struct Cursor {
    pub position: usize,
    pub context: u64,
}

#[derive(Clone, Debug, PartialEq)]
pub enum Item {
    Gap { start: usize, length: usize },
    Frame { frame: Frame, verdict: u8 },
}

impl Item {
    pub fn end(&self) -> usize {
        match self {
            Item::Gap { start, length } => start + length,
            Item::Frame { frame, .. } => frame.end(),
        }
    }

    pub fn kind(&self) -> usize {
        match self {
            Item::Gap { .. } => 0,
            Item::Frame { frame, .. } => frame.kind,
        }
    }

    /// The cursor behind the item.
    pub fn after(&self) -> Cursor {
        let context = match self {
            Item::Gap { .. } => 0,
            Item::Frame { frame, .. } => frame.context_after(),
        };
        Cursor {
            position: self.end(),
            context,
        }
    }
}

/// Items are found only when asked for.
pub struct Reading<'a> {
    capture: &'a Capture,
    cursor: Cursor,
}

pub fn reading(capture: &Capture, cursor: Cursor) -> Reading<'_> {
    Reading { capture, cursor }
}

impl Iterator for Reading<'_> {
    type Item = Item;

    fn next(&mut self) -> Option<Item> {
        if self.cursor.position == self.capture.n() {
            return None;
        }
        let item = self.frame_here().unwrap_or_else(|| self.gap_here());
        self.cursor = item.after();
        Some(item)
    }
}

impl Reading<'_> {
    fn frame_here(&self) -> Option<Item> {
        let context = self.cursor.context;
        let frame = stands(self.capture, self.cursor.position)?;
        let allowed = match context {
            0 => frame.starts_run(self.capture.terms.profile),
            _ => frame.follows(context),
        };
        let verdict = frame.verdict(self.capture.terms.profile, context);
        allowed.then_some(Item::Frame { frame, verdict })
    }

    fn gap_here(&self) -> Item {
        let start = self.cursor.position;
        let n = self.capture.n();
        let profile = self.capture.terms.profile;
        let starts =
            |p: &usize| stands(self.capture, *p).is_some_and(|frame| frame.starts_run(profile));
        let end = (start + 1..n).find(starts).unwrap_or(n);
        Item::Gap {
            start,
            length: end - start,
        }
    }
}
