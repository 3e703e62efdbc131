//! Captures that grow: more bits behind n leave all items of a reading but its last as they are.

use crate::frame::Frame;
use crate::reading::Item;

/// What becomes of the last item of a reading when more bits come.
#[derive(Clone, Copy, Debug, PartialEq, Eq, PartialOrd, Ord)]
pub enum Change {
    TailGoesOn,
    GapGoesOn,
    /// What was taken for a gap is a frame from its first place on.
    GapBeginsWithFrame,
    /// A frame starts a run inside of what was taken for a gap.
    GapEndsEarlier,
    Stays,
}

pub const CHANGES: [Change; 5] = [
    Change::TailGoesOn,
    Change::GapGoesOn,
    Change::GapBeginsWithFrame,
    Change::GapEndsEarlier,
    Change::Stays,
];

/// How the last item of a reading became `new`, the item of the grown reading from the same cursor.
/// All but the five ways is an error.
pub fn change(last: &Item, new: &Item) -> Result<Change, String> {
    let longer = new.end() > last.end();
    match (last, new) {
        _ if last == new => Ok(Change::Stays),
        (Item::Frame { frame, .. }, _) if longer && *last == with_tail(new, frame.tail) => {
            Ok(Change::TailGoesOn)
        }
        (Item::Gap { start: p, .. }, Item::Gap { start: q, .. }) if p == q => match longer {
            true => Ok(Change::GapGoesOn),
            false => Ok(Change::GapEndsEarlier),
        },
        // The frame did not stand before the new bits came, so it takes some of them.
        (Item::Gap { start, .. }, Item::Frame { frame, .. }) if frame.start == *start && longer => {
            Ok(Change::GapBeginsWithFrame)
        }
        _ => Err(format!("the last item, {last:?}, became {new:?}")),
    }
}

/// A frame's item with another tail.
fn with_tail(item: &Item, tail: usize) -> Item {
    match item.clone() {
        Item::Frame { frame, verdict } => Item::Frame {
            frame: Frame { tail, ..frame },
            verdict,
        },
        gap => gap,
    }
}

/// The law: all items of the old reading but its last are the first items of the new one. Gives
/// what became of the last; nothing where there was no item.
pub fn law(old: &[Item], new: &[Item]) -> Result<Option<Change>, String> {
    let Some((last, settled)) = old.split_last() else {
        return Ok(None);
    };
    if !new.starts_with(settled) {
        return Err(format!("an item before {last:?} changed"));
    }
    let rest = &new[settled.len()..];
    let first = rest.first().ok_or_else(|| format!("{last:?} vanished"))?;
    let change = change(last, first)?;
    // Behind a gap that ends earlier is a frame that takes new bits too.
    let takes_new = |item: &Item| item.kind() != 0 && item.end() > last.end();
    match change != Change::GapEndsEarlier || rest.get(1).is_some_and(takes_new) {
        true => Ok(Some(change)),
        false => Err(format!("{last:?} ended earlier, at {:?}", rest.get(1))),
    }
}
