//! What the listing program and the C example have to print of a capture file: one byte of
//! direction, then the channel's bits.

use crate::capture::{Capture, Terms, LONGEST, UPLINK};
use crate::kinds::kind;
use crate::reading::{reading, Cursor, Item};
use crate::record::record;

const NAMES: [&str; 8] = [
    "1 HR speech",
    "2 data",
    "3 O&M",
    "4 configuration",
    "5 No_Speech",
    "6 lower speech",
    "7 6,70",
    "8 7,40",
];

/// The capture of a file, read by a profile, or the number that refuses it.
fn capture(file: &[u8], profile: u8) -> Result<Capture, u8> {
    match file.split_first() {
        Some((0 | 1, bits)) if bits.len() > LONGEST => Err(2),
        Some((&direction @ (0 | 1), bits)) => {
            let direction = direction as usize;
            let terms = Terms { direction, profile };
            Ok(Capture::new(bits, 8 * bits.len(), terms))
        }
        _ => Err(1),
    }
}

fn items(capture: &Capture) -> Vec<Item> {
    let start = Cursor {
        position: 0,
        context: 0,
    };
    reading(capture, start).collect()
}

/// The listing: a line for each item, or for the refusal.
pub fn list(file: &[u8]) -> String {
    let line = |item: &Item| match item {
        Item::Gap { start, length } => format!("G {start} {length}\n"),
        Item::Frame { frame, verdict } => {
            let (kind, start, tail) = (frame.kind, frame.start, frame.tail);
            format!("F {kind} {start} {tail} {verdict}\n")
        }
    };
    match capture(file, 0) {
        Ok(capture) => items(&capture).iter().map(line).collect(),
        Err(number) => format!("R {number}\n"),
    }
}

/// The CSV: a heading, and a line for each record.
pub fn csv(file: &[u8], profile: u8) -> Result<String, u8> {
    let mut text = String::from("kind,start,tail,control,extended,verdict,D\n");
    for item in items(&capture(file, profile)?) {
        match &item {
            Item::Gap { start, length } => text += &format!("0,{start},{length},,,,\n"),
            Item::Frame { frame, verdict } => {
                let bytes = record(&item);
                let d: String = bytes[12..].iter().map(|b| format!("{b:02x}")).collect();
                let (kind, start, tail) = (frame.kind, frame.start, frame.tail);
                let (control, extended) = (bytes[9], bytes[10]);
                text += &format!("{kind},{start},{tail},{control},{extended},{verdict},{d}\n");
            }
        }
    }
    Ok(text)
}

/// Frames, right, wrong, unchecked, slipped, dropped, added.
type Counts = [usize; 7];

fn count(item: &Item) -> Counts {
    let Item::Frame { frame, verdict } = item else {
        return [0; 7];
    };
    let usual = kind(frame.kind).usual_tail;
    let checked = !(2..=4).contains(&frame.kind) && verdict & 0x80 == 0;
    [
        1,
        usize::from(checked && verdict & 0x0F == 0),
        usize::from(checked && verdict & 0x0F != 0),
        usize::from(verdict & 0x80 != 0),
        usize::from(frame.tail != usual),
        usual.saturating_sub(frame.tail),
        frame.tail.saturating_sub(usual),
    ]
}

fn sum<'a>(items: impl Iterator<Item = &'a Item>) -> Counts {
    items.map(count).fold([0; 7], |mut sum, counts| {
        sum.iter_mut().zip(counts).for_each(|(s, c)| *s += c);
        sum
    })
}

fn row(name: &str, counts: Counts, has_check: bool) -> String {
    let widths = [8, 8, 8, 11, 9, 9, 7];
    let mut row = format!("{name:<16}");
    for (column, (count, width)) in counts.iter().zip(widths).enumerate() {
        match column {
            1..=3 if !has_check => row += &format!("{:>width$}", "-"),
            _ => row += &format!("{count:>width$}"),
        }
    }
    row + "\n"
}

/// The summary: items and their bits, and the counts of each kind.
pub fn summary(file: &[u8], profile: u8) -> Result<String, u8> {
    let capture = capture(file, profile)?;
    let items = items(&capture);
    let n = capture.n();
    let gaps: Vec<usize> = items.iter().filter_map(gap_length).collect();
    let gap_bits: usize = gaps.iter().sum();
    let all = sum(items.iter());
    let direction = match capture.terms.direction {
        UPLINK => "uplink",
        _ => "downlink",
    };
    let mut text = format!("{direction}, {n} bits\n");
    text += &format!("frames: {} in {} bits\n", all[0], n - gap_bits);
    text += &format!("gaps: {} in {gap_bits} bits\n\n", gaps.len());
    text += "kind              frames   right   wrong  unchecked  slipped  dropped  added\n";
    for (i, name) in NAMES.iter().enumerate() {
        let of_kind = items.iter().filter(|item| item.kind() == i + 1);
        text += &row(name, sum(of_kind), !(2..=4).contains(&(i + 1)));
    }
    Ok(text + &row("all", all, true))
}

fn gap_length(item: &Item) -> Option<usize> {
    match item {
        Item::Gap { length, .. } => Some(*length),
        Item::Frame { .. } => None,
    }
}
