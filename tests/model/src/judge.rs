//! One record judged for writing, cause by cause.

use crate::capture::{Terms, DOWNLINK, UPLINK};
use crate::causes::{held, Cause};
use crate::fields::{length, Fields};
use crate::frame::Frame;
use crate::kinds::kind;
use crate::reading::Cursor;

/// The bytes of a gap's record.
const GAP: usize = 9;

/// Every cause that the record at the head of `rest` gives at a cursor, in a buffer of so many
/// bits. The causes of all three numbers are found, so that their order can be tried.
pub fn judge(rest: &[u8], terms: Terms, cursor: Cursor, bits: usize) -> Vec<Cause> {
    let causes = no_whole_record(rest);
    if !causes.is_empty() {
        return causes;
    }
    let fields = Fields::of(rest);
    let frame = fields.frame();
    [
        unsound(&fields, terms.direction),
        not_due(&fields, &frame, terms.profile, cursor),
        past_buffer(&frame, bits),
    ]
    .concat()
}

/// 5: unknown kind, gap, record cut short.
fn no_whole_record(rest: &[u8]) -> Vec<Cause> {
    match rest[0] {
        0 => held(&[
            (Cause::Gap, rest.len() >= GAP),
            (Cause::GapCutShort, rest.len() < GAP),
        ]),
        number @ 1..=8 => {
            let whole = length(number as usize);
            held(&[
                (Cause::KindByteOnly, rest.len() == 1),
                (Cause::CutInTheMiddle, (2..whole - 1).contains(&rest.len())),
                (Cause::OneByteShort, rest.len() == whole - 1),
            ])
        }
        _ => vec![Cause::UnknownKind],
    }
}

/// 5: a bit set that must be zero, control or extended no coding, tail below the least.
fn unsound(fields: &Fields, direction: usize) -> Vec<Cause> {
    let number = fields.kind;
    let c1_to_c3 = fields.control >> 5;
    let c4 = fields.control & 0x10 != 0;
    let c5_of_low = fields.control & 0x08 != 0;
    let xc = fields.extended >> 3;
    let zeros_of_control = match number {
        1 => 0x00,
        2..=4 => 0x0F,
        5 | 6 => 0x07,
        _ => 0x1F,
    };
    let zeros_of_extended = match number {
        1 => 0x00,
        3 => 0x07,
        _ => 0xFF,
    };
    let stray_control = fields.control & zeros_of_control != 0;
    let stray_extended = fields.extended & zeros_of_extended != 0;
    let types: &[u8] = match number {
        1 => &[0b000],
        2 => &[0b001],
        3 => &[0b010],
        4 => &[0b111],
        5 => &[0b100, 0b101],
        _ => &[0, 1, 2, 3, 4, 5, 6, 7],
    };
    let up = direction == UPLINK;
    let down = direction == DOWNLINK;
    let speech_up = matches!(xc, 0..=3 | 8..=15);
    let speech_down = matches!(xc, 0 | 2);
    let least = kind(number).least_tail[direction];
    held(&[
        (Cause::StrayControlBit, stray_control),
        (Cause::StrayExtendedBit, stray_extended),
        (Cause::StrayPaddingBit, fields.padding.contains(&true)),
        (Cause::TypeOfAnotherKind, !types.contains(&c1_to_c3)),
        (Cause::C4ZeroInUplink, number <= 4 && up && !c4),
        (Cause::NoSpeechWithC4OrC5, number == 5 && (c4 || c5_of_low)),
        (Cause::LowerWithoutC4AndC5, number == 6 && !c4 && !c5_of_low),
        (Cause::XcOfNoSpeechUp, number == 1 && up && !speech_up),
        (Cause::XcOfNoSpeechDown, number == 1 && down && !speech_down),
        (Cause::XcOfNoOm, number == 3 && xc != 31),
        (Cause::TailBelowLeast, fields.tail < least),
    ])
}

/// 6: start, verdict, rule 2.
fn not_due(fields: &Fields, frame: &Frame, profile: u8, cursor: Cursor) -> Vec<Cause> {
    let number = fields.kind;
    let searching = cursor.context == 0;
    let wrong = frame.wrong_crcs(profile, 0).contains(&true);
    let unchecked_6 = number == 6 && frame.unchecked(profile, 0);
    let verdict = frame.verdict(profile, cursor.context);
    held(&[
        (Cause::Start, fields.start != cursor.position),
        (Cause::Verdict, fields.verdict != verdict),
        (Cause::WrongCrcInContext0, searching && wrong),
        (Cause::Unchecked6InContext0, searching && unchecked_6),
        (Cause::Kind8InContext0, searching && number == 8),
        (Cause::Kind8InContext1, cursor.context == 1 && number == 8),
    ])
}

/// 4: the frame would end past the buffer. From 2^32 on a sum of 32 bits would have wrapped.
fn past_buffer(frame: &Frame, bits: usize) -> Vec<Cause> {
    let body_past = frame.start + frame.body.len() > bits;
    let tail_past = !body_past && frame.end() > bits;
    let huge = frame.end() >= 1 << 32;
    held(&[
        (Cause::BodyPastBuffer, body_past),
        (Cause::TailPastBuffer, tail_past && !huge),
        (Cause::HugeTailPastBuffer, tail_past && huge),
    ])
}
