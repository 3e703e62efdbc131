//! Every cause for which writing refuses, with the number that it gives.

#[derive(Clone, Copy, Debug, PartialEq, Eq)]
pub enum Cause {
    Direction,
    RecordsTooLong,
    BufferTooLong,
    CursorBeyondBuffer,
    ContextAbove5,
    UnknownKind,
    Gap,
    GapCutShort,
    KindByteOnly,
    CutInTheMiddle,
    OneByteShort,
    StrayControlBit,
    StrayExtendedBit,
    StrayPaddingBit,
    TypeOfAnotherKind,
    C4ZeroInUplink,
    NoSpeechWithC4OrC5,
    LowerWithoutC4AndC5,
    XcOfNoSpeechUp,
    XcOfNoSpeechDown,
    XcOfNoOm,
    TailBelowLeast,
    Start,
    Verdict,
    WrongCrcInContext0,
    Unchecked6InContext0,
    Kind8InContext0,
    Kind8InContext1,
    BodyPastBuffer,
    TailPastBuffer,
    HugeTailPastBuffer,
}

pub const CAUSES: [(Cause, u64); 31] = [
    (Cause::Direction, 1),
    (Cause::RecordsTooLong, 1),
    (Cause::BufferTooLong, 2),
    (Cause::CursorBeyondBuffer, 3),
    (Cause::ContextAbove5, 3),
    (Cause::UnknownKind, 5),
    (Cause::Gap, 5),
    (Cause::GapCutShort, 5),
    (Cause::KindByteOnly, 5),
    (Cause::CutInTheMiddle, 5),
    (Cause::OneByteShort, 5),
    (Cause::StrayControlBit, 5),
    (Cause::StrayExtendedBit, 5),
    (Cause::StrayPaddingBit, 5),
    (Cause::TypeOfAnotherKind, 5),
    (Cause::C4ZeroInUplink, 5),
    (Cause::NoSpeechWithC4OrC5, 5),
    (Cause::LowerWithoutC4AndC5, 5),
    (Cause::XcOfNoSpeechUp, 5),
    (Cause::XcOfNoSpeechDown, 5),
    (Cause::XcOfNoOm, 5),
    (Cause::TailBelowLeast, 5),
    (Cause::Start, 6),
    (Cause::Verdict, 6),
    (Cause::WrongCrcInContext0, 6),
    (Cause::Unchecked6InContext0, 6),
    (Cause::Kind8InContext0, 6),
    (Cause::Kind8InContext1, 6),
    (Cause::BodyPastBuffer, 4),
    (Cause::TailPastBuffer, 4),
    (Cause::HugeTailPastBuffer, 4),
];

/// The numbers in the order in which they decide. The last three are judged record by record.
pub const ORDER: [u64; 6] = [1, 2, 3, 5, 6, 4];

impl Cause {
    pub fn number(self) -> u64 {
        let found = CAUSES.iter().find(|(cause, _)| *cause == self);
        found.expect("a cause of the table").1
    }
}

/// The causes that hold.
pub fn held(list: &[(Cause, bool)]) -> Vec<Cause> {
    let held = list.iter().filter(|(_, holds)| *holds);
    held.map(|(cause, _)| *cause).collect()
}

/// The number that decides among causes, if there is one.
pub fn first(causes: &[Cause]) -> Option<u64> {
    let given = |number: &u64| causes.iter().any(|cause| cause.number() == *number);
    ORDER.into_iter().find(given)
}
