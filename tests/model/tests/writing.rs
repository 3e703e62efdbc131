//! Writing: the examples of the specification written back, and each cause of a refusal once.

use model::answer::Answer;
use model::capture::{Capture, Terms, DOWNLINK, UPLINK};
use model::causes::{Cause, CAUSES};
use model::inverse::check;
use model::kinds::kind;
use model::reading::{reading, Cursor};
use model::record::record;
use model::write::{write, Request, Written};

fn h() -> Vec<u8> {
    let mut h = vec![0x00, 0x88, 0x44];
    h.extend([0x80; 6]);
    h.push(0xF0);
    h.extend([0x80; 9]);
    h.push(0xBF);
    h
}

fn seven_z() -> Vec<u8> {
    let mut bytes = vec![0x00, 0x80, 0x90, 0x80, 0x80, 0x00, 0x80, 0x00, 0x80, 0x60];
    bytes.extend([0x80, 0x00].repeat(5));
    bytes.extend([0x20, 0x00, 0x80]);
    bytes.extend([0; 17]);
    bytes
}

/// The records of a capture's reading from a position in context 0.
fn records(bytes: &[u8], position: usize, n: usize, direction: usize) -> Vec<u8> {
    let capture = Capture::new(bytes, n, Terms::of(direction));
    let cursor = Cursor {
        position,
        context: 0,
    };
    let items = reading(&capture, cursor);
    items.flat_map(|item| record(&item)).collect()
}

fn request(records: Vec<u8>, direction: usize, position: u64, buffer: Vec<u8>) -> Request {
    Request {
        records,
        direction: direction as u64,
        profile: 0,
        position,
        context: 0,
        buffer,
    }
}

fn taken(items: u64, position: u64, context: u64) -> Answer {
    Answer {
        number: 0,
        index: 0,
        items,
        bytes: 0,
        position,
        context,
    }
}

/// Writing, held against the model's reading.
fn checked(request: &Request) -> Written {
    let written = write(request);
    assert_eq!(check(request, &written), Ok(()));
    written
}

#[test]
fn h_written_back() {
    for direction in [UPLINK, DOWNLINK] {
        let h = h();
        let mut bytes = records(&h, 0, 160, DOWNLINK);
        assert_eq!(bytes.len(), 26);
        let written = checked(&request(bytes.clone(), direction, 0, vec![0xEE; 20]));
        assert_eq!(written.answer, taken(1, 160, 1));
        assert_eq!(written.buffer, h);
        // One bit less of tail: only the last bit keeps its value.
        bytes[8] = 1;
        let written = checked(&request(bytes, direction, 0, vec![0xEE; 20]));
        assert_eq!(written.answer, taken(1, 159, 1));
        assert_eq!(written.buffer, [&h[..19], &[0xBE]].concat());
    }
}

#[test]
fn p8_and_p9_written_back() {
    let ff_h = [vec![0xFF], h()].concat();
    let bytes = records(&ff_h, 8, 168, DOWNLINK);
    let written = checked(&request(bytes.clone(), DOWNLINK, 8, vec![0xFF; 21]));
    assert_eq!(written.answer, taken(1, 168, 1));
    assert_eq!(written.buffer, ff_h);
    let written = checked(&request(bytes, DOWNLINK, 8, vec![0; 22]));
    assert_eq!(written.buffer, [vec![0], h(), vec![0]].concat());
    let bytes = records(&ff_h, 8, 166, DOWNLINK);
    let written = checked(&request(bytes.clone(), DOWNLINK, 8, vec![0; 21]));
    assert_eq!(written.answer, taken(1, 166, 1));
    assert_eq!(
        written.buffer,
        [vec![0], h()[..19].to_vec(), vec![0xBC]].concat()
    );
    // P10: in uplink a tail of 0 is below the least.
    let refused = checked(&request(bytes, UPLINK, 8, vec![0; 21]));
    assert_eq!(refused.causes, [Cause::TailBelowLeast]);
}

#[test]
fn p12_written_back() {
    let seven_z = seven_z();
    for direction in [UPLINK, DOWNLINK] {
        let bytes = records(&seven_z, 0, 320, direction);
        assert_eq!(bytes.len(), 30 + 31);
        let written = checked(&request(bytes.clone(), direction, 0, vec![0xFF; 40]));
        assert_eq!(written.answer, taken(2, 320, 2));
        assert_eq!(written.buffer, seven_z);
        // P11: Z alone starts no run.
        let mut alone = bytes[30..].to_vec();
        alone[3..5].fill(0);
        let refused = checked(&request(alone, direction, 0, vec![0xFF; 40]));
        assert_eq!(refused.answer, Answer::refusal(6, 0, 0, 0));
    }
}

#[test]
fn h_then_z_has_a_gap() {
    let h_z = [h(), seven_z()[20..].to_vec()].concat();
    let bytes = records(&h_z, 0, 320, DOWNLINK);
    let refused = checked(&request(bytes, DOWNLINK, 0, vec![0xEE; 40]));
    assert_eq!(refused.answer, Answer::refusal(5, 1, 0, 0));
    assert_eq!(refused.causes, [Cause::Gap]);
    assert_eq!(refused.buffer, [0xEE; 40]);
}

#[test]
fn no_records() {
    for (position, length) in [(0, 0), (0, 3), (24, 3)] {
        let mut nothing = request(Vec::new(), UPLINK, position, vec![0xEE; length]);
        nothing.context = 4;
        let written = checked(&nothing);
        assert_eq!(written.answer, taken(0, position, 4));
        assert_eq!(written.buffer, vec![0xEE; length]);
    }
}

/// A record of a kind at position 0 with a tail of 2 and D bits of zero.
fn fields(number: u8, control: u8, extended: u8, verdict: u8) -> Vec<u8> {
    let d_bytes = kind(number as usize).d.len().div_ceil(8);
    let head = [number, 0, 0, 0, 0, 0, 0, 0, 2, control, extended, verdict];
    [&head[..], &vec![0; d_bytes]].concat()
}

/// What P6 and P7 say of C5 and XC6, in the bits written.
#[test]
fn parities() {
    let bit = |record: Vec<u8>, octet: usize, bit: usize| {
        let mut request = request(record, DOWNLINK, 0, vec![0xEE; 21]);
        request.context = 1;
        let written = checked(&request);
        assert_eq!(written.answer.number, 0);
        written.buffer[octet - 1] >> (8 - bit) & 1
    };
    assert_eq!(bit(fields(1, 0x10, 0x07, 0), 2, 6), 0);
    assert_eq!(bit(fields(4, 0xF0, 0, 0), 2, 6), 1);
    assert_eq!(bit(fields(1, 0x10, 0x07, 0), 3, 6), 1);
    assert_eq!(bit(fields(3, 0x50, 0xF8, 0), 3, 6), 0);
}

/// Two frames that are due: H, then a kind 6 that names no mode.
fn two() -> Request {
    let mut lower = fields(6, 0x78, 0, 0x80);
    lower[4] = 160;
    let records = [records(&h(), 0, 160, DOWNLINK), lower].concat();
    request(records, DOWNLINK, 0, vec![0xEE; 41])
}

/// One record from a context, into a buffer that is long enough.
fn one(record: Vec<u8>, direction: usize, context: u64) -> Request {
    let mut request = request(record, direction, 0, vec![0xEE; 21]);
    request.context = context;
    request
}

/// Two frames of which something is changed.
fn but(change: &dyn Fn(&mut Request)) -> Request {
    let mut request = two();
    change(&mut request);
    request
}

/// For each cause a request that it alone refuses, and the index of the record.
fn refused_by(cause: Cause) -> (Request, u64) {
    let second = 26;
    match cause {
        Cause::Direction => (but(&|r| r.direction = 2), 0),
        Cause::RecordsTooLong => (but(&|r| r.records.resize(65_537, 0)), 0),
        Cause::BufferTooLong => (but(&|r| r.buffer.resize(65_537, 0)), 0),
        Cause::CursorBeyondBuffer => (but(&|r| r.position = 8 * 41 + 1), 0),
        Cause::ContextAbove5 => (but(&|r| r.context = 6), 0),
        Cause::UnknownKind => (but(&|r| r.records[second] = 9), 1),
        Cause::Gap => (but(&|r| r.records[second] = 0), 1),
        Cause::GapCutShort => (but(&|r| r.records.extend([0; 8])), 2),
        Cause::KindByteOnly => (but(&|r| r.records.truncate(second + 1)), 1),
        Cause::CutInTheMiddle => (but(&|r| r.records.truncate(second + 20)), 1),
        Cause::OneByteShort => (but(&|r| r.records.truncate(second + 27)), 1),
        Cause::StrayControlBit => (but(&|r| r.records[second + 9] |= 1), 1),
        Cause::StrayExtendedBit => (but(&|r| r.records[second + 10] |= 1), 1),
        Cause::StrayPaddingBit => (but(&|r| r.records[second + 27] |= 1), 1),
        Cause::TypeOfAnotherKind => (one(fields(2, 0x50, 0, 0), DOWNLINK, 0), 0),
        Cause::C4ZeroInUplink => (one(fields(2, 0x20, 0, 0), UPLINK, 0), 0),
        Cause::NoSpeechWithC4OrC5 => (one(fields(5, 0x88, 0, 0x80), UPLINK, 0), 0),
        Cause::LowerWithoutC4AndC5 => (one(fields(6, 0x60, 0, 0x80), UPLINK, 1), 0),
        Cause::XcOfNoSpeechUp => (one(fields(1, 0x10, 4 << 3 | 7, 0), UPLINK, 0), 0),
        Cause::XcOfNoSpeechDown => (one(fields(1, 0, 1 << 3 | 7, 0), DOWNLINK, 0), 0),
        Cause::XcOfNoOm => (one(fields(3, 0x50, 30 << 3, 0), UPLINK, 0), 0),
        Cause::TailBelowLeast => {
            let mut record = fields(4, 0xF0, 0, 0);
            record[8] = 1;
            (one(record, UPLINK, 0), 0)
        }
        Cause::Start => (but(&|r| r.records[second + 4] = 161), 1),
        Cause::Verdict => (but(&|r| r.records[second + 11] = 0xC0), 1),
        Cause::WrongCrcInContext0 => (one(fields(1, 0x10, 0, 1), UPLINK, 0), 0),
        Cause::Unchecked6InContext0 => (one(fields(6, 0x78, 0, 0x80), UPLINK, 0), 0),
        Cause::Kind8InContext0 => {
            // CRC1 right: D59 to D61.
            let mut record = fields(8, 0, 0, 0);
            record[12 + 7] = 0x38;
            (one(record, UPLINK, 0), 0)
        }
        Cause::Kind8InContext1 => (one(fields(8, 0, 0, 1), UPLINK, 1), 0),
        Cause::BodyPastBuffer => (but(&|r| r.buffer.truncate(39)), 1),
        Cause::TailPastBuffer => (but(&|r| r.buffer.truncate(40)), 1),
        Cause::HugeTailPastBuffer => (but(&|r| r.records[second + 5..second + 9].fill(255)), 1),
    }
}

#[test]
fn each_cause_alone() {
    assert_eq!(checked(&two()).answer, taken(2, 160 + 159 + 2, 2));
    for (cause, number) in CAUSES {
        let (request, index) = refused_by(cause);
        let refused = checked(&request);
        assert_eq!(refused.causes, [cause]);
        let (position, context) = (request.position, request.context);
        let answer = Answer::refusal(number, index, position, context);
        assert_eq!(refused.answer, answer, "{cause:?}");
        assert_eq!(refused.buffer, request.buffer);
    }
}

#[test]
fn the_first_that_fails_decides() {
    let number = |change: &dyn Fn(&mut Request)| {
        let answer = checked(&but(change)).answer;
        (answer.number, answer.index)
    };
    // 1, 2, 3 before all records.
    let too_long = |r: &mut Request| r.buffer.resize(65_537, 0);
    assert_eq!(number(&|r| (r.direction, r.context) = (2, 6)), (1, 0));
    assert_eq!(number(&|r| (too_long(r), r.direction = 2).0), (1, 0));
    assert_eq!(number(&|r| (too_long(r), r.context = 6).0), (2, 0));
    assert_eq!(number(&|r| (r.records[0], r.context) = (9, 6)), (3, 0));
    // In a record 5, 6, 4.
    assert_eq!(
        number(&|r| (r.records[9], r.records[11]) = (0x3F, 1)),
        (5, 0)
    );
    assert_eq!(number(&|r| (r.records[11], r.buffer) = (1, vec![])), (6, 0));
    assert_eq!(
        number(&|r| (r.records[9], r.buffer) = (0x3F, vec![])),
        (5, 0)
    );
    // Record by record: what a later one has does not matter.
    assert_eq!(
        number(&|r| (r.records[26], r.buffer) = (9, vec![0; 19])),
        (4, 0)
    );
    assert_eq!(number(&|r| (r.records[26], r.records[11]) = (9, 1)), (6, 0));
    assert_eq!(number(&|r| (r.records[0], r.records[26]) = (9, 9)), (5, 0));
}
