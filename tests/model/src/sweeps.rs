//! Sweeps: a record that is due, and requests with every value of one of its fields.

use crate::capture::Terms;
use crate::rng::Rng;
use crate::spoil::{mend_verdict, set_four};
use crate::stretches::Stretch;
use crate::write::Request;

/// What is swept. Control, extended and contexts with the verdict that is then due.
#[derive(Clone, Copy)]
enum Field {
    Kind,
    Control,
    Extended,
    Verdict,
    Bit,
    Length,
    Tail,
    Cursor,
    Profile,
}

const FIELDS: [Field; 9] = [
    Field::Kind,
    Field::Control,
    Field::Extended,
    Field::Verdict,
    Field::Bit,
    Field::Length,
    Field::Tail,
    Field::Cursor,
    Field::Profile,
];

/// One sweep for each kind, direction and field.
pub const SWEEPS: usize = 8 * 2 * FIELDS.len();

/// The requests of a sweep, whose number is below `SWEEPS`.
pub fn sweep(rng: &mut Rng, index: usize) -> Vec<Request> {
    let field = FIELDS[index % FIELDS.len()];
    let kind_and_direction = index / FIELDS.len();
    let terms = Terms {
        direction: kind_and_direction / 8,
        profile: rng.draw() as u8,
    };
    let stretch = Stretch::single(rng, 1 + kind_and_direction % 8, terms);
    let whole = Request {
        buffer: vec![rng.draw() as u8; stretch.to.position.div_ceil(8) + rng.below(2)],
        ..stretch.lend(rng)
    };
    let with = |change: &dyn Fn(&mut Request)| {
        let mut request = whole.clone();
        change(&mut request);
        request
    };
    let byte = |at: usize| (0..=255).map(move |value| (at, value));
    let set = |(at, value)| with(&|request| request.records[at] = value);
    let set_and_mend = |(at, value)| {
        with(&|request| {
            request.records[at] = value;
            mend_verdict(&mut request.records, request.profile, request.context);
        })
    };
    match field {
        Field::Kind => byte(0).map(set).collect(),
        Field::Control => byte(9).map(set_and_mend).collect(),
        Field::Extended => byte(10).map(set_and_mend).collect(),
        Field::Verdict => byte(11).map(set).collect(),
        Field::Bit => (0..8 * whole.records.len())
            .map(|i| with(&|request| request.records[i / 8] ^= 0x80 >> (i % 8)))
            .collect(),
        Field::Length => (0..whole.records.len())
            .map(|length| with(&|request| request.records.truncate(length)))
            .collect(),
        Field::Tail => (0..16)
            .chain((4..32).map(|power| 1 << power))
            .chain([u32::MAX as usize - 1, u32::MAX as usize])
            .map(|tail| with(&|request| set_four(&mut request.records, 5, tail)))
            .collect(),
        Field::Cursor => (0..8)
            .flat_map(|context| (0..5).map(move |step| (context, step)))
            .map(|(context, step)| {
                with(&|request| {
                    request.position = (request.position + step).saturating_sub(2);
                    request.context = context;
                    mend_verdict(&mut request.records, request.profile, context);
                })
            })
            .collect(),
        Field::Profile => (0..=255)
            .map(|profile| with(&|request| request.profile = profile))
            .collect(),
    }
}
