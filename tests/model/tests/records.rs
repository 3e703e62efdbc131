//! Records of every kind, direction, coding and context, written by brute force.

use model::capture::{Terms, DOWNLINK, UPLINK};
use model::fields::Fields;
use model::inverse::{check, named};
use model::judge::judge;
use model::reading::Cursor;
use model::rng::Rng;
use model::spoil::{nonsense, spoil};
use model::stretches::Stretch;
use model::sweeps::{sweep, SWEEPS};
use model::write::write;

/// Whether a record is sound: exactly where some frame has it, which the fields then name.
fn sound(record: &[u8], direction: usize, cursor: Cursor) -> bool {
    let causes = judge(record, Terms::of(direction), cursor, 1 << 40);
    let sound = causes.iter().all(|cause| cause.number() != 5);
    let frame = named(record, direction).map(|found| found.0);
    assert_eq!(sound, frame.is_some(), "{record:?}");
    if sound {
        assert_eq!(Some(Fields::of(record).frame()), frame);
    }
    sound
}

#[test]
fn every_control_and_extended() {
    let rng = &mut Rng::new(2, 1);
    let mut controls = Vec::new();
    let mut extended = Vec::new();
    for number in 1..=8 {
        for direction in [UPLINK, DOWNLINK] {
            let stretch = Stretch::single(rng, number, Terms::of(direction));
            let record = &stretch.records[0];
            let count = |at: usize, other: usize, value: u8| {
                let mut record = record.clone();
                record[other] = value;
                let set = |value: u8| {
                    record[at] = value;
                    sound(&record, direction, stretch.from)
                };
                (0..=255).map(set).filter(|sound| *sound).count()
            };
            controls.push(count(9, 10, record[10]));
            extended.push(count(10, 9, record[9]));
            for other in [0, 7, 248, rng.draw() as u8] {
                count(9, 10, other);
                count(10, 9, other);
            }
        }
    }
    // How many are a coding, up and down, of kinds 1 to 8.
    assert_eq!(
        controls,
        [16, 32, 1, 2, 1, 2, 1, 2, 2, 2, 24, 24, 8, 8, 8, 8]
    );
    assert_eq!(extended, [96, 16, 1, 1, 1, 1, 1, 1, 1, 1, 1, 1, 1, 1, 1, 1]);
}

/// Of the 256 verdicts one at most is taken, and one is where the frame is due.
#[test]
fn one_verdict_is_due() {
    let rng = &mut Rng::new(2, 2);
    for number in 1..=8 {
        for direction in [UPLINK, DOWNLINK] {
            let stretch = Stretch::single(rng, number, Terms::of(direction));
            for context in 0..=5 {
                let cursor = Cursor {
                    context,
                    ..stretch.from
                };
                let mut record = stretch.records[0].clone();
                let taken = (0..=255).filter(|&verdict| {
                    record[11] = verdict;
                    judge(&record, Terms::of(direction), cursor, 1 << 40).is_empty()
                });
                let taken = taken.count();
                assert!(taken <= 1);
                let follows = context != 0 && (number != 8 || context >= 2);
                assert!(taken == 1 || !follows);
            }
        }
    }
}

/// Every sweep, and many stretches, spoilt and not: what is taken reads back, and what is refused
/// would not.
#[test]
fn writing_is_the_inverse_of_reading() {
    let rng = &mut Rng::new(2, 3);
    for index in 0..SWEEPS {
        for request in sweep(rng, index) {
            assert_eq!(check(&request, &write(&request)), Ok(()));
        }
    }
    for turn in 0..4_000 {
        let mut stretch = Stretch::made(rng);
        for _ in 0..turn % 4 {
            spoil(rng, &mut stretch);
        }
        let mut request = stretch.lend(rng);
        if rng.once_in(8) {
            nonsense(rng, &mut request);
        }
        assert_eq!(check(&request, &write(&request)), Ok(()));
    }
}
