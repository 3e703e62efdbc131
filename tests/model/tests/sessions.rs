//! Sessions: examples worked by hand, each refusal and their order, and that other keys change
//! nothing of a session.

use model::answer::Answer;
use model::capture::pack;
use model::families::{bits, H, Z};
use model::rng::Rng;
use model::scripts::{key, short};
use model::sessions::{
    bytes, close, open, page, Cause, Named, Opened, Opening, Paged, Paging, Session,
};

const FREE: Session = Session {
    used: 0,
    key: 0,
    position: 0,
    context: 0,
    capture: 0,
    direction: 0,
};

/// A key's session that is in the middle of its capture.
fn held(key: u64) -> Session {
    Session {
        used: 1,
        key,
        position: 8,
        context: 0,
        capture: 70 + key,
        direction: 1,
    }
}

fn opened(sessions: &[Session], key: u64, direction: u64) -> Opened {
    open(&Opening {
        sessions: sessions.to_vec(),
        key,
        capture: 77,
        direction,
    })
}

fn named(sessions: &[Session], place: u64, key: u64) -> Named {
    Named {
        sessions: sessions.to_vec(),
        place,
        key,
    }
}

/// The most items that fit into 60 bytes, of FF H and Z: a gap of 8, a kind 1, a gap of 160.
fn paged(sessions: &[Session], place: u64, key: u64, most: u64) -> Paged {
    let capture = pack(&[bits("FF"), bits(H), bits(Z)].concat());
    page(&Paging {
        named: named(sessions, place, key),
        n: 8 * capture.len() as u64,
        capture,
        profile: 0,
        most,
        buffer: vec![0xEE; 60],
    })
}

/// The six numbers of an answer that is not refused.
fn taken(items: u64, bytes: u64, position: u64, context: u64) -> Answer {
    Answer {
        number: 0,
        index: 0,
        items,
        bytes,
        position,
        context,
    }
}

#[test]
fn the_lowest_free_place_is_opened() {
    let rubbish = Session {
        used: 0,
        direction: 9,
        ..held(5)
    };
    let list = [held(1), rubbish, held(3), FREE];
    let one = opened(&list, 5, 1);
    assert_eq!(one.answer, Answer::opened(0, 1));
    let new = Session {
        used: 1,
        key: 5,
        position: 0,
        context: 0,
        capture: 77,
        direction: 1,
    };
    assert_eq!(one.after, [held(1), new, held(3), FREE]);
    let other = opened(&one.after, 0, 0);
    assert_eq!(other.answer, Answer::opened(0, 3));
    let zero = Session {
        key: 0,
        direction: 0,
        ..new
    };
    assert_eq!(other.after, [held(1), new, held(3), zero]);
}

#[test]
fn openings_refused_in_their_order() {
    let full = |places: usize| vec![held(4); places];
    for (list, key, direction, refusals) in [
        (vec![FREE; 33], 1, 0, &[2][..]),
        (vec![FREE; 33], 1, 2, &[2, 1]),
        (full(33), 4, 2, &[2, 1, 9, 8]),
        (vec![FREE; 32], 1, 2, &[1]),
        (vec![FREE; 32], 1, 1 << 32, &[1]),
        (vec![FREE, held(4)], 4, u64::MAX, &[1, 9]),
        (vec![FREE, held(4)], 4, 0, &[9]),
        (full(32), 4, 0, &[9, 8]),
        (full(32), 5, 0, &[8]),
        (full(1), 4 + (1 << 32), 0, &[8]),
        (vec![], 0, 0, &[8]),
    ] {
        let done = opened(&list, key, direction);
        assert_eq!(done.answer, Answer::opened(refusals[0], 0));
        assert_eq!(done.refusals, refusals);
        assert_eq!(done.after, list);
    }
    // Any number but 0 is a place taken.
    let list = [Session {
        used: 1 << 32,
        ..held(4)
    }];
    assert_eq!(opened(&list, 4, 0).answer, Answer::opened(9, 0));
    assert_eq!(opened(&list, 5, 0).answer, Answer::opened(8, 0));
    assert_eq!(opened(&[FREE; 32], 5, 0).answer, Answer::opened(0, 0));
}

#[test]
fn pages_go_on_where_the_last_ended() {
    let mut list = vec![held(1), opened(&[FREE], 2, 1).after[0], held(3)];
    for (most, answer) in [
        (1, taken(1, 9, 8, 0)),
        (9, taken(2, 35, 328, 0)),
        (9, taken(0, 0, 328, 0)),
    ] {
        let done = paged(&list, 1, 2, most);
        assert_eq!(done.answer, answer);
        let bytes = answer.bytes as usize;
        assert_eq!(done.buffer[bytes..], vec![0xEE; 60 - bytes]);
        list[1].position = answer.position;
        list[1].context = answer.context;
        assert_eq!(done.after, list);
    }
    // Another one stands behind the first gap: the frame with its context, and no gap before it.
    let done = paged(&list, 2, 3, 1);
    assert_eq!(done.answer, taken(1, 26, 168, 1));
    assert_eq!(done.buffer[..5], [1, 0, 0, 0, 8]);
    list[2].position = 168;
    list[2].context = 1;
    assert_eq!(done.after, list);
}

/// The page is refused: the list stands, and the buffer.
fn page_refused(list: &[Session], place: u64, key: u64, most: u64, answer: Answer) {
    let done = paged(list, place, key, most);
    assert_eq!(done.answer, answer);
    assert_eq!(done.after, list);
    assert_eq!(done.buffer, [0xEE; 60]);
}

#[test]
fn pages_refused_in_their_order() {
    let left = Session { used: 0, ..held(4) };
    let list = [held(4), left, FREE];
    let zeros = Answer::alone;
    for (place, key) in [(3, 0), (1 << 32, 4), (u64::MAX, 4)] {
        page_refused(&list, place, key, 9, zeros(10));
    }
    for (place, key) in [(1, 4), (2, 0), (0, 5), (0, 4 + (1 << 32))] {
        page_refused(&list, place, key, 9, zeros(10));
        page_refused(&list, place, key, 0, zeros(10));
    }
    page_refused(&list, 0, 4, 0, Answer::refusal(1, 0, 8, 0));
    page_refused(&[held(4); 33], 0, 4, 0, zeros(2));
    page_refused(&[held(4); 33], 0, 5, 9, zeros(2));
    let with = |session: Session| [session];
    let (direction, position, context) = (2, 329, 6);
    let unsound = with(Session {
        direction,
        ..held(4)
    });
    page_refused(&unsound, 0, 4, 9, Answer::refusal(1, 0, 8, 0));
    page_refused(&unsound, 0, 5, 9, zeros(10));
    let unsound = with(Session {
        position,
        ..held(4)
    });
    page_refused(&unsound, 0, 4, 9, Answer::refusal(3, 0, 329, 0));
    let unsound = with(Session { context, ..held(4) });
    page_refused(&unsound, 0, 4, 9, Answer::refusal(3, 0, 8, 6));
}

#[test]
fn closing_frees_the_place_named() {
    // A key that stands twice is closed where it is named.
    let list = [held(4), held(5), held(4)];
    let done = close(&named(&list, 2, 4));
    assert_eq!(done.answer, Answer::alone(0));
    assert_eq!(done.after, [held(4), held(5), FREE]);
    for (place, key, cause) in [
        (2, 4, Cause::Free),
        (2, 0, Cause::Free),
        (1, 4, Cause::OtherKey),
        (3, 4, Cause::Outside),
        (1 << 32, 4, Cause::Outside),
    ] {
        let again = close(&named(&done.after, place, key));
        assert_eq!(again.answer, Answer::alone(10));
        assert_eq!(again.causes, [cause]);
        assert_eq!(again.after, done.after);
    }
    let long = [held(4); 33];
    for (place, key) in [(0, 4), (0, 5), (33, 4)] {
        let refused = close(&named(&long, place, key));
        assert_eq!(refused.answer, Answer::alone(2));
        assert_eq!(refused.after, long);
    }
    assert_eq!(close(&named(&long[..32], 31, 4)).answer, Answer::alone(0));
}

#[test]
fn a_place_is_six_numbers_of_eight_bytes() {
    let session = Session {
        used: 1,
        key: 0x0203,
        position: 4,
        context: 5,
        capture: 6,
        direction: 1 << 56,
    };
    let list = bytes(&[FREE, session]);
    assert_eq!(list[..48], [0; 48]);
    assert_eq!(
        list[48..66],
        [1, 0, 0, 0, 0, 0, 0, 0, 3, 2, 0, 0, 0, 0, 0, 0, 4, 0]
    );
    assert_eq!(list[88..], [0, 0, 0, 0, 0, 0, 0, 1]);
}

/// Others open, page and close between the pages of a session, which are those without them.
#[test]
fn others_between_change_nothing() {
    let rng = &mut Rng::new(5, 1);
    for _ in 0..200 {
        let lent = short(rng);
        let direction = lent.capture.terms.direction as u64;
        let own = 1 << 40;
        let ask = |sessions: &[Session], place, key, size| Paging {
            named: named(sessions, place, key),
            capture: lent.bytes.clone(),
            n: lent.capture.n() as u64,
            profile: lent.capture.terms.profile,
            most: 3,
            buffer: vec![0; size],
        };
        let mut alone = opened(&[FREE], own, direction).after;
        let mut list = opened(&[held(4), FREE, held(6), FREE], own, direction).after;
        for _ in 0..8 {
            let size = rng.below(100);
            let here = page(&ask(&alone, 0, own, size));
            let there = page(&ask(&list, 1, own, size));
            assert_eq!(here.answer, there.answer);
            assert_eq!(here.buffer, there.buffer);
            (alone, list) = (here.after, there.after);
            let place = rng.of(&[0, 2, 3]);
            let other = list[place as usize].key;
            list = match rng.below(3) {
                0 => opened(&list, key(rng), 0).after,
                1 => close(&named(&list, place, other)).after,
                _ => page(&ask(&list, place, other, size)).after,
            };
        }
        assert_eq!(alone[0], list[1]);
    }
}
