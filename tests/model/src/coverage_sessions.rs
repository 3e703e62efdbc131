//! What the calls on sessions hit.

use crate::coverage::{range, Counts, Line};
use model::page;
use model::sessions::{
    Cause, Closed, Named, Opened, Opening, Paged, Paging, Session, ORDER, PLACES_MOST,
};

/// Counts one compared opening.
pub fn count_opening(counts: &mut Counts, request: &Opening, opened: &Opened) {
    let (number, places) = (opened.answer.number, request.sessions.len());
    counts.add(&format!("number {number}"));
    match opened.refusals[..] {
        [] => count_place_taken(counts, request, opened.answer.index as usize),
        [number] => counts.add(&format!("{number} alone")),
        _ => {}
    }
    for (i, first) in opened.refusals.iter().enumerate() {
        for later in &opened.refusals[i + 1..] {
            counts.add(&format!("{first} before {later}"));
        }
    }
    if number == 8 {
        counts.add(&format!("full list of {places}"));
    }
    let holding = || request.sessions.iter().filter(|s| s.holds(request.key));
    count_each(
        counts,
        &[
            ("list of 33 refused", number == 2 && places == 33),
            (USED_NOT_1, number == 9 && holding().all(|s| s.used != 1)),
            (KEY_TWICE, number == 9 && holding().count() > 1),
            (
                "direction of low bits 0 or 1",
                number == 1 && request.direction as u32 <= 1,
            ),
        ],
    );
}

fn count_place_taken(counts: &mut Counts, request: &Opening, place: usize) {
    let list = &request.sessions;
    let key = request.key;
    let low = |s: &Session| !s.free() && s.key as u32 == key as u32;
    let taken = |s: &Session| !s.free();
    let (below, above) = (&list[..place], &list[place + 1..]);
    let hole = below.iter().any(taken) && above.iter().any(taken);
    let lowest = above.iter().any(Session::free);
    counts.add(&at(place as u64, list.len()));
    counts.add(&format!("direction {}", request.direction));
    count_each(
        counts,
        &[
            ("first place", place == 0),
            ("hole", hole),
            ("hole with a free place above", hole && lowest),
            ("last free place", !list.is_empty() && !lowest),
            ("list of 32 taken", list.len() == PLACES_MOST),
            (
                "numbers left in a free place",
                list[place] != Session::default(),
            ),
            (
                "key in a free place",
                list.iter().any(|s| s.free() && s.key == key && key != 0),
            ),
            ("low bits of another's key", list.iter().any(low)),
            (KEY_0, key == 0),
            (KEY_ABOVE, key >> 32 != 0),
            ("capture above 32 bits", request.capture >> 32 != 0),
        ],
    );
}

/// Counts one compared page of a session. A cause counts where it alone refuses.
pub fn count_paging(counts: &mut Counts, request: &Paging, paged: &Paged) {
    let answer = paged.answer;
    let behind = &paged.page.causes;
    counts.add(&format!("number {}", answer.number));
    count_named(counts, &request.named, &paged.causes, !behind.is_empty());
    if let ([], [cause]) = (&paged.causes[..], &behind[..]) {
        counts.add(&format!("{cause:?}"));
    }
    if let Some(first) = paged.causes.first() {
        for later in behind {
            counts.add(&format!("{first:?} before {}", later.number()));
        }
    }
    let session = request.named.session().unwrap_or_default();
    let moved = (session.position, session.context) != (0, 0);
    if moved && answer.number != 0 {
        counts.add(&format!("{} at a cursor not 0", answer.number));
    }
    if answer.number == 0 {
        counts.add(&format!("direction {}", session.direction));
        counts.add(&format!("context kept {}", answer.context));
        count_each(
            counts,
            &[
                ("no item at n", answer.items == 0),
                ("several items", answer.items > 1),
                ("position above 16 bits", answer.position >> 16 != 0),
            ],
        );
    }
}

/// Counts one compared closing.
pub fn count_closing(counts: &mut Counts, request: &Named, closed: &Closed) {
    counts.add(&format!("number {}", closed.answer.number));
    count_named(counts, request, &closed.causes, false);
}

/// Counts what paging and closing name, and why that is refused; `more` is where more refuses.
fn count_named(counts: &mut Counts, named: &Named, causes: &[Cause], more: bool) {
    match causes {
        [cause] if !more => counts.add(&format!("{cause:?}")),
        [first, later] => counts.add(&format!("{first:?} before {}", later.number())),
        _ => {}
    }
    let places = named.sessions.len();
    match causes.first() {
        None => count_session(counts, named),
        Some(Cause::ListTooLong) => counts.add(&format!("list of {places} refused")),
        Some(cause) => count_absent(counts, named, *cause),
    }
}

/// Counts a session that is not there.
fn count_absent(counts: &mut Counts, named: &Named, cause: Cause) {
    let (list, place, key) = (&named.sessions, named.place, named.key);
    let outside = cause == Cause::Outside;
    let low = list.get(place as u32 as usize);
    let low = outside && low.is_some_and(|s| s.holds(key));
    let there = named.session().unwrap_or_default();
    let left = cause == Cause::Free && there.key == key && key != 0;
    let low_of_key = cause == Cause::OtherKey && there.key as u32 == key as u32;
    let other = !outside && list.iter().any(|s| s.holds(key));
    count_each(
        counts,
        &[
            ("first place outside", place == list.len() as u64),
            ("place of all ones", place == u64::MAX),
            ("low bits of its place", low),
            ("low bits of its key", low_of_key),
            ("its key left in a free place", left),
            ("its key at another place", other),
        ],
    );
}

/// Counts a session that is there.
fn count_session(counts: &mut Counts, named: &Named) {
    let place = named.place as usize;
    let holds = |s: &Session| s.holds(named.key);
    counts.add(&at(named.place, named.sessions.len()));
    count_each(
        counts,
        &[
            (KEY_0, named.key == 0),
            (KEY_ABOVE, named.key >> 32 != 0),
            (USED_NOT_1, named.sessions[place].used != 1),
            (
                "its key at a lower place too",
                named.sessions[..place].iter().any(holds),
            ),
            (
                "its key at a higher place too",
                named.sessions[place + 1..].iter().any(holds),
            ),
        ],
    );
}

fn count_each(counts: &mut Counts, names: &[(&str, bool)]) {
    for (name, _) in names.iter().filter(|(_, holds)| *holds) {
        counts.add(name);
    }
}

fn at(place: u64, places: usize) -> String {
    format!("place {place} of {places}")
}

/// Every place of every list that may be lent.
fn all_places() -> Vec<String> {
    let lists = 1..=PLACES_MOST;
    let places = |places| (0..places).map(move |place| at(place as u64, places));
    lists.flat_map(places).collect()
}

const USED_NOT_1: &str = "used not 1";
const KEY_TWICE: &str = "key held twice";
const KEY_0: &str = "key 0";
const KEY_ABOVE: &str = "key above 32 bits";

/// What is counted of a script: a place opened that was closed before, with a free one above; what
/// other keys did between two pages of a session; and what became of sessions.
pub const AGAIN: &str = "place freed and taken again";
pub const OPENED: &str = "another opened between pages";
pub const PAGED: &str = "another paged between pages";
pub const CLOSED: &str = "another closed between pages";
pub const ISOLATED: &str = "page asked for alone";
pub const HARVESTED: &str = "session harvested";
pub const LONG: &str = "session of a long capture";
pub const AT_END: &str = "closed at n";
pub const CUT_SHORT: &str = "closed before n";

/// The coverage line of opening, and what was never hit.
pub fn line_of_opening(counts: &Counts) -> (String, Vec<String>) {
    let mut line = Line::new(counts);
    line.list("number 0", &range("number", 0, 0));
    line.each(&ORDER.map(|number| format!("number {number}")));
    line.each(&ORDER.map(|number| format!("{number} alone")));
    for (i, first) in ORDER.iter().enumerate() {
        let later = ORDER[i + 1..].iter();
        let pairs: Vec<String> = later
            .map(|later| format!("{first} before {later}"))
            .collect();
        line.each(&pairs);
    }
    line.each(&[0, 1, 32].map(|places| format!("full list of {places}")));
    line.list("direction 0..1", &range("direction", 0, 1));
    line.each(
        &[
            "first place",
            "hole",
            "hole with a free place above",
            "last free place",
            AGAIN,
            "list of 32 taken",
            "list of 33 refused",
            "numbers left in a free place",
            "key in a free place",
            "low bits of another's key",
            "direction of low bits 0 or 1",
            "capture above 32 bits",
            KEY_0,
            KEY_ABOVE,
            KEY_TWICE,
            USED_NOT_1,
        ]
        .map(String::from),
    );
    line.share("places by length of the list", &all_places());
    line.end("opening")
}

/// The coverage line of pages of sessions, and what was never hit.
pub fn line_of_paging(counts: &Counts) -> (String, Vec<String>) {
    let mut line = Line::new(counts);
    line.list("number 0..4", &range("number", 0, 4));
    line_of_named(&mut line);
    line.each(&page::CAUSES.map(|cause| format!("{cause:?}")));
    // At a place outside there is no cursor that could be unsound.
    for (first, later) in [
        (Cause::ListTooLong, &[1, 2, 3, 4][..]),
        (Cause::Outside, &[1, 2, 4]),
        (Cause::Free, &[1, 2, 3, 4]),
        (Cause::OtherKey, &[1, 2, 3, 4]),
    ] {
        let pairs: Vec<String> = later
            .iter()
            .map(|later| format!("{first:?} before {later}"))
            .collect();
        line.each(&pairs);
    }
    line.each(&[1, 2, 3, 4, 10].map(|number| format!("{number} at a cursor not 0")));
    line.list("direction 0..1", &range("direction", 0, 1));
    line.list("context kept 0..5", &range("context kept", 0, 5));
    line.each(&["no item at n", "several items", "position above 16 bits"].map(String::from));
    line.each(&[OPENED, PAGED, CLOSED, ISOLATED, HARVESTED, LONG].map(String::from));
    line.end("pages of sessions")
}

/// The coverage line of closing, and what was never hit.
pub fn line_of_closing(counts: &Counts) -> (String, Vec<String>) {
    let mut line = Line::new(counts);
    line.each(&[0, 2].map(|number| format!("number {number}")));
    line_of_named(&mut line);
    line.each(&[AT_END, CUT_SHORT].map(String::from));
    line.end("closing")
}

/// What paging and closing have to hit.
fn line_of_named(line: &mut Line) {
    let causes = [
        Cause::ListTooLong,
        Cause::Outside,
        Cause::Free,
        Cause::OtherKey,
    ];
    line.each(&["number 10", "ListTooLong before 10"].map(String::from));
    line.each(&causes.map(|cause| format!("{cause:?}")));
    line.each(
        &[
            "list of 33 refused",
            "first place outside",
            "place of all ones",
            "low bits of its place",
            "low bits of its key",
            "its key left in a free place",
            "its key at another place",
            "its key at a lower place too",
            "its key at a higher place too",
            KEY_0,
            KEY_ABOVE,
            USED_NOT_1,
        ]
        .map(String::from),
    );
    line.share("places by length of the list", &all_places());
}
