//! Scripts of calls on one list of sessions: keys that each harvest a capture, strangers and nonsense
//! between them, and lists of every length.

use crate::capture::{Capture, Terms, LONGEST};
use crate::families::{make, terms};
use crate::reading::{reading, Cursor};
use crate::record::record;
use crate::requests::{nonsense, Lent};
use crate::rng::Rng;
use crate::sessions::{Named, Opening, Paged, Paging, Session, PLACES_MOST};
use std::collections::BTreeSet;

/// A key that harvests, and that nobody else uses.
pub struct Harvester {
    pub key: u64,
    /// Which of the script's captures, and the terms that it is read on.
    pub capture: usize,
    pub terms: Terms,
    /// Its place, from its opening to its closing.
    pub place: Option<u64>,
    /// Position and context behind its pages, kept aside, and their records, joined.
    pub cursor: [u64; 2],
    pub records: Vec<u8>,
    /// What other keys did since its last page; nothing is known before its first.
    pub between: Option<BTreeSet<&'static str>>,
    /// A page had no item: it is at n.
    pub ended: bool,
}

impl Harvester {
    /// Its session was opened.
    pub fn begin(&mut self, place: u64) {
        self.place = Some(place);
        self.cursor = [0, 0];
        self.records.clear();
        self.between = None;
        self.ended = false;
    }

    /// Keeps a page, refused or not, and gives what other keys did since the last.
    pub fn keep(&mut self, paged: &Paged) -> BTreeSet<&'static str> {
        let answer = paged.answer;
        self.cursor = [answer.position, answer.context];
        self.records.extend(&paged.buffer[..answer.bytes as usize]);
        self.between.replace(BTreeSet::new()).unwrap_or_default()
    }
}

/// A script under way.
pub struct Script {
    /// The list as it is now.
    pub sessions: Vec<Session>,
    pub captures: Vec<Lent>,
    pub harvesters: Vec<Harvester>,
    /// The places closed by now and not taken again.
    pub freed: BTreeSet<u64>,
    /// The longest page buffer of a harvester.
    largest: usize,
}

impl Script {
    /// Two to four captures and any list. Some scripts have only strangers.
    pub fn new(rng: &mut Rng) -> Script {
        let captures = (0..2 + rng.below(3)).map(|_| short(rng)).collect();
        let largest = rng.of(&[80, 300, 3_000]);
        let mut script = Script::over(captures, list(rng), largest);
        for _ in 0..rng.of(&[0, 1, 2, 3, 4, 6]) {
            script.add_harvester(rng);
        }
        script
    }

    /// One harvester of a long capture, by large pages.
    pub fn long(rng: &mut Rng, lent: &Lent) -> Script {
        let capture = Lent {
            borders: lent.borders.clone(),
            ..lent.cut(rng, lent.capture.n())
        };
        let free = vec![Session::default(); 1 + rng.below(2)];
        let mut script = Script::over(vec![capture], free, 100_000);
        script.add_harvester(rng);
        script
    }

    /// A list and captures, and no harvester.
    pub fn over(captures: Vec<Lent>, sessions: Vec<Session>, largest: usize) -> Script {
        Script {
            sessions,
            captures,
            harvesters: Vec::new(),
            freed: BTreeSet::new(),
            largest,
        }
    }

    fn add_harvester(&mut self, rng: &mut Rng) {
        let key = loop {
            let key = key(rng);
            let known = self.harvesters.iter().any(|other| other.key == key);
            if !known && !self.sessions.iter().any(|session| session.holds(key)) {
                break key;
            }
        };
        self.harvesters.push(Harvester {
            key,
            capture: 0,
            terms: Terms::of(0),
            place: None,
            cursor: [0, 0],
            records: Vec::new(),
            between: None,
            ended: false,
        });
    }

    /// A harvester's opening, of any capture, mostly on the terms that it was made for.
    pub fn opening(&mut self, rng: &mut Rng, who: usize) -> Opening {
        let capture = rng.below(self.captures.len());
        let own = self.captures[capture].capture.terms;
        let harvester = &mut self.harvesters[who];
        harvester.capture = capture;
        harvester.terms = if rng.once_in(4) { terms(rng) } else { own };
        Opening {
            sessions: self.sessions.clone(),
            key: harvester.key,
            capture: capture as u64,
            direction: harvester.terms.direction as u64,
        }
    }

    /// A page of a harvester's session, and sometimes one that is refused; behind n is any garbage.
    pub fn paging(&self, rng: &mut Rng, who: usize, place: u64) -> Paging {
        let harvester = &self.harvesters[who];
        let named = self.named(place, harvester.key);
        let mut request = self.paging_of(rng, named, harvester.capture, harvester.terms.profile);
        match rng.below(24) {
            0 => request.most = 0,
            1 => request.n = 8 * request.capture.len() as u64 + 1,
            2 => request.capture.resize(LONGEST + 1, 0),
            3 if harvester.cursor[0] > 0 => request.n = harvester.cursor[0] - 1,
            _ => {}
        }
        request
    }

    /// A page of any size, of one of the captures.
    pub fn paging_of(&self, rng: &mut Rng, named: Named, capture: usize, profile: u8) -> Paging {
        let lent = &self.captures[capture];
        let n = lent.capture.n();
        Paging {
            named,
            capture: lent.cut(rng, n).bytes,
            n: n as u64,
            profile,
            most: rng.of(&[1, 2, 5, 50, u64::MAX]),
            buffer: vec![rng.draw() as u8; rng.below(self.largest + 1)],
        }
    }

    /// The records of a harvester's capture from bit 0 in context 0.
    pub fn whole(&self, who: usize) -> Vec<u8> {
        let harvester = &self.harvesters[who];
        let bits = self.captures[harvester.capture].capture.bits.clone();
        let terms = harvester.terms;
        let start = Cursor {
            position: 0,
            context: 0,
        };
        let capture = Capture { bits, terms };
        let items = reading(&capture, start);
        items.flat_map(|item| record(&item)).collect()
    }

    pub fn named(&self, place: u64, key: u64) -> Named {
        let sessions = self.sessions.clone();
        Named {
            sessions,
            place,
            key,
        }
    }

    /// Notes what a key did, for all harvesters but itself.
    pub fn happened(&mut self, what: &'static str, key: u64) {
        let others = self.harvesters.iter_mut().filter(|other| other.key != key);
        for between in others.filter_map(|other| other.between.as_mut()) {
            between.insert(what);
        }
    }
}

/// Calls of strangers, which use no harvester's session and open none for one.
impl Script {
    pub fn stray_opening(&self, rng: &mut Rng) -> Opening {
        let mut key = match rng.below(6) {
            0 | 1 => self.key_there(rng),
            2 => self.key_there(rng).wrapping_add(1 << 32),
            _ => key(rng),
        };
        let waits = |other: &Harvester| other.place.is_none() && other.key == key;
        if self.harvesters.iter().any(waits) {
            key = rng.draw();
        }
        let direction = match rng.below(3) {
            0 => rng.of(&[2, 3, 1 << 32, (1 << 32) + 1, 1 << 63, u64::MAX]),
            _ => rng.below(2) as u64,
        };
        Opening {
            sessions: longer(rng, self.sessions.clone()),
            key,
            capture: number(rng),
            direction,
        }
    }

    /// A session named: what stands at a place, often with another place or another key.
    pub fn stray(&self, rng: &mut Rng) -> Named {
        let places = self.sessions.len();
        let at = rng.below(places.max(1)) as u64;
        let there = self.sessions.get(at as usize).map_or(0, |s| s.key);
        let place = match rng.below(12) {
            0 => places as u64,
            1 => at + rng.of(&[1 << 8, 1 << 32, 1 << 32, 1 << 63]),
            2 => rng.of(&[PLACES_MOST as u64, u64::MAX]),
            3 => rng.below(40) as u64,
            _ => at,
        };
        let mut key = match rng.below(12) {
            0 => there ^ 1 << rng.below(64),
            1 => there.wrapping_add(1 << 32),
            2 => self.key_there(rng),
            3 => key(rng),
            _ => there,
        };
        if self.own(place, key) {
            key = key.wrapping_add(1);
        }
        let sessions = longer(rng, self.sessions.clone());
        Named {
            sessions,
            place,
            key,
        }
    }

    /// A page of a session named so. Where a stranger's stands, or none, the list brings any
    /// direction and cursor, sound or not.
    pub fn stray_paging(&self, rng: &mut Rng) -> Paging {
        let mut named = self.stray(rng);
        let lent = &self.captures[rng.below(self.captures.len())];
        let mut request = lent.request(rng);
        if rng.bit() {
            nonsense(rng, &mut request);
        }
        match rng.below(24) {
            0 | 1 => request.most = 0,
            2 => request.capture.resize(LONGEST + 1, 0),
            _ => {}
        }
        let as_it_stands = rng.once_in(8);
        let place = usize::try_from(named.place).ok();
        if let Some(session) = place.and_then(|place| named.sessions.get_mut(place)) {
            if !as_it_stands && !self.own(named.place, session.key) {
                session.position = request.position;
                session.context = request.context;
                session.direction = request.direction;
            }
        }
        Paging {
            named,
            capture: request.capture,
            n: request.n,
            profile: request.profile,
            most: request.most,
            buffer: request.buffer,
        }
    }

    /// Whether it is a harvester's own session.
    fn own(&self, place: u64, key: u64) -> bool {
        let mut harvesters = self.harvesters.iter();
        harvesters.any(|other| other.place == Some(place) && other.key == key)
    }

    /// The key at some place, which may be free.
    fn key_there(&self, rng: &mut Rng) -> u64 {
        match self.sessions.is_empty() {
            true => 0,
            false => rng.of(&self.sessions).key,
        }
    }
}

/// A capture that does not take long to read.
pub fn short(rng: &mut Rng) -> Lent {
    loop {
        let made = make(rng);
        let lent = Lent::new(rng, made);
        if !lent.long() && !lent.too_long() {
            return lent;
        }
    }
}

/// Any key. Some are drawn often, so that they meet, and some differ only in their high bits.
pub fn key(rng: &mut Rng) -> u64 {
    let low = rng.below(6) as u64;
    match rng.below(8) {
        0 => rng.draw(),
        1 => u64::MAX - low,
        2 => (1 << 32) + low,
        3 => (1 << 63) + low,
        _ => low,
    }
}

/// Any number as it may stand in a list.
fn number(rng: &mut Rng) -> u64 {
    let any = rng.draw();
    let some = rng.below(4_000) as u64;
    rng.of(&[0, 1, 2, 5, 6, some, 1 << 32, u64::MAX, any])
}

/// A list that is lent: zeros, free places with anything in them, or taken ones among them, often
/// with the same few keys. Its length is mostly small, and often the greatest.
fn list(rng: &mut Rng) -> Vec<Session> {
    let places = match rng.below(10) {
        0 => rng.below(2),
        1..=5 => 2 + rng.below(6),
        6 => PLACES_MOST - rng.below(2),
        7 => PLACES_MOST,
        _ => rng.below(PLACES_MOST),
    };
    let many = [0, 1, 1, 2, 1 << 8, 1 << 32, 1 << 63, u64::MAX];
    let used = match rng.below(4) {
        0 => return vec![Session::default(); places],
        1 => &[0][..],
        2 => &[0, 1, u64::MAX],
        _ => &many,
    };
    let few_keys = rng.bit();
    let mut sessions: Vec<Session> = (0..places).map(|_| place(rng, used)).collect();
    if few_keys {
        for session in &mut sessions {
            session.key = rng.below(3) as u64;
        }
    }
    sessions
}

/// A place with any numbers in it, often a sound cursor.
fn place(rng: &mut Rng, used: &[u64]) -> Session {
    let sound = rng.bit();
    let mut any = |below: usize| match sound {
        true => rng.below(below) as u64,
        false => number(rng),
    };
    let (position, context, direction) = (any(3_000), any(6), any(2));
    Session {
        used: rng.of(used),
        key: key(rng),
        position,
        context,
        capture: number(rng),
        direction,
    }
}

/// The list, and now and then one with more places behind its own than there may be.
fn longer(rng: &mut Rng, mut sessions: Vec<Session>) -> Vec<Session> {
    if rng.once_in(6) {
        let most = PLACES_MOST;
        let places = rng.of(&[most + 1, most + 1, most + 2, 2 * most, 1_000]);
        let used = rng.of(&[[0, 1], [1, 1]]);
        sessions.resize_with(places, || place(rng, &used));
    }
    sessions
}
