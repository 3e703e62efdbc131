//! Sessions: a lent list of places, each free or holding a key with its cursor, the number of its
//! capture and a direction. Opening one, a page of one, and closing one.

use crate::answer::Answer;
use crate::page::{self, Page};

/// The most places of a list.
pub const PLACES_MOST: usize = 32;

/// One place. Where `used` is 0 it is free, and the rest means nothing.
#[derive(Clone, Copy, Debug, Default, PartialEq)]
pub struct Session {
    pub used: u64,
    pub key: u64,
    pub position: u64,
    pub context: u64,
    pub capture: u64,
    pub direction: u64,
}

impl Session {
    pub fn free(&self) -> bool {
        self.used == 0
    }

    pub fn holds(&self, key: u64) -> bool {
        !self.free() && self.key == key
    }
}

/// A list as a caller in C has it: six numbers for each place.
pub fn bytes(sessions: &[Session]) -> Vec<u8> {
    let numbers = sessions.iter().flat_map(|place| {
        let cursor = [place.position, place.context];
        let rest = [place.capture, place.direction];
        [[place.used, place.key], cursor, rest].concat()
    });
    numbers.flat_map(u64::to_le_bytes).collect()
}

/// What a caller gives to open a session.
#[derive(Clone, Debug)]
pub struct Opening {
    pub sessions: Vec<Session>,
    pub key: u64,
    pub capture: u64,
    pub direction: u64,
}

/// What opening does: the answer, the list after the call, and the number of every refusal that
/// holds, in their order.
pub struct Opened {
    pub answer: Answer,
    pub after: Vec<Session>,
    pub refusals: Vec<u64>,
}

/// The refusals of opening in the order in which they decide.
pub const ORDER: [u64; 4] = [2, 1, 9, 8];

/// The lowest free place is taken.
pub fn open(request: &Opening) -> Opened {
    let mut after = request.sessions.clone();
    let free = after.iter().position(Session::free);
    let holds = |number: &u64| match number {
        2 => request.sessions.len() > PLACES_MOST,
        1 => request.direction > 1,
        9 => request.sessions.iter().any(|s| s.holds(request.key)),
        _ => free.is_none(),
    };
    let refusals: Vec<u64> = ORDER.into_iter().filter(holds).collect();
    let answer = match (refusals.first(), free) {
        (None, Some(place)) => {
            after[place] = Session {
                used: 1,
                key: request.key,
                position: 0,
                context: 0,
                capture: request.capture,
                direction: request.direction,
            };
            Answer::opened(0, place as u64)
        }
        (number, _) => Answer::opened(*number.expect("a number"), 0),
    };
    Opened {
        answer,
        after,
        refusals,
    }
}

/// A session as paging and closing name it.
#[derive(Clone, Debug)]
pub struct Named {
    pub sessions: Vec<Session>,
    pub place: u64,
    pub key: u64,
}

/// Why what is named is refused.
#[derive(Clone, Copy, Debug, PartialEq)]
pub enum Cause {
    ListTooLong,
    Outside,
    Free,
    OtherKey,
}

impl Cause {
    pub fn number(self) -> u64 {
        match self {
            Cause::ListTooLong => 2,
            Cause::Outside | Cause::Free | Cause::OtherKey => 10,
        }
    }
}

impl Named {
    /// What stands at the place, if it is one of the list.
    pub fn session(&self) -> Option<Session> {
        let index = usize::try_from(self.place).ok()?;
        self.sessions.get(index).copied()
    }

    /// Every cause that holds, in their order.
    fn causes(&self) -> Vec<Cause> {
        let too_long = self.sessions.len() > PLACES_MOST;
        let absent = match self.session() {
            None => Some(Cause::Outside),
            Some(session) if session.free() => Some(Cause::Free),
            Some(session) if session.key != self.key => Some(Cause::OtherKey),
            _ => None,
        };
        let too_long = too_long.then_some(Cause::ListTooLong);
        too_long.into_iter().chain(absent).collect()
    }

    /// The list with another session at the place.
    fn with(&self, session: Session) -> Vec<Session> {
        let mut after = self.sessions.clone();
        after[self.place as usize] = session;
        after
    }
}

/// What a caller gives for a page of a session; `buffer` is as it was before the call.
#[derive(Clone, Debug)]
pub struct Paging {
    pub named: Named,
    pub capture: Vec<u8>,
    pub n: u64,
    pub profile: u8,
    pub most: u64,
    pub buffer: Vec<u8>,
}

impl Paging {
    /// The same page asked for without a session: by this direction and this cursor.
    pub fn alone(&self, direction: u64, position: u64, context: u64) -> page::Request {
        page::Request {
            capture: self.capture.clone(),
            n: self.n,
            direction,
            profile: self.profile,
            position,
            context,
            most: self.most,
            buffer: self.buffer.clone(),
        }
    }
}

/// What a page of a session does: the answer, the buffer and the list after the call, why what is
/// named is refused, and the page that paging alone gives by what stands at the place.
pub struct Paged {
    pub answer: Answer,
    pub buffer: Vec<u8>,
    pub after: Vec<Session>,
    pub causes: Vec<Cause>,
    pub page: Page,
}

/// The page that paging gives; the session keeps the cursor that it answers.
pub fn page(request: &Paging) -> Paged {
    let causes = request.named.causes();
    let session = request.named.session().unwrap_or_default();
    let cursor = (session.position, session.context);
    let page = page::page(&request.alone(session.direction, cursor.0, cursor.1));
    let (answer, buffer, after) = match causes.first() {
        Some(cause) => (
            Answer::alone(cause.number()),
            request.buffer.clone(),
            request.named.sessions.clone(),
        ),
        None => {
            let session = Session {
                position: page.answer.position,
                context: page.answer.context,
                ..session
            };
            let after = request.named.with(session);
            (page.answer, page.buffer.clone(), after)
        }
    };
    Paged {
        answer,
        buffer,
        after,
        causes,
        page,
    }
}

/// What closing does: the answer, the list after the call, and why it is refused.
pub struct Closed {
    pub answer: Answer,
    pub after: Vec<Session>,
    pub causes: Vec<Cause>,
}

/// The place is free again, all of it 0.
pub fn close(request: &Named) -> Closed {
    let causes = request.causes();
    let number = causes.first().map_or(0, |cause| cause.number());
    let after = match number {
        0 => request.with(Session::default()),
        _ => request.sessions.clone(),
    };
    Closed {
        answer: Answer::alone(number),
        after,
        causes,
    }
}
