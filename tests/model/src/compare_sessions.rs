//! The calls on sessions compared: scripts of many keys over one list, which is compared as a whole
//! after every call, and what holds of a session whatever others do.

use crate::client::Reply;
use crate::compare::{bytes, Comparison, Pair, Stop};
use crate::coverage_sessions::{
    self as coverage, AGAIN, AT_END, CLOSED, CUT_SHORT, HARVESTED, ISOLATED, LONG, OPENED, PAGED,
};
use model::answer::Answer;
use model::page;
use model::requests::Lent;
use model::rng::Rng;
use model::scripts::{key, short, Script};
use model::sessions::{self, Closed, Named, Opened, Opening, Paged, Paging, Session, PLACES_MOST};

/// In how many cases there is one script.
const SCRIPT_EACH: usize = 5;

impl Comparison {
    /// Sometimes a script; of each long capture a session.
    pub fn session_case(&mut self, rng: &mut Rng, lent: &Lent) -> Result<(), Stop> {
        if lent.too_long() {
            return Ok(());
        }
        if lent.long() {
            let script = Script::long(rng, lent);
            self.script(rng, script, 12)?;
            self.paging_sessions.add(LONG);
        }
        if rng.once_in(SCRIPT_EACH) {
            let script = Script::new(rng);
            let steps = rng.of(&[10, 20, 40]);
            self.script(rng, script, steps)?;
        }
        Ok(())
    }

    /// A list of one length, from two more than there may be down to 0, so that a short run has the
    /// longest: each place is opened, paged, closed and opened again, with another one free above.
    pub fn session_sweep(&mut self, rng: &mut Rng, turn: u64) -> Result<(), Stop> {
        let longest = PLACES_MOST + 2;
        let places = longest - turn as usize % (longest + 1);
        let mut script = Script::over(vec![short(rng)], vec![Session::default(); places], 300);
        let first = key(rng);
        let key = |i: usize| first.wrapping_add(i as u64);
        for i in 0..=places {
            self.sweep_open(rng, &mut script, key(i))?;
        }
        self.sweep_open(rng, &mut script, first)?;
        for place in 0..places {
            let named = script.named(place as u64, script.sessions[place].key);
            let paging = script.paging_of(rng, named, 0, 0);
            script.sessions = self.session_page(rng, &paging)?.after;
            let other = place + rng.below(places - place);
            for closed in [place, other] {
                let named = script.named(closed as u64, script.sessions[closed].key);
                script.sessions = self.close(rng, &named)?.after;
            }
            for i in [1, 2] {
                self.sweep_open(rng, &mut script, key(places + 2 * place + i))?;
            }
        }
        Ok(())
    }

    fn sweep_open(&mut self, rng: &mut Rng, script: &mut Script, key: u64) -> Result<(), Stop> {
        let request = Opening {
            sessions: script.sessions.clone(),
            key,
            capture: rng.draw(),
            direction: rng.below(2) as u64,
        };
        script.sessions = self.open(rng, &request)?.after;
        Ok(())
    }

    /// Steps of harvesters, and of strangers between them.
    fn script(&mut self, rng: &mut Rng, mut script: Script, steps: usize) -> Result<(), Stop> {
        for _ in 0..steps {
            match rng.below(script.harvesters.len() + 2).checked_sub(2) {
                Some(who) => self.step(rng, &mut script, who)?,
                None => self.stray_step(rng, &mut script)?,
            }
        }
        Ok(())
    }

    /// The next call of a harvester: it opens, goes on, or closes, mostly at n.
    fn step(&mut self, rng: &mut Rng, script: &mut Script, who: usize) -> Result<(), Stop> {
        let harvester = &mut script.harvesters[who];
        let Some(place) = harvester.place else {
            let request = script.opening(rng, who);
            if let Some(place) = self.open_in(rng, script, &request)? {
                script.harvesters[who].begin(place);
            }
            return Ok(());
        };
        if rng.once_in(if harvester.ended { 2 } else { 16 }) {
            harvester.place = None;
            let ended = if harvester.ended { AT_END } else { CUT_SHORT };
            self.closing.add(ended);
            let named = script.named(place, script.harvesters[who].key);
            return self.close_in(rng, script, &named);
        }
        self.go_on(rng, script, who, place)
    }

    /// A page of a harvester. It is the page that paging gives by the cursor kept aside; at n all
    /// pages joined are the whole reading.
    fn go_on(
        &mut self,
        rng: &mut Rng,
        script: &mut Script,
        who: usize,
        place: u64,
    ) -> Result<(), Stop> {
        let request = script.paging(rng, who, place);
        let paged = self.page_in(rng, script, &request)?;
        let harvester = &mut script.harvesters[who];
        let [position, context] = harvester.cursor;
        let direction = harvester.terms.direction as u64;
        let alone = request.alone(direction, position, context);
        let expected = page::page(&alone);
        if rng.once_in(4) {
            self.page(rng, &alone, &expected)?;
            self.paging_sessions.add(ISOLATED);
        }
        let same = (paged.answer, &paged.buffer) == (expected.answer, &expected.buffer);
        holds(
            same,
            "a session's page is that of a harvest alone",
            &request,
        )?;
        for what in harvester.keep(&paged) {
            self.paging_sessions.add(what);
        }
        if paged.answer.number == 0 && paged.answer.items == 0 && !harvester.ended {
            harvester.ended = true;
            self.paging_sessions.add(HARVESTED);
            let whole = script.whole(who) == script.harvesters[who].records;
            holds(whole, "a session's pages joined are the reading", &request)?;
        }
        Ok(())
    }

    fn stray_step(&mut self, rng: &mut Rng, script: &mut Script) -> Result<(), Stop> {
        match rng.below(4) {
            0 => {
                let request = script.stray_opening(rng);
                self.open_in(rng, script, &request).map(|_| ())
            }
            1 => {
                let request = script.stray(rng);
                self.close_in(rng, script, &request)
            }
            _ => {
                let request = script.stray_paging(rng);
                self.page_in(rng, script, &request).map(|_| ())
            }
        }
    }
}

/// Calls within a script: its list is then as the call left it.
impl Comparison {
    /// The place taken, if one was.
    fn open_in(
        &mut self,
        rng: &mut Rng,
        script: &mut Script,
        request: &Opening,
    ) -> Result<Option<u64>, Stop> {
        let opened = self.open(rng, request)?;
        if opened.answer.number != 0 {
            return Ok(None);
        }
        let place = opened.answer.index;
        if script.freed.remove(&place) && opened.after.iter().any(Session::free) {
            self.opening.add(AGAIN);
        }
        script.sessions = opened.after;
        script.happened(OPENED, request.key);
        Ok(Some(place))
    }

    fn page_in(
        &mut self,
        rng: &mut Rng,
        script: &mut Script,
        request: &Paging,
    ) -> Result<Paged, Stop> {
        let paged = self.session_page(rng, request)?;
        if paged.after.len() == script.sessions.len() {
            script.sessions.clone_from(&paged.after);
        }
        if paged.answer.number == 0 {
            script.happened(PAGED, request.named.key);
        }
        Ok(paged)
    }

    fn close_in(
        &mut self,
        rng: &mut Rng,
        script: &mut Script,
        request: &Named,
    ) -> Result<(), Stop> {
        let closed = self.close(rng, request)?;
        if closed.answer.number == 0 {
            script.sessions = closed.after;
            script.freed.insert(request.place);
            script.happened(CLOSED, request.key);
        }
        Ok(())
    }
}

/// The calls themselves: every number, every byte of the buffer and the whole list is compared.
impl Comparison {
    fn open(&mut self, rng: &mut Rng, request: &Opening) -> Result<Opened, Stop> {
        let expected = sessions::open(request);
        self.calls += 1;
        let reply = self.client.open(request, rng.draw() & 7, rng.draw() & 255);
        let lines = || {
            let mut lines = vec![format!("opening for key {}", request.key)];
            lines.push(format!("capture {}", request.capture));
            lines.push(format!("direction {}", request.direction));
            lines.extend(list(&request.sessions));
            lines
        };
        same((&expected.answer, &[], &expected.after), reply, lines)?;
        coverage::count_opening(&mut self.opening, request, &expected);
        Ok(expected)
    }

    fn session_page(&mut self, rng: &mut Rng, request: &Paging) -> Result<Paged, Stop> {
        let expected = sessions::page(request);
        self.calls += 1;
        let (placement, guard) = (rng.draw() & 7, rng.draw() & 255);
        let reply = self.client.session_page(request, placement, guard);
        let model = (&expected.answer, &expected.buffer[..], &expected.after[..]);
        same(model, reply, || lines(request))?;
        coverage::count_paging(&mut self.paging_sessions, request, &expected);
        Ok(expected)
    }

    fn close(&mut self, rng: &mut Rng, request: &Named) -> Result<Closed, Stop> {
        let expected = sessions::close(request);
        self.calls += 1;
        let reply = self.client.close(request, rng.draw() & 7, rng.draw() & 255);
        let lines = || named("closing", request);
        same((&expected.answer, &[], &expected.after), reply, lines)?;
        coverage::count_closing(&mut self.closing, request, &expected);
        Ok(expected)
    }
}

/// The model's answer, buffer and list are the library's.
fn same(
    (answer, buffer, sessions): (&Answer, &[u8], &[Session]),
    reply: Result<Reply, String>,
    lines: impl Fn() -> Vec<String>,
) -> Result<(), Stop> {
    let pair = Pair {
        answer,
        buffer,
        sessions,
        got: reply.as_ref(),
    };
    match pair.same() {
        true => Ok(()),
        false => Err(pair.difference(lines())),
    }
}

/// A claim on a page that was the same as the model's.
fn holds(claim: bool, what: &str, request: &Paging) -> Result<(), Stop> {
    match claim {
        true => Ok(()),
        false => Err(Stop::Difference(format!(
            "not so: {what}\n{}",
            lines(request).join("\n")
        ))),
    }
}

fn lines(request: &Paging) -> Vec<String> {
    let mut lines = named("page of a session", &request.named);
    lines.extend([
        bytes("capture", &request.capture),
        format!("n {}", request.n),
        format!("profile {}", request.profile),
        format!("most {}", request.most),
        bytes("buffer before", &request.buffer),
    ]);
    lines
}

fn named(call: &str, request: &Named) -> Vec<String> {
    let (place, key) = (request.place, request.key);
    let mut lines = vec![format!("{call} at place {place} for key {key}")];
    lines.extend(list(&request.sessions));
    lines
}

/// The list before a call, place by place.
fn list(sessions: &[Session]) -> Vec<String> {
    let places = sessions.iter().enumerate().take(2 * PLACES_MOST);
    let mut lines = vec![format!("list of {} places", sessions.len())];
    lines.extend(places.map(|(place, session)| format!("place {place}: {session:?}")));
    lines
}
