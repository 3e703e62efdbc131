//! The comparison: the library, called through the client, against the model.

use crate::client::{Client, Reply};
use crate::coverage::Counts;
use model::answer::Answer;
use model::families;
use model::requests::Lent;
use model::rng::Rng;
use model::sessions::{bytes as bytes_of, Session};
use std::mem::size_of;

/// Why a comparison stops.
pub enum Stop {
    /// Library and model differ.
    Difference(String),
    /// The model breaks the rules itself.
    Model(String),
}

pub struct Comparison {
    pub client: Client,
    pub paging: Counts,
    pub writing: Counts,
    pub taking: Counts,
    pub putting: Counts,
    pub opening: Counts,
    pub paging_sessions: Counts,
    pub closing: Counts,
    pub calls: u64,
    /// Whether the model is held against itself too.
    pub own_checks: bool,
}

/// In how many cases there is one sweep of records, one of timeslots and one of sessions. The default
/// run makes each sweep once at least.
const SWEEP_EACH: u64 = 8;
const TIMESLOT_SWEEP_EACH: u64 = 2 * SWEEP_EACH;
const SESSION_SWEEP_EACH: u64 = 4 * SWEEP_EACH;

impl Comparison {
    pub fn new(client: Client, own_checks: bool) -> Comparison {
        Comparison {
            client,
            paging: Counts::default(),
            writing: Counts::default(),
            taking: Counts::default(),
            putting: Counts::default(),
            opening: Counts::default(),
            paging_sessions: Counts::default(),
            closing: Counts::default(),
            calls: 0,
            own_checks,
        }
    }

    /// One case: a capture, requests of paging for it, requests of writing, requests for channels of
    /// timeslots, and sometimes a script of calls on sessions.
    pub fn case(&mut self, seed: u64, case: u64) -> Result<(), Stop> {
        let mut rng = Rng::new(seed, case);
        let made = families::make(&mut rng);
        self.paging.add(&format!("{:?}", made.family));
        let lent = Lent::new(&mut rng, made);
        self.page_case(&mut rng, &lent)?;
        self.write_case(&mut rng, &lent)?;
        self.silence_case(&mut rng, case)?;
        if let (turn, 0) = (case / SWEEP_EACH, case % SWEEP_EACH) {
            self.sweep(&mut rng, turn)?;
        }
        self.timeslot_case(&mut rng, &lent)?;
        if let (turn, 0) = (case / TIMESLOT_SWEEP_EACH, case % TIMESLOT_SWEEP_EACH) {
            self.timeslot_sweep(&mut rng, turn)?;
        }
        self.session_case(&mut rng, &lent)?;
        if let (turn, 0) = (case / SESSION_SWEEP_EACH, case % SESSION_SWEEP_EACH) {
            self.session_sweep(&mut rng, turn)?;
        }
        Ok(())
    }
}

/// What the model expects of a call, and what the library did.
pub struct Pair<'a> {
    pub answer: &'a Answer,
    pub buffer: &'a [u8],
    pub sessions: &'a [Session],
    pub got: Result<&'a Reply, &'a String>,
}

impl Pair<'_> {
    /// Every number and every byte is as it should be.
    pub fn same(&self) -> bool {
        self.got.is_ok_and(|reply| {
            reply.answer == *self.answer
                && reply.buffer == self.buffer
                && reply.sessions == bytes_of(self.sessions)
                && reply.flags == 0
        })
    }

    /// Both sides in full, behind lines that say what was asked.
    pub fn difference(&self, mut lines: Vec<String>) -> Stop {
        lines.push(format!("model:   {:?}", self.answer));
        match self.got {
            Err(error) => lines.push(format!("library: {error}")),
            Ok(reply) => {
                let (answer, flags) = (reply.answer, reply.flags);
                lines.push(format!("library: {answer:?}, flags {flags}"));
                lines.push(format!("model's buffer after:   {}", hex(self.buffer)));
                lines.push(format!("library's buffer after: {}", hex(&reply.buffer)));
                let mut bytes = self.buffer.iter().zip(&reply.buffer);
                if let Some(at) = bytes.position(|(one, other)| one != other) {
                    lines.push(format!("the buffers differ first at byte {at}"));
                }
                lines.extend(self.places(&reply.sessions));
            }
        }
        Stop::Difference(lines.join("\n"))
    }

    /// The places of the list of sessions that differ.
    fn places(&self, list: &[u8]) -> Vec<String> {
        let model = self.sessions.iter().enumerate();
        let both = model.zip(list.chunks(size_of::<Session>()));
        let differ = both.filter(|((_, session), bytes)| bytes_of(&[**session]) != *bytes);
        let line = |((place, session), bytes)| {
            format!("place {place}: model {session:?}, library {}", hex(bytes))
        };
        differ.map(line).collect()
    }
}

/// Bytes with their count.
pub fn bytes(name: &str, bytes: &[u8]) -> String {
    format!("{name} ({} bytes): {}", bytes.len(), hex(bytes))
}

pub fn hex(bytes: &[u8]) -> String {
    let digits = bytes.iter().take(4_096).map(|byte| format!("{byte:02X}"));
    let more = if bytes.len() > 4_096 { ".." } else { "" };
    digits.collect::<String>() + more
}
