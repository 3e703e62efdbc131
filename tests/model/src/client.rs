//! The client process at the other end of two pipes, which calls the library.

use model::answer::Answer;
use model::sessions::{self, Named, Opening, Paging, Session};
use model::{page, timeslot, write};
use std::io::{Error, Read, Write};
use std::mem::size_of_val;
use std::process::{Child, ChildStdin, ChildStdout, Command, Stdio};

pub struct Client {
    child: Child,
    to: ChildStdin,
    from: ChildStdout,
}

/// What the client gives back. Flags: 1 the input changed, which is only read, 2 a guard byte around
/// it, 4 a guard byte around the buffer, 8 a guard byte around the list of sessions.
#[derive(Clone, Debug, PartialEq)]
pub struct Reply {
    pub answer: Answer,
    pub flags: u64,
    pub buffer: Vec<u8>,
    pub sessions: Vec<u8>,
}

/// The numbers of the calls in the client's protocol.
const CALL_PAGE: u64 = 1;
const CALL_WRITE: u64 = 2;
const CALL_TAKE: u64 = 3;
const CALL_PUT: u64 = 4;
const CALL_OPEN: u64 = 5;
const CALL_SESSION_PAGE: u64 = 6;
const CALL_CLOSE: u64 = 7;

/// A request as it is sent. What a call does not take is 0 or empty. The numbers are n (or a
/// channel), direction, profile, position, context and most; a session is named by place and key.
#[derive(Default)]
struct Message<'a> {
    call: u64,
    input: &'a [u8],
    numbers: [u64; 6],
    buffer: &'a [u8],
    sessions: &'a [Session],
    named: [u64; 2],
    capture: u64,
}

impl Message<'_> {
    fn bytes(&self, placement: u64, guard: u64) -> Vec<u8> {
        let head = [self.call, placement, guard, self.input.len() as u64];
        let lengths = [self.buffer.len() as u64, self.sessions.len() as u64];
        let last = [self.named[0], self.named[1], self.capture];
        let numbers = [&head[..], &self.numbers, &lengths, &last].concat();
        let mut bytes: Vec<u8> = numbers.into_iter().flat_map(u64::to_le_bytes).collect();
        bytes.extend(self.input);
        bytes.extend(self.buffer);
        bytes.extend(sessions::bytes(self.sessions));
        bytes
    }
}

impl Client {
    pub fn start(command: &[String]) -> Result<Client, Error> {
        let mut child = Command::new(&command[0])
            .args(&command[1..])
            .stdin(Stdio::piped())
            .stdout(Stdio::piped())
            .spawn()?;
        let to = child.stdin.take().expect("a pipe");
        let from = child.stdout.take().expect("a pipe");
        Ok(Client { child, to, from })
    }

    /// Makes one call of paging. Placement and guard byte are any numbers.
    pub fn page(&mut self, r: &page::Request, place: u64, guard: u64) -> Result<Reply, String> {
        let message = Message {
            call: CALL_PAGE,
            input: &r.capture,
            numbers: [
                r.n,
                r.direction,
                u64::from(r.profile),
                r.position,
                r.context,
                r.most,
            ],
            buffer: &r.buffer,
            ..Message::default()
        };
        self.call(&message, place, guard)
    }

    /// Makes one call of writing, which takes neither n nor most.
    pub fn write(&mut self, r: &write::Request, place: u64, guard: u64) -> Result<Reply, String> {
        let profile = u64::from(r.profile);
        let message = Message {
            call: CALL_WRITE,
            input: &r.records,
            numbers: [0, r.direction, profile, r.position, r.context, 0],
            buffer: &r.buffer,
            ..Message::default()
        };
        self.call(&message, place, guard)
    }

    /// Takes a channel out: the buffer is for its bytes.
    pub fn take(&mut self, r: &timeslot::Request, place: u64, guard: u64) -> Result<Reply, String> {
        let message = Message {
            call: CALL_TAKE,
            input: &r.timeslot,
            numbers: [r.channel, 0, 0, 0, 0, 0],
            buffer: &r.bytes,
            ..Message::default()
        };
        self.call(&message, place, guard)
    }

    /// Puts a channel back: the buffer is the timeslot.
    pub fn put(&mut self, r: &timeslot::Request, place: u64, guard: u64) -> Result<Reply, String> {
        let message = Message {
            call: CALL_PUT,
            input: &r.bytes,
            numbers: [r.channel, 0, 0, 0, 0, 0],
            buffer: &r.timeslot,
            ..Message::default()
        };
        self.call(&message, place, guard)
    }

    /// Opens a session.
    pub fn open(&mut self, r: &Opening, place: u64, guard: u64) -> Result<Reply, String> {
        let message = Message {
            call: CALL_OPEN,
            numbers: [0, r.direction, 0, 0, 0, 0],
            sessions: &r.sessions,
            named: [0, r.key],
            capture: r.capture,
            ..Message::default()
        };
        self.call(&message, place, guard)
    }

    /// Makes one call for a page of a session, which brings direction and cursor.
    pub fn session_page(&mut self, r: &Paging, place: u64, guard: u64) -> Result<Reply, String> {
        let message = Message {
            call: CALL_SESSION_PAGE,
            input: &r.capture,
            numbers: [r.n, 0, u64::from(r.profile), 0, 0, r.most],
            buffer: &r.buffer,
            sessions: &r.named.sessions,
            named: [r.named.place, r.named.key],
            capture: 0,
        };
        self.call(&message, place, guard)
    }

    /// Closes a session.
    pub fn close(&mut self, r: &Named, place: u64, guard: u64) -> Result<Reply, String> {
        let message = Message {
            call: CALL_CLOSE,
            sessions: &r.sessions,
            named: [r.place, r.key],
            ..Message::default()
        };
        self.call(&message, place, guard)
    }

    fn call(&mut self, message: &Message, place: u64, guard: u64) -> Result<Reply, String> {
        self.try_call(message, place, guard).map_err(|error| {
            let end = self.child.wait();
            format!("the client ended within the call ({error}; {end:?})")
        })
    }

    fn try_call(&mut self, message: &Message, place: u64, guard: u64) -> Result<Reply, Error> {
        self.to.write_all(&message.bytes(place, guard))?;
        self.to.flush()?;
        let mut numbers = [0; 7 * 8];
        self.from.read_exact(&mut numbers)?;
        let number = |i: usize| {
            let eight = numbers[8 * i..8 * i + 8].try_into();
            u64::from_le_bytes(eight.expect("eight bytes"))
        };
        let mut buffer = vec![0; message.buffer.len()];
        self.from.read_exact(&mut buffer)?;
        let mut sessions = vec![0; size_of_val(message.sessions)];
        self.from.read_exact(&mut sessions)?;
        let answer = Answer {
            number: number(0),
            index: number(1),
            items: number(2),
            bytes: number(3),
            position: number(4),
            context: number(5),
        };
        Ok(Reply {
            answer,
            flags: number(6),
            buffer,
            sessions,
        })
    }
}
