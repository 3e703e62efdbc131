//! Writing compared, and what was written read back.

use crate::client::Reply;
use crate::compare::{bytes, hex, Comparison, Pair, Stop};
use crate::coverage_write;
use model::capture::{unpack, LONGEST};
use model::inverse::{check, split};
use model::page::{self, page};
use model::requests::Lent;
use model::rng::Rng;
use model::silence::{Silence, SORTS};
use model::spoil::{nonsense, spoil};
use model::stretches::Stretch;
use model::sweeps::{sweep, SWEEPS};
use model::write::{write, Request, Written};

impl Comparison {
    /// Runs as they were read, records made by hand, and both of them spoilt.
    pub fn write_case(&mut self, rng: &mut Rng, lent: &Lent) -> Result<(), Stop> {
        let mut runs = Vec::new();
        let reads = match lent.capture.n() {
            _ if lent.too_long() => 0,
            0..10_000 => 2,
            _ => 1,
        };
        for _ in 0..reads {
            let cursor = lent.cursor(rng);
            let run = Stretch::read(rng, &lent.capture, cursor);
            self.own_bits(rng, lent, &run)?;
            runs.push(run);
        }
        for _ in 0..3 {
            runs.push(Stretch::made(rng));
            let request = runs[runs.len() - 1].lend(rng);
            self.write(rng, &request)?;
        }
        for _ in 0..7 {
            let mut spoilt = runs[rng.below(runs.len())].clone();
            for _ in 0..rng.of(&[1, 1, 1, 2, 3]) {
                spoil(rng, &mut spoilt);
            }
            let mut request = spoilt.lend(rng);
            if rng.once_in(5) {
                nonsense(rng, &mut request);
            }
            self.write(rng, &request)?;
        }
        if rng.once_in(40) {
            let request = Stretch::full(rng).lend(rng);
            self.write(rng, &request)?;
        }
        Ok(())
    }

    /// A run without a gap, written from the cursor that it was read at, is the capture's own bits.
    fn own_bits(&mut self, rng: &mut Rng, lent: &Lent, run: &Stretch) -> Result<(), Stop> {
        let request = run.lend(rng);
        let reply = self.write(rng, &request)?;
        let (from, to) = (run.from.position, run.to.position);
        let taken = reply.answer.number == 0;
        let fits = 8 * request.buffer.len() >= to && request.buffer.len() <= LONGEST;
        if self.own_checks && fits != taken {
            return Err(Stop::Model(format!("a run that was read: {request:?}")));
        }
        if taken && !run.records.is_empty() {
            self.writing.add("own bits");
            if unpack(&reply.buffer)[from..to] != lent.capture.bits[from..to] {
                let text = "a run as it was read is not the capture's own bits";
                return Err(Stop::Difference(text.to_string()));
            }
        }
        Ok(())
    }

    /// Every value of one field of a record.
    pub fn sweep(&mut self, rng: &mut Rng, turn: u64) -> Result<(), Stop> {
        let index = turn as usize % SWEEPS;
        for request in sweep(rng, index) {
            self.write(rng, &request)?;
        }
        self.writing.add(&format!("sweep {index}"));
        Ok(())
    }

    /// A silence frame of the case's sort, paged and written.
    pub fn silence_case(&mut self, rng: &mut Rng, case: u64) -> Result<(), Stop> {
        let silence = Silence::new(rng, case as usize % SORTS);
        let paging = silence.page(rng);
        self.page(rng, &paging, &page(&paging))?;
        let writing = silence.write(rng);
        self.write(rng, &writing)?;
        Ok(())
    }

    /// Makes one call of writing and compares every number and every byte; what was taken is read
    /// back; then the model's own judgement is held against its reading.
    fn write(&mut self, rng: &mut Rng, request: &Request) -> Result<Reply, Stop> {
        let expected = write(request);
        self.calls += 1;
        let reply = self.client.write(request, rng.draw() & 3, rng.draw() & 255);
        let pair = Pair {
            answer: &expected.answer,
            buffer: &expected.buffer,
            sessions: &[],
            got: reply.as_ref(),
        };
        if !pair.same() {
            return Err(pair.difference(lines(request, &expected)));
        }
        let reply = reply.map_err(Stop::Difference)?;
        coverage_write::count(&mut self.writing, request, &expected);
        if expected.answer.number == 0 {
            self.read_back(rng, request, &reply)?;
        }
        if self.own_checks && request.records.len() < 2_000 {
            check(request, &expected).map_err(Stop::Model)?;
        }
        Ok(reply)
    }

    /// Paging from the cursor that was written at, to where writing ended, gives the records.
    fn read_back(&mut self, rng: &mut Rng, request: &Request, reply: &Reply) -> Result<(), Stop> {
        let paging = page::Request {
            capture: reply.buffer.clone(),
            n: reply.answer.position,
            direction: request.direction,
            profile: request.profile,
            position: request.position,
            context: request.context,
            most: reply.answer.items.max(1),
            buffer: vec![rng.draw() as u8; request.records.len() + rng.below(3)],
        };
        let back = self.page(rng, &paging, &page(&paging))?;
        self.writing.add("read back");
        let cursor = (reply.answer.position, reply.answer.context);
        let same = back.buffer[..back.answer.bytes as usize] == request.records
            && (back.answer.position, back.answer.context) == cursor
            && back.answer.items == reply.answer.items;
        match same {
            true => Ok(()),
            false => Err(Stop::Difference(format!(
                "what was written does not read back\n{}",
                lines(request, &write(request)).join("\n")
            ))),
        }
    }
}

/// A request, the records that the model takes, and why it refuses.
fn lines(request: &Request, expected: &Written) -> Vec<String> {
    let mut lines = vec![
        bytes("writing of records", &request.records),
        format!("direction {}", request.direction),
        format!("profile {}", request.profile),
        format!("position {}", request.position),
        format!("context {}", request.context),
        bytes("buffer before", &request.buffer),
    ];
    if expected.answer.number > 3 {
        let (before, rest) = split(&request.records, expected.answer.index);
        lines.push(format!("records before: {}", hex(before)));
        lines.push(format!("from the record that fails on: {}", hex(rest)));
    }
    lines.push(format!("model's causes: {:?}", expected.causes));
    lines
}
