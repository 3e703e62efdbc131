//! Paging compared.

use crate::client::Reply;
use crate::compare::{bytes, Comparison, Pair, Stop};
use crate::coverage_page;
use model::capture::LONGEST;
use model::page::{page, page_of, Page, Request};
use model::reading::{reading, Cursor, Item};
use model::record::record;
use model::requests::{nonsense, twin, Lent};
use model::rng::Rng;
use model::rules;

impl Comparison {
    /// Some requests for a capture, sometimes harvests; then the rules on the model's own reading.
    pub fn page_case(&mut self, rng: &mut Rng, lent: &Lent) -> Result<(), Stop> {
        for _ in 0..8 {
            let mut request = lent.request(rng);
            if rng.once_in(5) {
                nonsense(rng, &mut request);
            }
            let expected = page(&request);
            self.page(rng, &request, &expected)?;
            if request.n <= 8 * request.capture.len() as u64 && rng.once_in(3) {
                let twin = twin(rng, &request);
                self.page(rng, &twin, &expected)?;
                self.paging.add("twin");
            }
        }
        if lent.too_long() {
            return Ok(());
        }
        if rng.once_in(3) || lent.bytes.len() == LONGEST {
            self.harvest(rng, lent)?;
        }
        if rng.once_in(if lent.long() { 3 } else { 10 }) {
            self.polled_harvest(rng, lent)?;
        }
        if !self.own_checks {
            return Ok(());
        }
        let mut cursors = vec![Cursor {
            position: 0,
            context: 0,
        }];
        if !lent.long() {
            let position = rng.below(lent.capture.n() + 1);
            let context = rng.below(6) as u64;
            cursors.push(Cursor { position, context });
        }
        for cursor in cursors {
            let items: Vec<Item> = reading(&lent.capture, cursor).collect();
            rules::check(&lent.capture, cursor, &items).map_err(Stop::Model)?;
        }
        Ok(())
    }

    /// Pages of random sizes from bit 0 in context 0, joined and compared with the whole reading.
    pub fn harvest(&mut self, rng: &mut Rng, lent: &Lent) -> Result<(), Stop> {
        let capture = &lent.capture;
        let start = Cursor {
            position: 0,
            context: 0,
        };
        let whole: Vec<u8> = reading(capture, start)
            .flat_map(|item| record(&item))
            .collect();
        let largest = match lent.long() {
            true => rng.of(&[3_000, 100_000]),
            false => rng.of(&[40, 80, 300, 3_000]),
        };
        let mut joined: Vec<u8> = Vec::new();
        let mut request = Request {
            capture: lent.bytes.clone(),
            n: capture.n() as u64,
            direction: capture.terms.direction as u64,
            profile: capture.terms.profile,
            position: 0,
            context: 0,
            most: 1,
            buffer: Vec::new(),
        };
        loop {
            request.most = rng.of(&[1, 2, 5, 50, u64::MAX]);
            request.buffer = vec![rng.draw() as u8; rng.below(largest + 1)];
            let expected = page_of(&request, capture);
            let answer = self.page(rng, &request, &expected)?;
            joined.extend(&answer.buffer[..answer.answer.bytes as usize]);
            request.position = answer.answer.position;
            request.context = answer.answer.context;
            if answer.answer.number == 0 && answer.answer.items == 0 {
                break;
            }
        }
        self.paging.add("harvest");
        if lent.bytes.len() == LONGEST {
            self.paging.add("full harvest");
        }
        match joined == whole && request.position == request.n {
            true => Ok(()),
            false => Err(Stop::Difference(
                "a harvest is not the whole reading".to_string(),
            )),
        }
    }

    /// Makes one call of paging and compares every number and every byte.
    pub fn page(
        &mut self,
        rng: &mut Rng,
        request: &Request,
        expected: &Page,
    ) -> Result<Reply, Stop> {
        self.calls += 1;
        let reply = self.client.page(request, rng.draw() & 3, rng.draw() & 255);
        let pair = Pair {
            answer: &expected.answer,
            buffer: &expected.buffer,
            sessions: &[],
            got: reply.as_ref(),
        };
        if !pair.same() {
            return Err(pair.difference(lines(request, expected)));
        }
        coverage_page::count(&mut self.paging, request, expected);
        reply.map_err(Stop::Difference)
    }
}

/// A request, and the items that the model expects.
fn lines(request: &Request, expected: &Page) -> Vec<String> {
    let mut lines = vec![
        bytes("paging of capture", &request.capture),
        format!("n {}", request.n),
        format!("direction {}", request.direction),
        format!("profile {}", request.profile),
        format!("position {}", request.position),
        format!("context {}", request.context),
        format!("most {}", request.most),
        bytes("buffer before", &request.buffer),
    ];
    let items = expected.items.iter();
    lines.extend(items.map(|item| format!("model's item: {item:?}")));
    lines
}
