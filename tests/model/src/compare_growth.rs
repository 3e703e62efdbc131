//! Captures that grow, compared: a harvest that looks again and again while bits come.

use crate::client::Reply;
use crate::compare::{Comparison, Stop};
use crate::coverage_page::{GROWN, LONG_POLLED, NOTHING_KEPT, ONE_LESS, POLLED};
use model::growth::change;
use model::page::{page_of, Page, Request};
use model::reading::{reading, Cursor, Item};
use model::record::record;
use model::requests::Lent;
use model::rng::Rng;

/// A harvest under way. What it keeps is settled: more bits change nothing of it.
struct Harvest {
    /// The cursor kept.
    cursor: Cursor,
    /// The records kept, joined.
    records: Vec<u8>,
    /// One of the pages kept, with its reply.
    page: Option<(Request, Reply)>,
    /// The last item of the last look, which is not kept and stands at the cursor.
    left: Option<Item>,
    /// The longest page buffer.
    largest: usize,
}

impl Harvest {
    /// One that begins at any cursor, mostly at bit 0 in context 0.
    fn new(rng: &mut Rng, lent: &Lent) -> Harvest {
        let cursor = match rng.once_in(4) {
            true => lent.cursor(rng),
            false => Cursor {
                position: 0,
                context: 0,
            },
        };
        let largest = match lent.long() {
            true => rng.of(&[3_000, 100_000]),
            false => rng.of(&[60, 150, 300, 3_000]),
        };
        Harvest {
            cursor,
            records: Vec::new(),
            page: None,
            left: None,
            largest,
        }
    }

    /// Any page from the cursor, of the capture as it is now.
    fn request(&self, rng: &mut Rng, now: &Lent) -> Request {
        Request {
            capture: now.bytes.clone(),
            n: now.capture.n() as u64,
            direction: now.capture.terms.direction as u64,
            profile: now.capture.terms.profile,
            position: self.cursor.position as u64,
            context: self.cursor.context,
            most: rng.of(&[1, 2, 3, 8, 50, u64::MAX]),
            buffer: vec![rng.draw() as u8; rng.below(self.largest + 1)],
        }
    }

    /// Keeps all items of a page.
    fn keep(&mut self, rng: &mut Rng, request: Request, reply: Reply) {
        let answer = reply.answer;
        self.records.extend(&reply.buffer[..answer.bytes as usize]);
        self.cursor = Cursor {
            position: answer.position as usize,
            context: answer.context,
        };
        if self.page.is_none() || rng.bit() {
            self.page = Some((request, reply));
        }
    }
}

impl Comparison {
    /// Looks at a capture while it grows to its n. What was kept, and then all up to n, must be the
    /// whole reading.
    pub fn polled_harvest(&mut self, rng: &mut Rng, lent: &Lent) -> Result<(), Stop> {
        let mut harvest = Harvest::new(rng, lent);
        let start = harvest.cursor;
        let end = lent.capture.n();
        let mut n = start.position;
        while n < end {
            let now = lent.cut(rng, n);
            self.ask_kept(rng, &harvest, &now)?;
            self.look(rng, &mut harvest, &now)?;
            n = lent.grow(rng, n);
        }
        self.ask_kept(rng, &harvest, lent)?;
        while harvest.cursor.position < end {
            let (request, reply, _) = self.next(rng, &mut harvest, lent)?;
            harvest.keep(rng, request, reply);
        }
        let sort = if lent.long() { LONG_POLLED } else { POLLED };
        self.paging.add(sort);
        let items = reading(&lent.capture, start);
        let whole: Vec<u8> = items.flat_map(|item| record(&item)).collect();
        match harvest.records == whole {
            true => Ok(()),
            false => Err(Stop::Difference(
                "a harvest of a growing capture is not the whole reading".to_string(),
            )),
        }
    }

    /// One look: pages are kept until one reaches n. Of that one all is kept but the last item: the
    /// same cursor is asked again with one item less, or kept as it is where there is no other.
    fn look(&mut self, rng: &mut Rng, harvest: &mut Harvest, now: &Lent) -> Result<(), Stop> {
        let kept = harvest.records.len();
        loop {
            let (request, reply, mut page) = self.next(rng, harvest, now)?;
            if reply.answer.position < request.n {
                harvest.keep(rng, request, reply);
                continue;
            }
            harvest.left = page.items.pop();
            if reply.answer.items > 1 {
                let most = reply.answer.items - 1;
                let buffer = reply.buffer;
                let request = Request {
                    most,
                    buffer,
                    ..request
                };
                let expected = page_of(&request, &now.capture);
                let reply = self.page(rng, &request, &expected)?;
                harvest.keep(rng, request, reply);
                self.paging.add(ONE_LESS);
            }
            break;
        }
        if harvest.records.len() == kept {
            self.paging.add(NOTHING_KEPT);
        }
        Ok(())
    }

    /// The next page from the cursor, asked for until the buffer has room for an item. Where the
    /// last look left an item there, it became the page's first in one of the known ways.
    fn next(
        &mut self,
        rng: &mut Rng,
        harvest: &mut Harvest,
        now: &Lent,
    ) -> Result<(Request, Reply, Page), Stop> {
        loop {
            let request = harvest.request(rng, now);
            let expected = page_of(&request, &now.capture);
            let reply = self.page(rng, &request, &expected)?;
            if reply.answer.number != 0 {
                continue;
            }
            if let (Some(left), Some(first)) = (harvest.left.take(), expected.items.first()) {
                let change = change(&left, first).map_err(Stop::Difference)?;
                self.paging.add(&format!("{change:?}"));
            }
            return Ok((request, reply, expected));
        }
    }

    /// A page kept at an earlier look, asked for again now: the answer and all bytes are the same.
    fn ask_kept(&mut self, rng: &mut Rng, harvest: &Harvest, now: &Lent) -> Result<(), Stop> {
        let Some((kept, reply)) = &harvest.page else {
            return Ok(());
        };
        if !rng.once_in(3) {
            return Ok(());
        }
        let request = Request {
            capture: now.bytes.clone(),
            n: now.capture.n() as u64,
            ..kept.clone()
        };
        let expected = page_of(&request, &now.capture);
        let grown = self.page(rng, &request, &expected)?;
        self.paging.add(GROWN);
        match grown == *reply {
            true => Ok(()),
            false => Err(Stop::Difference(format!(
                "a page below n {} is another at n {}",
                kept.n, request.n
            ))),
        }
    }
}
