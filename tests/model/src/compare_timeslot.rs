//! Channels taken out of timeslots and put back, compared, and what holds of both calls together.

use crate::client::Reply;
use crate::compare::{bytes, Comparison, Pair, Stop};
use crate::coverage_timeslot::{self, EITHER_ORDER, GOES_ON, OWN_BITS, SAME_TIMESLOT};
use model::capture::unpack;
use model::requests::{garbage, Lent};
use model::rng::Rng;
use model::timeslot::{put, take, Done, Request, OCTETS_MOST};
use model::timeslots::{channels, lengths, nonsense, room, side_by_side, sound, sweep};

impl Comparison {
    /// A request of each call, and sometimes a claim on both together.
    pub fn timeslot_case(&mut self, rng: &mut Rng, lent: &Lent) -> Result<(), Stop> {
        let taking = any(rng);
        self.take(rng, &taking)?;
        let putting = any(rng);
        self.put(rng, &putting)?;
        match rng.below(16) {
            0 | 1 => self.same_timeslot(rng),
            2 | 3 => self.own_bits_of_channel(rng),
            4 | 5 => self.either_order(rng),
            6 => self.goes_on(rng, lent),
            _ => Ok(()),
        }
    }

    /// Both calls with timeslots of one length.
    pub fn timeslot_sweep(&mut self, rng: &mut Rng, turn: u64) -> Result<(), Stop> {
        let lengths = lengths();
        for request in sweep(rng, lengths[turn as usize % lengths.len()]) {
            self.take(rng, &request)?;
            self.put(rng, &request)?;
        }
        Ok(())
    }

    /// What was taken out and is put back, with garbage behind its bits, gives the same timeslot.
    fn same_timeslot(&mut self, rng: &mut Rng) -> Result<(), Stop> {
        let request = sound(rng);
        let mut bytes = self.take(rng, &request)?.buffer;
        garbage(rng, &mut bytes, request.timeslot.len());
        let back = Request {
            bytes,
            ..request.clone()
        };
        let after = self.put(rng, &back)?.buffer;
        self.putting.add(SAME_TIMESLOT);
        holds(
            after == request.timeslot,
            "a channel taken out and put back",
            &request,
        )
    }

    /// What was put back and is taken out is the channel's own bits.
    fn own_bits_of_channel(&mut self, rng: &mut Rng) -> Result<(), Stop> {
        let request = sound(rng);
        let octets = request.timeslot.len();
        let again = Request {
            timeslot: self.put(rng, &request)?.buffer,
            channel: request.channel,
            bytes: room(rng, octets),
        };
        let taken = unpack(&self.take(rng, &again)?.buffer);
        self.taking.add(OWN_BITS);
        let own = unpack(&request.bytes)[..octets] == taken[..octets];
        holds(own, "a channel put back and taken out", &request)
    }

    /// Two different channels go back in either order.
    fn either_order(&mut self, rng: &mut Rng) -> Result<(), Stop> {
        let one = sound(rng);
        let other = Request {
            channel: 1 + (one.channel + rng.below(7) as u64) % 8,
            bytes: room(rng, one.timeslot.len()),
            ..one.clone()
        };
        let mut after = Vec::new();
        for [first, second] in [[&one, &other], [&other, &one]] {
            let second = Request {
                timeslot: self.put(rng, first)?.buffer,
                ..second.clone()
            };
            after.push(self.put(rng, &second)?.buffer);
        }
        self.putting.add(EITHER_ORDER);
        holds(
            after[0] == after[1],
            "two channels put back in either order",
            &one,
        )
    }

    /// A channel taken out goes on to be harvested: n is the number of octets, and its pages are
    /// those of its own bits.
    fn goes_on(&mut self, rng: &mut Rng, lent: &Lent) -> Result<(), Stop> {
        let octets = lent.capture.n().min(OCTETS_MOST);
        let own = lent.cut(rng, octets);
        let channel = rng.below(8);
        let mut channels = channels(rng);
        channels[channel] = own.capture.bits.clone();
        let request = Request {
            timeslot: side_by_side(&channels, octets),
            channel: 1 + channel as u64,
            bytes: room(rng, octets),
        };
        let bytes = self.take(rng, &request)?.buffer;
        self.taking.add(GOES_ON);
        self.harvest(rng, &Lent { bytes, ..own })
    }

    fn take(&mut self, rng: &mut Rng, request: &Request) -> Result<Reply, Stop> {
        let expected = take(request);
        self.calls += 1;
        let reply = self.client.take(request, rng.draw() & 3, rng.draw() & 255);
        let reply = same("taking out of timeslot", request, &expected, reply)?;
        coverage_timeslot::count(&mut self.taking, request, &expected);
        Ok(reply)
    }

    fn put(&mut self, rng: &mut Rng, request: &Request) -> Result<Reply, Stop> {
        let expected = put(request);
        self.calls += 1;
        let reply = self.client.put(request, rng.draw() & 3, rng.draw() & 255);
        let reply = same("putting back into timeslot", request, &expected, reply)?;
        coverage_timeslot::count(&mut self.putting, request, &expected);
        coverage_timeslot::count_bits(&mut self.putting, request, &expected);
        Ok(reply)
    }
}

/// A request of either call, sometimes nonsense.
fn any(rng: &mut Rng) -> Request {
    let mut request = sound(rng);
    if rng.once_in(4) {
        nonsense(rng, &mut request);
    }
    request
}

/// The reply, where every number and every byte is as the model says.
fn same(
    call: &str,
    request: &Request,
    expected: &Done,
    reply: Result<Reply, String>,
) -> Result<Reply, Stop> {
    let pair = Pair {
        answer: &expected.answer,
        buffer: &expected.after,
        sessions: &[],
        got: reply.as_ref(),
    };
    if !pair.same() {
        let mut lines = lines(call, request);
        lines.push(format!("model's refusals: {:?}", expected.refusals));
        return Err(pair.difference(lines));
    }
    reply.map_err(Stop::Difference)
}

/// A claim on calls that were the same as the model's.
fn holds(claim: bool, what: &str, request: &Request) -> Result<(), Stop> {
    match claim {
        true => Ok(()),
        false => Err(Stop::Difference(format!(
            "not so: {what}\n{}",
            lines("first timeslot", request).join("\n")
        ))),
    }
}

fn lines(call: &str, request: &Request) -> Vec<String> {
    vec![
        bytes(call, &request.timeslot),
        format!("channel {}", request.channel),
        bytes("bytes before", &request.bytes),
    ]
}
