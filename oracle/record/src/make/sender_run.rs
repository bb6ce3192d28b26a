//! A sender under test: the calls on it, and what its last answer said.

use super::frozen::train_of;
use super::receiver_run::{any_peer, any_protocol};
use crate::fields::MAP_OCTETS;
use crate::list::{DONE, Recorder};
use crate::octets::{Put, Take};
use crate::play::plan::{Frozen, Wanted};
use crate::play::sender::{
    ACCEPTED, ADVANCE, CANCEL, LOWER_FAILED, OPEN, OPEN_FROZEN, Opening, RESPONSE, Reply,
    STATE_OCTETS, SUBMITTED, Sending,
};
use crate::profiles::WAITS;
use crate::random::Random;

pub const SEGMENT_INTERVAL_MS: u64 = WAITS.sender;
/// The last queued reading at which submitted can still set a deadline.
pub const LAST_QUEUED: u64 = u64::MAX - SEGMENT_INTERVAL_MS;

const CLOCK_REGRESSION: u8 = 33;

pub const PREPARED: u8 = 0;
pub const AWAITING_ACCEPT: u8 = 1;
pub const AWAITING_RESPONSE: u8 = 2;

/// Which submission a call names.
#[derive(Clone, Copy)]
pub enum Token {
    /// The one offered last, which is also the one that AwaitingAccept waits for.
    Last,
    /// Any that was offered, mostly one that no longer counts.
    Earlier,
    /// One of another sender, with the ticket that was offered last.
    Foreign,
}

pub struct SenderRun<'a> {
    pub record: &'a mut Recorder<Sending>,
    pub opening: Opening,
    pub transaction: u8,
    pub window: u8,
    /// Segment by segment, whether it was ever submitted.
    pub submitted: Vec<bool>,
    /// The sender's last reading, as far as the answers tell.
    pub now: u64,
    /// The highest reading of any call. A late call that is refused may have taken its reading.
    highest: u64,
    /// The reading of the last call, if that call was refused.
    pub refused_at: Option<u64>,
    pub deadline: Option<u64>,
    pub state: u8,
    tickets: Vec<u64>,
    /// The index that the last ticket stands for, and the reading at which it was made.
    index: usize,
    pub prepared: u64,
    submissions: u64,
    /// How many calls the list has, try_new's included.
    pub calls: usize,
}

impl<'a> SenderRun<'a> {
    /// Calls try_new with what the planner makes of `wanted`, or where equality leaves the planner
    /// out, with the frozen train of the same segments; there is no run where it refuses.
    pub fn open(
        record: &'a mut Recorder<Sending>,
        wanted: &Wanted,
        opening: Opening,
    ) -> Option<Self> {
        if wanted.is_left_out() {
            return Self::open_frozen(record, &train_of(wanted), opening);
        }
        let plan = wanted
            .segmented()
            .expect("the message is cut into segments");
        let mut input = Vec::new();
        wanted.put(&mut input);
        opening.put(&mut input);
        let answer = record.call(OPEN, &input);
        let train = (wanted.transaction, wanted.window, plan.segments().len());
        Self::begin(record, opening, train, &answer)
    }

    /// Calls try_new with an accepted frozen plan.
    pub fn open_frozen(
        record: &'a mut Recorder<Sending>,
        frozen: &Frozen,
        opening: Opening,
    ) -> Option<Self> {
        let plan = frozen.check().expect("a true cutting");
        let mut input = Vec::new();
        frozen.put_fixed(&mut input);
        opening.put(&mut input);
        frozen.put_heads(&mut input);
        let answer = record.call(OPEN_FROZEN, &input);
        let transaction = frozen.heads[0].segment.transaction_id;
        let window = plan.acknowledgment_window() as u8;
        Self::begin(
            record,
            opening,
            (transaction, window, frozen.count),
            &answer,
        )
    }

    fn begin(
        record: &'a mut Recorder<Sending>,
        opening: Opening,
        (transaction, window, count): (u8, u8, usize),
        answer: &[u8],
    ) -> Option<Self> {
        let now = opening.reading;
        let mut run = Self {
            record,
            opening,
            transaction,
            window,
            submitted: vec![false; count],
            now,
            highest: now,
            refused_at: None,
            deadline: None,
            state: PREPARED,
            tickets: Vec::new(),
            index: 0,
            prepared: now,
            submissions: 0,
            calls: 0,
        };
        (answer[0] == DONE).then(|| {
            run.learn(now, answer);
            run
        })
    }

    pub fn random(&mut self) -> &mut Random {
        &mut self.record.random
    }

    pub fn count(&self) -> usize {
        self.submitted.len()
    }

    fn call(&mut self, op: u8, input: &[u8], reading: u64) {
        let answer = self.record.call(op, input);
        self.learn(reading, &answer);
    }

    pub fn advance(&mut self, reading: u64) {
        self.call(ADVANCE, &reading.to_be_bytes(), reading);
    }

    pub fn cancel(&mut self, reading: u64) {
        self.call(CANCEL, &reading.to_be_bytes(), reading);
    }

    fn token(&mut self, token: Token) -> Vec<u8> {
        let last = *self.tickets.last().expect("a new sender offers");
        let (ticket, foreign) = match token {
            Token::Last => (last, false),
            Token::Earlier => {
                let place = self.record.random.below(self.tickets.len());
                (self.tickets[place], false)
            }
            Token::Foreign => (last, true),
        };
        let mut input = Vec::new();
        input.put64(ticket);
        input.put8(u8::from(foreign));
        input
    }

    pub fn submit(&mut self, token: Token, queued: u64, observed: u64) {
        let mut input = self.token(token);
        input.put64(queued);
        input.put64(observed);
        self.call(SUBMITTED, &input, observed);
    }

    pub fn accept(&mut self, token: Token, reading: u64) {
        let mut input = self.token(token);
        input.put64(reading);
        self.call(ACCEPTED, &input, reading);
    }

    /// `failure` is its number and the cause.
    pub fn fail_with(&mut self, token: Token, failure: [u8; 2], reading: u64) {
        let mut input = self.token(token);
        input.put_all(&failure);
        input.put64(reading);
        self.call(LOWER_FAILED, &input, reading);
    }

    pub fn respond(&mut self, reply: &Reply) {
        let mut input = Vec::new();
        reply.put(&mut input);
        self.call(RESPONSE, &input, reply.reading);
    }

    /// A response of this sender's peer with the given entries; `set` says which are received.
    pub fn reply(&self, status: u8, entries: usize, set: impl Fn(usize) -> bool) -> Reply {
        let mut map = [0; MAP_OCTETS];
        for index in (0..entries.min(8 * MAP_OCTETS)).filter(|index| set(*index)) {
            map[index / 8] |= 1 << (index % 8);
        }
        Reply {
            peer: self.opening.peer,
            protocol: self.opening.protocol,
            transaction: self.transaction,
            status,
            entries,
            map,
            support: None,
            unparsed: 0,
            reading: self.now,
        }
    }

    fn learn(&mut self, reading: u64, answer: &[u8]) {
        self.calls += 1;
        let done = answer[0] == DONE;
        self.refused_at = (!done).then_some(reading);
        if done {
            self.now = reading;
        } else if answer[1] == CLOCK_REGRESSION && reading >= self.now {
            self.now = self.highest;
        }
        self.highest = self.highest.max(reading);
        let mut take = Take(&answer[answer.len() - STATE_OCTETS..]);
        self.state = take.octets(4)[0];
        let running = take.flag();
        let deadline = take.take64();
        self.deadline = running.then_some(deadline);
        let submissions = take.take64();
        if submissions > self.submissions {
            self.submitted[self.index] = true;
        }
        self.submissions = submissions;
        let offered = take.flag();
        let ticket = take.take64();
        if offered && self.tickets.last() != Some(&ticket) {
            self.tickets.push(ticket);
            self.index = take.take16();
            self.prepared = reading;
        }
    }

    /// A reading a little after the last one.
    pub fn soon(&mut self) -> u64 {
        let step = self.random().pick(&[0, 0, 1, 7, 900]);
        self.now.saturating_add(step)
    }

    /// A reading that is not below the last one, and before the deadline if one runs.
    pub fn safe(&mut self) -> u64 {
        let reading = match self.random().below(12) {
            0 => self
                .deadline
                .map_or(self.now, |deadline| deadline.max(1) - 1),
            1 => self
                .refused_at
                .map_or(self.now, |reading| reading.max(1) - 1),
            _ => self.soon(),
        };
        let reading = reading.max(self.now);
        self.deadline
            .map_or(reading, |deadline| reading.min(deadline.max(1) - 1))
    }

    /// Any reading, most of them at a place where a rule changes.
    pub fn any(&mut self) -> u64 {
        let deadline = self.deadline.unwrap_or(self.now);
        match self.random().below(12) {
            0 => self.now.saturating_sub(1),
            1 => deadline.saturating_sub(1),
            2 | 3 => deadline,
            4 => deadline.saturating_add(1),
            5 => self.now.saturating_add(SEGMENT_INTERVAL_MS),
            6 => self.now.saturating_add(2 * SEGMENT_INTERVAL_MS),
            7 => self.refused_at.unwrap_or(self.now).saturating_sub(1),
            _ => self.soon(),
        }
    }
}

pub fn any_opening(random: &mut Random) -> Opening {
    Opening {
        peer: any_peer(random),
        protocol: any_protocol(random),
        version: random.pick(&[1, 1, 4, 5, 6, 255]),
        reading: random.pick(&[0, 1, 1000, 1 << 33, LAST_QUEUED - 3_000_000]),
    }
}

/// A message that the planner cuts into exactly `count` segments, at least 2.
pub fn wanted(random: &mut Random, window: u8, count: usize) -> Wanted {
    const BUDGET: usize = 12;
    // A Begin states the length, and has services unless the window is Prohibited.
    let begin = if window == 0 { BUDGET - 5 } else { BUDGET - 7 };
    let later = BUDGET - 3;
    Wanted {
        message_octets: (begin + later * (count - 2) + 1 + random.below(later)).max(BUDGET + 1),
        seed: random.octet(),
        budget: BUDGET,
        ceiling: BUDGET,
        transaction: random.below(8) as u8,
        window,
        version: 1,
    }
}
