//! A receiver under test: the calls on it, and what its last answer said.

use crate::list::{DONE, Recorder};
use crate::octets::Take;
use crate::play::receiver::{
    ADVANCE, CANCEL, Data, Delivery, NO_PATCH, OPEN, Opening, RECEIVE, Receiving, STATE_OCTETS,
};
use crate::profiles::WAITS;
use crate::random::Random;
use bts136::l3::relay::HigherLayerProtocol;
use bts136::l3::tsar::Segment;
use bts136::link::rach::MobileIdentity;

pub const REASSEMBLY_MS: u64 = WAITS.receiver;
/// The last reading at which receive can still set a deadline.
pub const LAST_READING: u64 = u64::MAX - REASSEMBLY_MS;

pub const AWAITING_BEGIN: u8 = 0;
pub const RECEIVING: u8 = 1;

/// A segment, its data told by length and seed.
#[derive(Clone)]
pub struct Part {
    pub segment: Segment,
    pub data: Data,
}

impl Part {
    pub fn new(segment: Segment, octets: usize, seed: u8) -> Self {
        let data = Data {
            octets,
            seed,
            patch_position: NO_PATCH,
            patch_change: 0,
        };
        Self { segment, data }
    }
}

pub struct ReceiverRun<'a> {
    pub record: &'a mut Recorder<Receiving>,
    pub opening: Opening,
    /// The receiver's last reading, as far as the answers tell.
    pub now: u64,
    /// The reading of the last call, if that call was refused.
    pub refused_at: Option<u64>,
    pub deadline: Option<u64>,
    pub state: u8,
    /// How many calls the list has, try_new's included.
    pub calls: usize,
}

impl<'a> ReceiverRun<'a> {
    /// Calls try_new; there is no run where it refuses.
    pub fn open(record: &'a mut Recorder<Receiving>, opening: Opening) -> Option<Self> {
        let mut input = Vec::new();
        opening.put(&mut input);
        let answer = record.call(OPEN, &input);
        (answer[0] == DONE).then_some(Self {
            record,
            now: opening.reading,
            opening,
            refused_at: None,
            deadline: None,
            state: AWAITING_BEGIN,
            calls: 1,
        })
    }

    pub fn random(&mut self) -> &mut Random {
        &mut self.record.random
    }

    pub fn is_open(&self) -> bool {
        self.state <= RECEIVING
    }

    pub fn delivery(&self, part: &Part, reading: u64) -> Delivery {
        Delivery {
            peer: self.opening.peer,
            protocol: self.opening.protocol,
            segment: part.segment.clone(),
            data: part.data,
            unparsed: 0,
            reading,
        }
    }

    pub fn deliver(&mut self, delivery: &Delivery) {
        let mut input = Vec::new();
        delivery.put(&mut input);
        let answer = self.record.call(RECEIVE, &input);
        self.learn(delivery.reading, &answer);
    }

    pub fn receive(&mut self, part: &Part, reading: u64) {
        let delivery = self.delivery(part, reading);
        self.deliver(&delivery);
    }

    pub fn advance(&mut self, reading: u64) {
        let answer = self.record.call(ADVANCE, &reading.to_be_bytes());
        self.learn(reading, &answer);
    }

    pub fn cancel(&mut self, reading: u64) {
        let answer = self.record.call(CANCEL, &reading.to_be_bytes());
        self.learn(reading, &answer);
    }

    fn learn(&mut self, reading: u64, answer: &[u8]) {
        self.calls += 1;
        let done = answer[0] == DONE;
        self.refused_at = (!done).then_some(reading);
        if done {
            self.now = reading;
        }
        let mut take = Take(&answer[answer.len() - STATE_OCTETS..]);
        self.state = take.take8();
        take.take8();
        let running = take.flag();
        let deadline = take.take64();
        self.deadline = running.then_some(deadline);
    }

    /// A reading a little after the last one.
    pub fn soon(&mut self) -> u64 {
        let step = self.random().pick(&[0, 0, 1, 7, 900]);
        self.now.saturating_add(step)
    }

    /// A reading that is not below the last one, and not past the deadline if one runs.
    pub fn safe(&mut self) -> u64 {
        let reading = match self.random().below(12) {
            0 => self.deadline.unwrap_or(self.now),
            1 => self
                .deadline
                .map_or(self.now, |deadline| deadline.max(1) - 1),
            2 => self
                .refused_at
                .map_or(self.now, |reading| reading.max(1) - 1),
            _ => self.soon(),
        };
        let reading = reading.max(self.now);
        self.deadline
            .map_or(reading, |deadline| reading.min(deadline))
    }

    /// Any reading, most of them at a place where a rule changes.
    pub fn any(&mut self) -> u64 {
        let deadline = self.deadline.unwrap_or(self.now);
        match self.random().below(12) {
            0 => self.now.saturating_sub(1),
            1 => deadline.saturating_sub(1),
            2 => deadline,
            3 => deadline.saturating_add(1),
            4 => self.now.saturating_add(REASSEMBLY_MS),
            5 => self.now.saturating_add(REASSEMBLY_MS + 1),
            6 => self.refused_at.unwrap_or(self.now).saturating_sub(1),
            _ => self.soon(),
        }
    }
}

pub fn any_peer(random: &mut Random) -> MobileIdentity {
    let width = random.pick(&[1, 10, 24, 34, 50, 63]);
    let most = (1u64 << width) - 1;
    MobileIdentity {
        kind: random.below(4) as u8,
        width,
        value: match random.below(3) {
            0 => 1,
            1 => most,
            _ => (random.next() & most).max(1),
        },
    }
}

pub fn any_protocol(random: &mut Random) -> HigherLayerProtocol {
    let octet = random.octet();
    if random.once_in(2) {
        HigherLayerProtocol::Segmented(octet)
    } else {
        HigherLayerProtocol::CarrierSpecific(octet | 0xc0)
    }
}

/// Arguments that try_new accepts, with a maximum that binds nothing.
pub fn any_opening(random: &mut Random) -> Opening {
    Opening {
        peer: any_peer(random),
        protocol: any_protocol(random),
        transaction: random.below(8) as u8,
        version: random.pick(&[1, 1, 1, 4, 5, 255]),
        maximum: random.pick(&[65_280, 65_280, 65_281, 1 << 40, u64::MAX]),
        reading: random.pick(&[0, 1, 1000, 1 << 33, LAST_READING - 2_000_000]),
    }
}
