//! Ops 30 to 37: a sender made by try_new, and the calls on it.

use super::plan::{Frozen, Wanted};
use crate::fields::{
    MAP_OCTETS, STATUSES, put_peer, put_protocol, put_reading, put_support, take_peer,
    take_protocol, take_support, width_is_served,
};
use crate::list::{DONE, Player};
use crate::octets::{Put, Take};
use crate::refusals::{self, IDENTITY, MAP_LENGTH, Refusal};
use crate::tokens::counted;
use bts136::l3::broadcast::ProtocolVersion;
use bts136::l3::relay::HigherLayerProtocol;
use bts136::l3::tsar::{
    AcknowledgmentMap, DecodedResponse, OptionalServicesSupport, Response, SegmentedMessage,
};
use bts136::link::rach::MobileIdentity;
use bts136::link::tsar::{
    Completion, Error, LowerLayerFailure, Sender, SenderFailure, SenderState, Submission,
};
use std::collections::BTreeMap;

pub const OPEN: u8 = 0x30;
pub const ADVANCE: u8 = 0x31;
pub const SUBMITTED: u8 = 0x32;
pub const ACCEPTED: u8 = 0x33;
pub const LOWER_FAILED: u8 = 0x34;
pub const RESPONSE: u8 = 0x35;
pub const OPEN_FROZEN: u8 = 0x36;
pub const CANCEL: u8 = 0x37;

/// State, deadline, submissions and offer, with which every answer of a sender ends.
pub const STATE_OCTETS: usize = 32;

pub struct Sending {
    pub open: Option<Open>,
    /// Gives the plan of a list that opens with a message: the original's planner, unless the driver has another.
    pub plan: fn(&Wanted) -> Option<SegmentedMessage>,
}

impl Default for Sending {
    fn default() -> Self {
        Self {
            open: None,
            plan: Wanted::segmented,
        }
    }
}

pub struct Open {
    pub sender: Sender,
    /// How many submissions the sender has made; the last of them has the ticket one below.
    pub made: u64,
    /// Every submission that was offered, under its ticket.
    pub offered: BTreeMap<u64, Submission>,
    /// What another sender offered.
    pub foreign: Submission,
}

impl Player for Sending {
    fn play(&mut self, op: u8, input: &[u8]) -> Vec<u8> {
        let mut take = Take(input);
        match op {
            OPEN => {
                let plan = (self.plan)(&Wanted::take(&mut take));
                let plan = plan.expect("the lists open senders with segmented plans");
                self.open(plan, &Opening::take(&mut take))
            }
            OPEN_FROZEN => {
                let mut frozen = Frozen::take_fixed(&mut take);
                let opening = Opening::take(&mut take);
                frozen.take_heads(&mut take);
                let plan = frozen
                    .check()
                    .expect("the lists open senders with accepted plans");
                self.open(plan, &opening)
            }
            _ => self
                .open
                .as_mut()
                .expect("try_new made a sender")
                .play(op, take),
        }
    }

    fn state(&self) -> Option<String> {
        let tags = state_tags(self.open.as_ref()?.sender.state());
        Some(match tags {
            [0, ..] => "Prepared".into(),
            [1, ..] => "AwaitingAccept".into(),
            [2, ..] => "AwaitingResponse".into(),
            [3, completion, ..] => format!("Complete({completion})"),
            [4, 0, ..] => "Failed(SegmentInterval)".into(),
            [4, 1, cause, _] => format!("Failed(LowerLayer({cause}))"),
            [4, _, status, _] => format!("Failed(Peer({status}))"),
            _ => "Cancelled".into(),
        })
    }
}

/// The arguments of try_new beside the plan.
#[derive(Clone)]
pub struct Opening {
    pub peer: MobileIdentity,
    pub protocol: HigherLayerProtocol,
    pub version: u8,
    pub reading: u64,
}

impl Opening {
    pub fn put(&self, out: &mut Vec<u8>) {
        put_peer(out, self.peer);
        put_protocol(out, self.protocol);
        out.put8(self.version);
        out.put64(self.reading);
    }

    pub fn take(take: &mut Take) -> Self {
        Self {
            peer: take_peer(take),
            protocol: take_protocol(take),
            version: take.take8(),
            reading: take.take64(),
        }
    }

    pub fn open(&self, plan: SegmentedMessage) -> Result<Sender, Refusal> {
        if !width_is_served(self.peer) {
            return Err(IDENTITY);
        }
        let version = ProtocolVersion(self.version);
        Sender::try_new(self.peer, self.protocol, plan, version, self.reading)
            .map_err(refusals::sending)
    }
}

impl Sending {
    fn open(&mut self, plan: SegmentedMessage, opening: &Opening) -> Vec<u8> {
        self.open = None;
        let foreign = opening.open(plan.clone());
        let (sender, made) = counted(|| opening.open(plan));
        let (foreign, sender) = match (foreign, sender) {
            (Ok(foreign), Ok(sender)) => (foreign, sender),
            (_, Err(refusal)) | (Err(refusal), _) => return refusals::answer(refusal),
        };
        assert_eq!(made, 1, "try_new makes one submission");
        let foreign = foreign.submission().expect("a new sender offers").clone();
        let offered = BTreeMap::new();
        let open = self.open.insert(Open {
            sender,
            made,
            offered,
            foreign,
        });
        let mut answer = vec![DONE];
        open.put_state(&mut answer);
        answer
    }
}

impl Open {
    pub fn play(&mut self, op: u8, mut take: Take) -> Vec<u8> {
        let result = match op {
            ADVANCE => {
                let reading = take.take64();
                self.call(|sender| sender.advance(reading))
            }
            CANCEL => {
                let reading = take.take64();
                self.call(|sender| sender.cancel(reading))
            }
            SUBMITTED => {
                let submission = self.token(&mut take);
                let (queued, observed) = (take.take64(), take.take64());
                self.call(|sender| sender.submitted(&submission, queued, observed))
            }
            ACCEPTED => {
                let submission = self.token(&mut take);
                let reading = take.take64();
                self.call(|sender| sender.accepted(&submission, reading))
            }
            LOWER_FAILED => {
                let submission = self.token(&mut take);
                let failure = take_failure(&mut take);
                let reading = take.take64();
                self.call(|sender| sender.lower_failed(&submission, failure, reading))
            }
            RESPONSE => self.respond(&Reply::take(&mut take)),
            _ => panic!("op {op:02x}"),
        };
        let mut answer = match result {
            Ok(()) => vec![DONE],
            Err(refusal) => refusals::answer(refusal),
        };
        self.put_state(&mut answer);
        answer
    }

    /// Makes one call and counts the submissions that it makes.
    fn call(
        &mut self,
        call: impl FnOnce(&mut Sender) -> Result<SenderState, Error>,
    ) -> Result<(), Refusal> {
        let sender = &mut self.sender;
        let (result, made) = counted(|| call(sender));
        self.made += made;
        let state = result.map_err(refusals::sending)?;
        // So the recorded state is the answer too.
        assert_eq!(state, self.sender.state());
        Ok(())
    }

    fn token(&self, take: &mut Take) -> Submission {
        let ticket = take.take64();
        if take.flag() {
            return self.foreign.clone();
        }
        self.offered
            .get(&ticket)
            .expect("the ticket was offered")
            .clone()
    }

    fn respond(&mut self, reply: &Reply) -> Result<(), Refusal> {
        if let Some(decoded) = reply.decoded() {
            return self.call(|sender| {
                sender.receive_response(reply.peer, reply.protocol, &decoded, reply.reading)
            });
        }
        // The original cannot hold a map of this length. Document 01 has 6/6 first in the codec's
        // check, so what comes before that check is asked with a response that the codec refuses.
        let decoded = reply.refused_by_codec();
        let result = self.call(|sender| {
            sender.receive_response(reply.peer, reply.protocol, &decoded, reply.reading)
        });
        let refusal = result.expect_err("the codec refuses transaction 8");
        Err(if refusal.0 < FIRST_PLANNING_REFUSAL {
            MAP_LENGTH
        } else {
            refusal
        })
    }

    fn put_state(&mut self, out: &mut Vec<u8>) {
        let sender = &self.sender;
        out.put_all(&state_tags(sender.state()));
        put_reading(out, sender.deadline_monotonic_ms());
        out.put64(sender.layer3_submissions());
        out.put8(u8::from(sender.submission().is_some()));
        // Preparing alone makes submissions, and the sender keeps the last one made.
        let offer = sender
            .submission()
            .map(|submission| (self.made - 1, submission));
        out.put64(offer.map_or(0, |(ticket, _)| ticket));
        let index = |submission: &Submission| submission.segment().sequence_number;
        out.put16(offer.map_or(0, |(_, submission)| usize::from(index(submission))));
        if let Some((ticket, submission)) = offer {
            let known = self
                .offered
                .entry(ticket)
                .or_insert_with(|| submission.clone());
            assert_eq!(index(known), index(submission));
        }
    }
}

/// The codec's refusals are 1 to 8.
const FIRST_PLANNING_REFUSAL: u8 = 20;

pub fn take_failure(take: &mut Take) -> LowerLayerFailure {
    let (tag, cause) = (take.take8(), take.take8());
    match tag {
        0 => LowerLayerFailure::Rejected { cause },
        1 => LowerLayerFailure::TimedOut,
        2 => LowerLayerFailure::Cancelled,
        _ => panic!("failure {tag}"),
    }
}

/// The arguments of receive_response.
#[derive(Clone)]
pub struct Reply {
    pub peer: MobileIdentity,
    pub protocol: HigherLayerProtocol,
    pub transaction: u8,
    pub status: u8,
    pub entries: usize,
    pub map: [u8; MAP_OCTETS],
    pub support: Option<OptionalServicesSupport>,
    pub unparsed: usize,
    pub reading: u64,
}

impl Reply {
    pub fn put(&self, out: &mut Vec<u8>) {
        put_peer(out, self.peer);
        put_protocol(out, self.protocol);
        out.put8(self.transaction);
        out.put8(self.status);
        out.put16(self.entries);
        out.put_all(&self.map);
        put_support(out, self.support);
        out.put16(self.unparsed);
        out.put64(self.reading);
    }

    pub fn take(take: &mut Take) -> Self {
        Self {
            peer: take_peer(take),
            protocol: take_protocol(take),
            transaction: take.take8(),
            status: take.take8(),
            entries: take.take16(),
            map: take.octets(MAP_OCTETS).try_into().expect("as many octets"),
            support: take_support(take),
            unparsed: take.take16(),
            reading: take.take64(),
        }
    }

    /// None where the original has no map of this length.
    pub fn decoded(&self) -> Option<DecodedResponse> {
        let set = |index: usize| {
            let octet = self.map.get(index / 8).copied().unwrap_or(0);
            (octet >> (index % 8)) & 1 == 1
        };
        let acknowledgments = AcknowledgmentMap::try_new((0..self.entries).map(set).collect());
        let response = Response {
            transaction_id: self.transaction,
            status: STATUSES[usize::from(self.status)],
            acknowledgments: acknowledgments.ok()?,
            optional_services_support: self.support,
        };
        Some(DecodedResponse {
            response,
            unparsed_bits: vec![false; self.unparsed],
        })
    }

    fn refused_by_codec(&self) -> DecodedResponse {
        let reply = Reply {
            entries: 1,
            transaction: 8,
            ..self.clone()
        };
        reply.decoded().expect("a map can have one entry")
    }
}

/// State, then what it holds, then what that holds; absent places are 0.
fn state_tags(state: SenderState) -> [u8; 4] {
    match state {
        SenderState::Prepared => [0, 0, 0, 0],
        SenderState::AwaitingAccept => [1, 0, 0, 0],
        SenderState::AwaitingResponse => [2, 0, 0, 0],
        SenderState::Complete(Completion::LowerLayerAccepted) => [3, 0, 0, 0],
        SenderState::Complete(Completion::PeerReceived) => [3, 1, 0, 0],
        SenderState::Complete(Completion::ExceptionIntervalElapsed) => [3, 2, 0, 0],
        SenderState::Failed(SenderFailure::SegmentInterval) => [4, 0, 0, 0],
        SenderState::Failed(SenderFailure::LowerLayer(failure)) => match failure {
            LowerLayerFailure::Rejected { cause } => [4, 1, 0, cause],
            LowerLayerFailure::TimedOut => [4, 1, 1, 0],
            LowerLayerFailure::Cancelled => [4, 1, 2, 0],
        },
        SenderState::Failed(SenderFailure::Peer(status)) => [4, 2, status as u8, 0],
        SenderState::Cancelled => [5, 0, 0, 0],
    }
}
