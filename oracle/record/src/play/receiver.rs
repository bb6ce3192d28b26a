//! Ops 20 to 23: a receiver made by try_new, and the calls on it.

use crate::fields::{
    put_head, put_peer, put_protocol, put_reading, put_response, take_head, take_peer,
    take_protocol, width_is_served,
};
use crate::list::{DONE, Player};
use crate::octets::{Put, Take, adler32, patched};
use crate::refusals::{self, IDENTITY, Refusal};
use bts136::l3::broadcast::ProtocolVersion;
use bts136::l3::relay::HigherLayerProtocol;
use bts136::l3::tsar::{DecodedSegment, Segment};
use bts136::link::rach::MobileIdentity;
use bts136::link::tsar::{Receiver, ReceiverState, Reception};

pub const OPEN: u8 = 0x20;
pub const RECEIVE: u8 = 0x21;
pub const ADVANCE: u8 = 0x22;
pub const CANCEL: u8 = 0x23;

/// A patch position past all data.
pub const NO_PATCH: usize = 0xffff;
/// State, status, deadline and stored octets, with which every answer but try_new's ends.
pub const STATE_OCTETS: usize = 15;

#[derive(Default)]
pub struct Receiving {
    pub receiver: Option<Receiver>,
}

impl Player for Receiving {
    fn play(&mut self, op: u8, input: &[u8]) -> Vec<u8> {
        let mut take = Take(input);
        if op == OPEN {
            return self.open(&Opening::take(&mut take));
        }
        let receiver = self.receiver.as_mut().expect("try_new made a receiver");
        let mut answer = match op {
            RECEIVE => receive(receiver, &Delivery::take(&mut take)),
            ADVANCE => advance(receiver, take.take64()),
            CANCEL => cancel(receiver, take.take64()),
            _ => panic!("op {op:02x}"),
        };
        put_state(&mut answer, receiver);
        answer
    }

    fn state(&self) -> Option<String> {
        let receiver = self.receiver.as_ref()?;
        Some(match receiver.state() {
            ReceiverState::Failed(status) => format!("Failed({})", status as u8),
            state => format!("{state:?}"),
        })
    }
}

impl Receiving {
    fn open(&mut self, opening: &Opening) -> Vec<u8> {
        match opening.open() {
            Ok(receiver) => {
                self.receiver = Some(receiver);
                vec![DONE]
            }
            Err(refusal) => {
                self.receiver = None;
                refusals::answer(refusal)
            }
        }
    }
}

/// The arguments of try_new.
#[derive(Clone)]
pub struct Opening {
    pub peer: MobileIdentity,
    pub protocol: HigherLayerProtocol,
    pub transaction: u8,
    pub version: u8,
    pub maximum: u64,
    pub reading: u64,
}

impl Opening {
    pub fn put(&self, out: &mut Vec<u8>) {
        put_peer(out, self.peer);
        put_protocol(out, self.protocol);
        out.put8(self.transaction);
        out.put8(self.version);
        out.put64(self.maximum);
        out.put64(self.reading);
    }

    pub fn take(take: &mut Take) -> Self {
        Self {
            peer: take_peer(take),
            protocol: take_protocol(take),
            transaction: take.take8(),
            version: take.take8(),
            maximum: take.take64(),
            reading: take.take64(),
        }
    }

    pub fn open(&self) -> Result<Receiver, Refusal> {
        if !width_is_served(self.peer) {
            return Err(IDENTITY);
        }
        Receiver::try_new(
            self.peer,
            self.protocol,
            self.transaction,
            ProtocolVersion(self.version),
            usize::try_from(self.maximum).expect("64 bits"),
            self.reading,
        )
        .map_err(refusals::receiving)
    }
}

/// The arguments of receive. The segment has no data of its own: they are a patched pattern.
#[derive(Clone)]
pub struct Delivery {
    pub peer: MobileIdentity,
    pub protocol: HigherLayerProtocol,
    pub segment: Segment,
    pub data: Data,
    pub unparsed: usize,
    pub reading: u64,
}

#[derive(Clone, Copy, PartialEq, Eq)]
pub struct Data {
    pub octets: usize,
    pub seed: u8,
    pub patch_position: usize,
    pub patch_change: u8,
}

impl Delivery {
    pub fn put(&self, out: &mut Vec<u8>) {
        put_peer(out, self.peer);
        put_protocol(out, self.protocol);
        put_head(out, &self.segment);
        out.put16(self.data.octets);
        out.put8(self.data.seed);
        out.put16(self.data.patch_position);
        out.put8(self.data.patch_change);
        out.put16(self.unparsed);
        out.put64(self.reading);
    }

    pub fn take(take: &mut Take) -> Self {
        Self {
            peer: take_peer(take),
            protocol: take_protocol(take),
            segment: take_head(take),
            data: Data {
                octets: take.take16(),
                seed: take.take8(),
                patch_position: take.take16(),
                patch_change: take.take8(),
            },
            unparsed: take.take16(),
            reading: take.take64(),
        }
    }

    pub fn decoded(&self) -> DecodedSegment {
        let data = self.data;
        let octets = patched(
            data.octets,
            data.seed,
            data.patch_position,
            data.patch_change,
        );
        DecodedSegment {
            segment: Segment {
                segment_data: octets,
                ..self.segment.clone()
            },
            unparsed_octets: vec![0; self.unparsed],
        }
    }
}

fn receive(receiver: &mut Receiver, delivery: &Delivery) -> Vec<u8> {
    let decoded = delivery.decoded();
    match receiver.receive(delivery.peer, delivery.protocol, &decoded, delivery.reading) {
        Ok(reception) => {
            let mut answer = vec![DONE];
            put_reception(&mut answer, &reception);
            answer
        }
        Err(error) => refusals::answer(refusals::receiving(error)),
    }
}

fn put_reception(out: &mut Vec<u8>, reception: &Reception) {
    put_response(out, reception.response.as_ref());
    let message = reception.message.as_deref();
    out.put8(u8::from(message.is_some()));
    out.put32(message.map_or(0, <[u8]>::len));
    out.put32(message.map_or(0, adler32));
}

fn advance(receiver: &mut Receiver, reading: u64) -> Vec<u8> {
    match receiver.advance(reading) {
        Ok(response) => {
            let mut answer = vec![DONE];
            put_response(&mut answer, response.as_ref());
            answer
        }
        Err(error) => refusals::answer(refusals::receiving(error)),
    }
}

fn cancel(receiver: &mut Receiver, reading: u64) -> Vec<u8> {
    match receiver.cancel(reading) {
        Ok(()) => vec![DONE],
        Err(error) => refusals::answer(refusals::receiving(error)),
    }
}

fn put_state(out: &mut Vec<u8>, receiver: &Receiver) {
    let (tag, status) = match receiver.state() {
        ReceiverState::AwaitingBegin => (0, 0),
        ReceiverState::Receiving => (1, 0),
        ReceiverState::Complete => (2, 0),
        ReceiverState::Failed(status) => (3, status as u8),
        ReceiverState::Expired => (4, 0),
        ReceiverState::Canceled => (5, 0),
    };
    out.put8(tag);
    out.put8(status);
    put_reading(out, receiver.deadline_monotonic_ms());
    out.put32(receiver.stored_octets());
}
