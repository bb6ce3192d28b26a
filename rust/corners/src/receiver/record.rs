//! A receiver's record: its fields, how they are spelled, and what a call has to leave of it.

use self::State::{AwaitingBegin, Canceled, Complete, Expired, Failed, Receiving};
use super::rows::{Call, Kind, Outcome};
use crate::octets::{flagged, services_octets};
use crate::profiles::numbered;
use catkhize::calls::Origin;
use catkhize::{OptionalServices, layout};

/// The statuses of failures that have to do with lengths.
const MESSAGE_LENGTH_ERROR: u8 = 8;
const MESSAGE_TOO_LONG: u8 = 9;

/// KIND: what a segment is, with its parameters. All 0 is a Begin without any.
pub type SlotKind = [u8; 13];

/// How a reception stands; a failed one with its status.
#[derive(Clone, Copy, PartialEq)]
pub enum State {
    AwaitingBegin,
    Receiving,
    Complete,
    Failed(u8),
    Expired,
    Canceled,
}

/// RECEIVER.
#[derive(Clone)]
pub struct Record {
    pub from: Origin,
    pub transaction: u8,
    pub version: u8,
    pub profile: u8,
    pub maximum: u64,
    pub state: State,
    pub services: OptionalServices,
    pub end: Option<u8>,
    pub length: Option<u16>,
    pub stored: u64,
    pub deadline: Option<u64>,
    pub last_reading: u64,
    pub held: [u64; 4],
    pub lengths: [u16; 256],
    pub slots: [SlotKind; 256],
}

/// Services, end and stated length, as they stand in a record.
pub fn noted(services: OptionalServices, end: Option<u8>, length: Option<u16>) -> Vec<u8> {
    let mut octets = services_octets(services).to_vec();
    octets.extend(flagged(end.map(u8::to_be_bytes)));
    octets.extend(flagged(length.map(u16::to_be_bytes)));
    octets
}

impl Record {
    /// A new receiver: nothing is held, and no deadline runs.
    pub fn new(
        from: Origin,
        transaction: u8,
        version: u8,
        profile: u8,
        maximum: u64,
        reading: u64,
    ) -> Self {
        Self {
            from,
            transaction,
            version,
            profile,
            maximum,
            state: AwaitingBegin,
            services: OptionalServices::default(),
            end: None,
            length: None,
            stored: 0,
            deadline: None,
            last_reading: reading,
            held: [0; 4],
            lengths: [0; 256],
            slots: [[0; 13]; 256],
        }
    }

    /// Slot s is marked held.
    pub fn mark(&mut self, s: u8) {
        self.held[usize::from(s / 64)] |= 1 << (s % 64);
    }

    /// The record as it is spelled.
    pub fn octets(&self) -> Vec<u8> {
        let state = match self.state {
            AwaitingBegin => [0, 0],
            Receiving => [1, 0],
            Complete => [2, 0],
            Failed(status) => [3, status],
            Expired => [4, 0],
            Canceled => [5, 0],
        };
        let from = self.from;
        let mut octets = vec![layout::RECEIVER_VERSION, from.kind, from.width];
        octets.extend(from.value.to_be_bytes());
        octets.extend([from.protocol, from.octet]);
        octets.extend([self.transaction, self.version, self.profile]);
        octets.extend(self.maximum.to_be_bytes());
        octets.extend(state);
        octets.extend(noted(self.services, self.end, self.length));
        octets.extend(self.stored.to_be_bytes());
        octets.extend(flagged(self.deadline.map(u64::to_be_bytes)));
        octets.extend(self.last_reading.to_be_bytes());
        octets.extend(self.held.iter().flat_map(|word| word.to_be_bytes()));
        octets.extend(self.lengths.iter().flat_map(|length| length.to_be_bytes()));
        octets.extend(self.slots.iter().flatten());
        octets
    }

    /// What a call with this outcome leaves.
    pub fn leave(&mut self, call: &Call, outcome: Outcome) {
        if !matches!(outcome, Outcome::Refused(..)) {
            self.last_reading = call.reading;
        }
        match outcome {
            Outcome::Holds => {
                self.hold(call);
                self.state = Receiving;
                self.deadline = self.next_deadline(call);
            }
            Outcome::HandsOver => {
                self.hold(call);
                self.state = Complete;
                self.deadline = None;
            }
            Outcome::Repeats => {
                let deadline = self.next_deadline(call);
                self.deadline = deadline.filter(|_| self.state == Receiving);
            }
            Outcome::Fails(status) => {
                self.note_failing(call, status);
                self.close(Failed(status));
            }
            Outcome::Expires | Outcome::Lapses => self.close(Expired),
            Outcome::Cancels | Outcome::Releases => self.close(Canceled),
            Outcome::Asks => self.deadline = None,
            Outcome::Closes | Outcome::Waits | Outcome::Refused(..) => {}
        }
    }

    /// The deadline that a segment sets: the profile's interval behind it.
    fn next_deadline(&self, call: &Call) -> Option<u64> {
        let profile = numbered(self.profile).expect("a profile that is served");
        call.reading.checked_add(profile.receiver)
    }

    /// The segment is held, and what it brings of services, end and stated length is noted.
    fn hold(&mut self, call: &Call) {
        let slot = usize::from(call.sequence);
        self.mark(call.sequence);
        self.lengths[slot] = call.octets as u16;
        self.slots[slot].copy_from_slice(&call.segment()[2..]);
        self.stored += call.octets as u64;
        self.length = self.length.or(call.stated);
        match call.kind {
            Kind::Begin(services) => self.services = services.unwrap_or_default(),
            Kind::End(_) => self.end = Some(call.sequence),
            _ => {}
        }
    }

    /// What a segment that fails leaves noted: a first Begin its services; a segment its stated length once that contradicts no other; an
    /// End its place where the message is whole and has another length than the stated one.
    fn note_failing(&mut self, call: &Call, status: u8) {
        if let (AwaitingBegin, Kind::Begin(services)) = (self.state, call.kind) {
            self.services = services.unwrap_or_default();
        }
        if ![MESSAGE_LENGTH_ERROR, MESSAGE_TOO_LONG].contains(&status) {
            return;
        }
        self.length = self.length.or(call.stated);
        let contradicts = call.stated.is_some() && call.stated != self.length;
        let passes = |length| self.stored + call.octets as u64 > u64::from(length);
        let ends = matches!(call.kind, Kind::End(_)) && status == MESSAGE_LENGTH_ERROR;
        if ends && !contradicts && !self.length.is_some_and(passes) {
            self.end = Some(call.sequence);
        }
    }

    /// Nothing is held, and no deadline runs; services, end and stated length stay.
    fn close(&mut self, state: State) {
        self.state = state;
        self.stored = 0;
        self.deadline = None;
        self.held = [0; 4];
        self.lengths = [0; 256];
        self.slots = [[0; 13]; 256];
    }
}
