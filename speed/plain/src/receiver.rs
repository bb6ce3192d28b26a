//! The receiver: taken by value and handed back. Octets of held segments are in the lent store, 255 to a slot.

use crate::codec::{
    AcknowledgmentWindow, Compression, CrcStatus, Error, OptionalServices, Segment, SegmentKind,
};
use crate::words::Words;

const REASSEMBLY_MS: u64 = 300_000;
const SLOT_OCTETS: usize = 255;
const STORE_OCTETS: usize = 65_280;
const NONE_MISSING: u16 = 256;

#[derive(Clone, Copy, PartialEq, Eq)]
pub struct MobileIdentity {
    pub kind: u8,
    pub width: u8,
    pub value: u64,
}

#[derive(Clone, Copy, PartialEq, Eq)]
pub enum HigherLayerProtocol {
    Segmented(u8),
    CarrierSpecific(u8),
    Other(u8),
}

#[derive(Clone, Copy, PartialEq, Eq)]
pub enum Status {
    Continuing,
    InterSegmentTimeout,
    Aborted,
    CrcSelectionUnsupported,
    CompressionUnsupported,
    EncryptionUnsupported,
    AcknowledgmentWindowUnsupported,
    ProtocolUnsupported,
    MessageLengthError,
    MessageTooLong,
    Received,
    DuplicateSizeMismatch,
    CrcError,
    MultipleServicesUnsupported,
}

#[derive(Clone, Copy, PartialEq, Eq)]
pub enum ReceiverState {
    AwaitingBegin,
    Receiving,
    Complete,
    Failed(Status),
    Expired,
    Canceled,
}

#[derive(Clone, Copy)]
pub struct AcknowledgmentMap {
    pub received: Words,
    pub bit_count: u16,
}

/// How many entries of a map are missing, and the first of them: 256 where there is none.
#[derive(Clone, Copy)]
pub struct Missing {
    pub count: u16,
    pub first: u16,
}

/// A map of the first `bit_count` marks, and the figures of its missing entries.
fn first_entries(received: Words, bit_count: u16) -> (AcknowledgmentMap, Missing) {
    let entries = Words::below(usize::from(bit_count));
    let missing = entries.minus(received);
    let map = AcknowledgmentMap {
        received: received.and(entries),
        bit_count,
    };
    let missing = Missing {
        count: missing.ones(),
        first: missing.lowest().map_or(NONE_MISSING, u16::from),
    };
    (map, missing)
}

#[derive(Clone, Copy)]
pub struct OptionalServicesSupport {
    pub compression: bool,
    pub encryption: bool,
    pub acknowledgment_window: bool,
    pub crc: bool,
}

#[derive(Clone, Copy)]
pub struct Response {
    pub transaction_id: u8,
    pub status: Status,
    pub acknowledgments: AcknowledgmentMap,
    pub optional_services_support: Option<OptionalServicesSupport>,
}

/// A response, and beside it the figures of its map.
#[derive(Clone, Copy)]
pub struct Reported {
    pub response: Response,
    pub missing: Missing,
}

#[derive(Clone, Copy, Debug, PartialEq, Eq)]
pub enum ReceiveError {
    Identity,
    Service,
    TransactionId,
    Codec(Error),
    ClockRegression,
    TimeOverflow,
    UnparsedSegment,
    BeginRequired,
    TimerDue,
    Closed,
    Store,
    Output,
    ImpossibleState,
}

/// `message` counts the octets of the output that are handed over.
#[derive(Clone, Copy)]
pub struct Reception {
    pub response: Option<Reported>,
    pub message: Option<usize>,
}

#[derive(Clone, Copy)]
pub struct Terms {
    pub peer: MobileIdentity,
    pub protocol: HigherLayerProtocol,
    pub transaction_id: u8,
    pub version: u8,
    pub maximum_message_octets: usize,
}

#[derive(Clone, Copy)]
pub struct Progress {
    pub state: ReceiverState,
    pub services: OptionalServices,
    pub end_sequence: Option<u8>,
    pub message_length: Option<u16>,
    pub stored_octets: usize,
    pub deadline_monotonic_ms: Option<u64>,
    pub last_monotonic_ms: u64,
}

/// A slot is held where `held` marks it, and only there.
#[derive(Clone, Copy)]
pub struct Receiver {
    pub terms: Terms,
    pub progress: Progress,
    pub held: Words,
    pub lengths: [u16; 256],
    pub slots: [SegmentKind; 256],
}

/// What a receive gives: the answer, and the receiver as it leaves it.
pub struct Receive {
    pub answer: Result<Reception, ReceiveError>,
    pub receiver: Receiver,
}

const EMPTY_SLOT: SegmentKind = SegmentKind::Begin {
    message_length: None,
    services: None,
};

impl Receiver {
    pub fn try_new(
        peer: MobileIdentity,
        protocol: HigherLayerProtocol,
        transaction_id: u8,
        version: u8,
        maximum_message_octets: usize,
        monotonic_ms: u64,
    ) -> Result<Self, ReceiveError> {
        if peer.width > 63 || peer.value == 0 || peer.value >= 1 << peer.width {
            return Err(ReceiveError::Identity);
        }
        match protocol {
            HigherLayerProtocol::Segmented(_) => {}
            HigherLayerProtocol::CarrierSpecific(octet) if octet & 0xc0 == 0xc0 => {}
            _ => return Err(ReceiveError::Service),
        }
        let begin = Segment {
            transaction_id,
            sequence_number: 0,
            kind: EMPTY_SLOT,
        };
        begin.validate(0, version).map_err(ReceiveError::Codec)?;
        Ok(Self {
            terms: Terms {
                peer,
                protocol,
                transaction_id,
                version,
                maximum_message_octets,
            },
            progress: Progress {
                state: ReceiverState::AwaitingBegin,
                services: OptionalServices::default(),
                end_sequence: None,
                message_length: None,
                stored_octets: 0,
                deadline_monotonic_ms: None,
                last_monotonic_ms: monotonic_ms,
            },
            held: Words::default(),
            lengths: [0; 256],
            slots: [EMPTY_SLOT; 256],
        })
    }

    /// 62.
    fn impossible(&self) -> bool {
        let mut sum = 0;
        let mut over = false;
        for (&marks, lengths) in self.held.0.iter().zip(self.lengths.chunks_exact(64)) {
            if marks == 0 {
                continue;
            }
            if marks == u64::MAX {
                for &length in lengths {
                    sum += usize::from(length);
                    over |= length > 255;
                }
            } else {
                for (bit, &length) in lengths.iter().enumerate() {
                    let length = usize::from(length) * (marks >> bit & 1) as usize;
                    sum += length;
                    over |= length > 255;
                }
            }
        }
        if over {
            return true;
        }
        let progress = &self.progress;
        if progress.stored_octets != sum || sum > self.terms.maximum_message_octets {
            return true;
        }
        let receiving = progress.state == ReceiverState::Receiving;
        let complete = progress.state == ReceiverState::Complete;
        if receiving || complete {
            if !self.held.has(0) || !matches!(self.slots[0], SegmentKind::Begin { .. }) {
                return true;
            }
        } else if !self.held.is_none() {
            return true;
        }
        if progress
            .end_sequence
            .is_some_and(|end| !self.held.none_past(end))
        {
            return true;
        }
        if !receiving && progress.deadline_monotonic_ms.is_some() {
            return true;
        }
        complete
            && match progress.end_sequence {
                None => true,
                Some(0) => false,
                Some(end) => !self.held.full_to(end - 1),
            }
    }

    fn refusal(
        &self,
        peer: MobileIdentity,
        protocol: HigherLayerProtocol,
        segment: Segment,
        data: &[u8],
        unparsed_octets: usize,
        now: u64,
        store: &[u8],
        output: &[u8],
    ) -> Result<(), ReceiveError> {
        if store.len() < STORE_OCTETS {
            return Err(ReceiveError::Store);
        }
        if output.len() < self.terms.maximum_message_octets.min(STORE_OCTETS) {
            return Err(ReceiveError::Output);
        }
        if self.impossible() {
            return Err(ReceiveError::ImpossibleState);
        }
        if now < self.progress.last_monotonic_ms {
            return Err(ReceiveError::ClockRegression);
        }
        if peer != self.terms.peer {
            return Err(ReceiveError::Identity);
        }
        if protocol != self.terms.protocol {
            return Err(ReceiveError::Service);
        }
        if segment.transaction_id != self.terms.transaction_id {
            return Err(ReceiveError::TransactionId);
        }
        segment
            .validate(data.len(), self.terms.version)
            .map_err(ReceiveError::Codec)?;
        if unparsed_octets != 0 {
            return Err(ReceiveError::UnparsedSegment);
        }
        if !matches!(
            self.progress.state,
            ReceiverState::AwaitingBegin | ReceiverState::Receiving | ReceiverState::Complete
        ) {
            return Err(ReceiveError::Closed);
        }
        if self.progress.state == ReceiverState::AwaitingBegin
            && !matches!(segment.kind, SegmentKind::Begin { .. })
        {
            return Err(ReceiveError::BeginRequired);
        }
        if now.checked_add(REASSEMBLY_MS).is_none() {
            return Err(ReceiveError::TimeOverflow);
        }
        Ok(())
    }

    fn response(&self, status: Status) -> Option<Reported> {
        if self.progress.services.acknowledgment_window == AcknowledgmentWindow::Prohibited {
            return None;
        }
        let last = self
            .progress
            .end_sequence
            .unwrap_or_else(|| self.held.highest().unwrap_or(0));
        let (acknowledgments, missing) = first_entries(self.held, u16::from(last) + 1);
        let response = Response {
            transaction_id: self.terms.transaction_id,
            status,
            acknowledgments,
            optional_services_support: None,
        };
        Some(Reported { response, missing })
    }

    fn required_response(&self, segment: Segment, status: Status) -> Option<Reported> {
        let window = self.progress.services.acknowledgment_window;
        let period = match window {
            AcknowledgmentWindow::Prohibited | AcknowledgmentWindow::Exceptions => return None,
            AcknowledgmentWindow::Every4 => 4,
            AcknowledgmentWindow::Every8 => 8,
            AcknowledgmentWindow::Every16 => 16,
            AcknowledgmentWindow::Last => 0,
        };
        let periodic = period != 0 && (u16::from(segment.sequence_number) + 1) % period == 0;
        if status == Status::Received || matches!(segment.kind, SegmentKind::End { .. }) || periodic
        {
            self.response(status)
        } else {
            None
        }
    }

    fn close(&mut self, state: ReceiverState, store: &mut [u8]) {
        store[..STORE_OCTETS].fill(0);
        self.progress.state = state;
        self.progress.stored_octets = 0;
        self.progress.deadline_monotonic_ms = None;
        self.held = Words::default();
        self.lengths = [0; 256];
        self.slots = [EMPTY_SLOT; 256];
    }

    fn fail(&mut self, status: Status, store: &mut [u8]) -> Reception {
        let mut response = self.response(status);
        if status == Status::MultipleServicesUnsupported
            && self.terms.version >= 5
            && let Some(reported) = &mut response
        {
            reported.response.optional_services_support = Some(OptionalServicesSupport {
                compression: false,
                encryption: true,
                acknowledgment_window: true,
                crc: false,
            });
        }
        self.close(ReceiverState::Failed(status), store);
        Reception {
            response,
            message: None,
        }
    }

    /// A segment that is neither refused nor late.
    fn settle(
        &mut self,
        segment: Segment,
        data: &[u8],
        now: u64,
        store: &mut [u8],
        output: &mut [u8],
    ) -> Result<Reception, ReceiveError> {
        let sequence = segment.sequence_number;
        let index = usize::from(sequence);
        let from = SLOT_OCTETS * index;
        let deadline = now + REASSEMBLY_MS;
        self.progress.last_monotonic_ms = now;
        if self.held.has(sequence) {
            if usize::from(self.lengths[index]) != data.len() {
                return Ok(self.fail(Status::DuplicateSizeMismatch, store));
            }
            if self.slots[index] != segment.kind || store[from..from + data.len()] != *data {
                return Ok(self.fail(Status::Aborted, store));
            }
            let status = if self.progress.state == ReceiverState::Complete {
                Status::Received
            } else {
                Status::Continuing
            };
            if self.progress.state == ReceiverState::Receiving {
                self.progress.deadline_monotonic_ms = Some(deadline);
            }
            return Ok(Reception {
                response: self.required_response(segment, status),
                message: None,
            });
        }
        if self.progress.state == ReceiverState::Complete {
            return Err(ReceiveError::Closed);
        }
        if matches!(segment.kind, SegmentKind::Continue { .. }) && sequence == 255 {
            return Ok(self.fail(Status::Aborted, store));
        }
        match segment.kind {
            SegmentKind::Begin { services, .. } => {
                let services = services.unwrap_or_default();
                self.progress.services = services;
                let compression = services.compression != Compression::None;
                let crc = services.crc_status != CrcStatus::None;
                let status = match (compression, crc) {
                    (true, true) => Some(Status::MultipleServicesUnsupported),
                    (true, false) => Some(Status::CompressionUnsupported),
                    (false, true) => Some(Status::CrcSelectionUnsupported),
                    (false, false) => None,
                };
                if let Some(status) = status {
                    return Ok(self.fail(status, store));
                }
            }
            SegmentKind::Continue { .. } => {}
            SegmentKind::End { crc, .. } => {
                if crc.is_some() {
                    return Ok(self.fail(Status::CrcSelectionUnsupported, store));
                }
                if sequence == 0
                    || self
                        .progress
                        .end_sequence
                        .is_some_and(|end| end != sequence)
                    || !self.held.none_past(sequence)
                {
                    return Ok(self.fail(Status::Aborted, store));
                }
            }
        }
        if self.progress.end_sequence.is_some_and(|end| sequence > end) {
            return Ok(self.fail(Status::Aborted, store));
        }
        let maximum = self.terms.maximum_message_octets;
        let total = self.progress.stored_octets + data.len();
        if let Some(length) = segment.kind.message_length() {
            if self
                .progress
                .message_length
                .is_some_and(|old| old != length)
            {
                return Ok(self.fail(Status::MessageLengthError, store));
            }
            self.progress.message_length = Some(length);
        }
        let stated = self.progress.message_length.map(usize::from);
        if stated.is_some_and(|length| length > maximum)
            || data.len() > maximum.saturating_sub(self.progress.stored_octets)
        {
            return Ok(self.fail(Status::MessageTooLong, store));
        }
        if stated.is_some_and(|length| total > length) {
            return Ok(self.fail(Status::MessageLengthError, store));
        }
        self.progress.stored_octets = total;
        self.held = self.held.with(sequence);
        self.lengths[index] = data.len() as u16;
        self.slots[index] = segment.kind;
        store[from..from + data.len()].copy_from_slice(data);
        if matches!(segment.kind, SegmentKind::End { .. }) {
            self.progress.end_sequence = Some(sequence);
        }
        if let Some(end) = self.progress.end_sequence
            && self.held.full_to(end)
        {
            if stated.is_some_and(|length| length != total) {
                return Ok(self.fail(Status::MessageLengthError, store));
            }
            let mut at = 0;
            for (slot, &length) in self.lengths[..=usize::from(end)].iter().enumerate() {
                let length = usize::from(length);
                let from = SLOT_OCTETS * slot;
                output[at..at + length].copy_from_slice(&store[from..from + length]);
                at += length;
            }
            self.progress.state = ReceiverState::Complete;
            self.progress.deadline_monotonic_ms = None;
            return Ok(Reception {
                response: self.required_response(segment, Status::Received),
                message: Some(at),
            });
        }
        self.progress.state = ReceiverState::Receiving;
        self.progress.deadline_monotonic_ms = Some(deadline);
        Ok(Reception {
            response: self.required_response(segment, Status::Continuing),
            message: None,
        })
    }

    pub fn receive(
        mut self,
        peer: MobileIdentity,
        protocol: HigherLayerProtocol,
        segment: Segment,
        data: &[u8],
        unparsed_octets: usize,
        now: u64,
        store: &mut [u8],
        output: &mut [u8],
    ) -> Receive {
        if let Err(refusal) = self.refusal(
            peer,
            protocol,
            segment,
            data,
            unparsed_octets,
            now,
            store,
            output,
        ) {
            return Receive {
                answer: Err(refusal),
                receiver: self,
            };
        }
        if self
            .progress
            .deadline_monotonic_ms
            .is_some_and(|deadline| now > deadline)
        {
            let prohibited = AcknowledgmentWindow::Prohibited;
            if self.progress.services.acknowledgment_window != prohibited {
                return Receive {
                    answer: Err(ReceiveError::TimerDue),
                    receiver: self,
                };
            }
            self.progress.last_monotonic_ms = now;
            self.close(ReceiverState::Expired, store);
            return Receive {
                answer: Err(ReceiveError::Closed),
                receiver: self,
            };
        }
        let answer = self.settle(segment, data, now, store, output);
        Receive {
            answer,
            receiver: self,
        }
    }
}
