//! What the original's values are in the layouts of the exports (include/catkhize.h): the expected octets of every buffer.

use crate::even;
use bts136::l3::relay::HigherLayerProtocol;
use bts136::l3::tsar::{
    AcknowledgmentWindow, Response, Segment, SegmentKind, SegmentedMessage, Status,
};
use bts136::link::rach::MobileIdentity;
use bts136::link::tsar::{
    Completion, LowerLayerFailure, Receiver, ReceiverState, Sender, SenderFailure, SenderState,
};
use catkhize::calls::Origin;
use catkhize::layout;
use record::fields::put_head;
use record::octets::Put;
use record::profiles::PROFILE;

/// What every octet of a lent buffer holds before a call.
pub const FILLING: u8 = 0xa5;

pub fn filled(octets: usize) -> Vec<u8> {
    vec![FILLING; octets]
}

pub fn origin(peer: MobileIdentity, protocol: HigherLayerProtocol) -> Origin {
    let (kind, width, value) = peer.parts();
    let (protocol, octet) = match protocol {
        HigherLayerProtocol::Segmented(octet) => (0, octet),
        HigherLayerProtocol::CarrierSpecific(octet) => (1, octet),
        HigherLayerProtocol::Other(octet) => (2, octet),
    };
    Origin {
        kind,
        width,
        value,
        protocol,
        octet,
    }
}

pub fn segment(segment: &Segment) -> Vec<u8> {
    let mut out = Vec::with_capacity(layout::SEGMENT);
    put_head(&mut out, segment);
    out
}

/// HEAD: the segment and the number of its data octets.
pub fn head(of: &Segment, data_octets: usize) -> Vec<u8> {
    let mut out = Vec::with_capacity(layout::PART);
    put_head(&mut out, of);
    out.put64(data_octets as u64);
    out
}

/// Four words, highest octet first, of marks from 0 on.
pub fn put_words(out: &mut Vec<u8>, marks: impl Iterator<Item = bool>) {
    let mut words = [0u64; 4];
    for (index, mark) in marks.enumerate() {
        words[index / 64] |= u64::from(mark) << (index % 64);
    }
    for word in words {
        out.put64(word);
    }
}

/// What stands for the first missing entry where none is missing.
const NONE_MISSING: usize = 256;

/// How many of a map's entries are missing, and the first of them, 256 if there is none. The original has no such figures: they are
/// counted here, entry by entry.
pub fn put_figures(out: &mut Vec<u8>, entries: impl Iterator<Item = bool>) {
    let (mut missing, mut first) = (0, NONE_MISSING);
    for (entry, received) in entries.enumerate() {
        if !received {
            missing += 1;
            first = first.min(entry);
        }
    }
    out.put16(missing);
    out.put16(first);
}

/// REPLY.
pub fn put_reply(out: &mut Vec<u8>, response: Option<&Response>) {
    let Some(response) = response else {
        out.put_all(&[0; layout::REPLY]);
        return;
    };
    out.put8(1);
    out.put8(response.transaction_id);
    out.put8(response.status as u8);
    let map = &response.acknowledgments;
    out.put16(map.bit_count());
    let entries = (0..map.bit_count()).map(|index| map.received(index as u8) == Some(true));
    put_words(out, entries.clone());
    let support = response.optional_services_support;
    out.put8(u8::from(support.is_some()));
    let bits = support.map_or([false; 4], |support| {
        [
            support.compression,
            support.encryption,
            support.acknowledgment_window,
            support.crc,
        ]
    });
    out.put_all(&bits.map(u8::from));
    put_figures(out, entries);
}

fn put_origin(out: &mut Vec<u8>, origin: Origin) {
    out.put8(origin.kind);
    out.put8(origin.width);
    out.put64(origin.value);
    out.put8(origin.protocol);
    out.put8(origin.octet);
}

fn put_reading(out: &mut Vec<u8>, reading: Option<u64>) {
    out.put8(u8::from(reading.is_some()));
    out.put64(reading.unwrap_or(0));
}

/// State, then the status with Failed.
pub fn receiver_state(state: ReceiverState) -> [u8; 2] {
    match state {
        ReceiverState::AwaitingBegin => [0, 0],
        ReceiverState::Receiving => [1, 0],
        ReceiverState::Complete => [2, 0],
        ReceiverState::Failed(status) => [3, status as u8],
        ReceiverState::Expired => [4, 0],
        ReceiverState::Canceled => [5, 0],
    }
}

/// What try_new fixes of a receiver.
#[derive(Clone, Copy)]
pub struct Terms {
    pub origin: Origin,
    pub transaction: u8,
    pub version: u8,
    pub maximum: u64,
}

pub const KIND: usize = 13;
/// Where a receiver's record has the lengths of its slots, then their kinds.
pub const RECEIVER_LENGTHS: usize = 91;
pub const RECEIVER_SLOTS: usize = 603;

pub fn receiver(terms: Terms, receiver: &Receiver) -> Vec<u8> {
    let mut out = Vec::with_capacity(layout::RECEIVER + 64);
    out.put8(layout::RECEIVER_VERSION);
    put_origin(&mut out, terms.origin);
    out.put8(terms.transaction);
    out.put8(terms.version);
    out.put8(PROFILE);
    out.put64(terms.maximum);
    out.put_all(&receiver_state(receiver.state()));
    let services = receiver.services();
    out.put8(services.compression as u8);
    out.put8(services.acknowledgment_window as u8);
    out.put8(services.crc_status as u8);
    let end = receiver.end_sequence();
    out.put8(u8::from(end.is_some()));
    out.put8(end.unwrap_or(0));
    let length = receiver.message_length();
    out.put8(u8::from(length.is_some()));
    out.put16(usize::from(length.unwrap_or(0)));
    out.put64(receiver.stored_octets() as u64);
    put_reading(&mut out, receiver.deadline_monotonic_ms());
    out.put64(receiver.last_monotonic_ms());
    let segments = receiver.segments();
    put_words(&mut out, segments.iter().map(Option::is_some));
    assert_eq!(out.len(), RECEIVER_LENGTHS);
    out.resize(layout::RECEIVER, 0);
    let mut head = Vec::new();
    for (index, held) in segments.iter().enumerate() {
        let Some(held) = held else { continue };
        let length = u16::try_from(held.segment_data.len()).expect("held data have 255 octets");
        out[RECEIVER_LENGTHS + 2 * index..][..2].copy_from_slice(&length.to_be_bytes());
        head.clear();
        put_head(&mut head, held);
        out[RECEIVER_SLOTS + KIND * index..][..KIND].copy_from_slice(&head[2..]);
    }
    out
}

/// The plan of plan_message.
pub fn planned(plan: &SegmentedMessage) -> Vec<u8> {
    let later = (plan.payload_budget_octets() - 3).min(255);
    planned_with(plan, later)
}

/// The plan of plan_even that has these segments, or the Begin and the count of these: what each later one has at least is the last one's.
pub fn evenly(plan: &SegmentedMessage) -> Vec<u8> {
    let lengths = even::lengths(plan);
    planned_with(plan, lengths[lengths.len() - 1])
}

fn planned_with(plan: &SegmentedMessage, later: usize) -> Vec<u8> {
    let segments = plan.segments();
    let SegmentKind::Begin { message_length, .. } = segments[0].kind else {
        panic!("a plan opens with a Begin");
    };
    let mut out = vec![layout::PLAN_VERSION, 0];
    out.put64(plan.message_octets() as u64);
    out.put64(plan.payload_budget_octets() as u64);
    out.put8(segments[0].transaction_id);
    out.put8(plan.acknowledgment_window() as u8);
    out.put64(segments[0].segment_data.len() as u64);
    out.put64(later as u64);
    out.put64(segments.len() as u64);
    out.put8(u8::from(message_length.is_some()));
    out.resize(layout::PLAN, 0);
    out
}

/// A plan that the frozen check gave.
pub fn frozen(plan: &SegmentedMessage) -> Vec<u8> {
    const PLANNED: usize = 43;
    let segments = plan.segments();
    let mut out = vec![layout::PLAN_VERSION, 1];
    out.put_all(&[0; PLANNED]);
    out.put64(segments.len() as u64);
    out.put64(plan.message_octets() as u64);
    out.put64(plan.payload_budget_octets() as u64);
    out.put8(plan.acknowledgment_window() as u8);
    for each in segments {
        out.put_all(&head(each, each.segment_data.len()));
    }
    out.resize(layout::PLAN, 0);
    out
}

/// State, then what it holds, then what that holds; absent places are 0.
pub fn sender_state(state: SenderState) -> [u8; 4] {
    match state {
        SenderState::Prepared => [0, 0, 0, 0],
        SenderState::AwaitingAccept => [1, 0, 0, 0],
        SenderState::AwaitingResponse => [2, 0, 0, 0],
        SenderState::Complete(Completion::LowerLayerAccepted) => [3, 0, 0, 0],
        SenderState::Complete(Completion::PeerReceived) => [3, 1, 0, 0],
        SenderState::Complete(Completion::ExceptionIntervalElapsed) => [3, 2, 0, 0],
        SenderState::Failed(SenderFailure::SegmentInterval) => [4, 0, 0, 0],
        SenderState::Failed(SenderFailure::LowerLayer(failure)) => match failure {
            LowerLayerFailure::Rejected { cause } => [4, 1, 0, cause],
            LowerLayerFailure::TimedOut => [4, 1, 1, 0],
            LowerLayerFailure::Cancelled => [4, 1, 2, 0],
        },
        SenderState::Failed(SenderFailure::Peer(status)) => [4, 2, 0, status as u8],
        SenderState::Cancelled => [5, 0, 0, 0],
    }
}

/// The tickets of a sender: the present submission's, and the last one given.
#[derive(Clone, Copy)]
pub struct Tickets {
    pub current: u64,
    pub last: u64,
}

/// A sender's record up to the plan.
pub fn sender(
    origin: Origin,
    version: u8,
    number: u64,
    tickets: Tickets,
    sender: &Sender,
) -> Vec<u8> {
    let mut out = Vec::with_capacity(SENDER_PLAN);
    out.put8(layout::SENDER_VERSION);
    put_origin(&mut out, origin);
    out.put8(version);
    out.put8(PROFILE);
    out.put64(number);
    out.put_all(&sender_state(sender.state()));
    let current = sender.current();
    out.put8(u8::from(current.is_some()));
    let (index, prepared) = current.unwrap_or((0, 0));
    out.put64(current.map_or(0, |_| tickets.current));
    out.put8(index);
    out.put64(prepared);
    out.put64(tickets.last);
    put_words(&mut out, sender.submitted_marks().iter().copied());
    put_words(&mut out, sender.retry_marks().iter().copied());
    put_words(&mut out, sender.received_marks());
    put_reading(&mut out, sender.deadline_monotonic_ms());
    out.put64(sender.last_monotonic_ms());
    out.put64(sender.layer3_submissions());
    assert_eq!(out.len(), SENDER_PLAN);
    out
}

/// Where the plan begins in a sender's record, without its layout version.
pub const SENDER_PLAN: usize = 174;

pub fn window(number: u8) -> AcknowledgmentWindow {
    record::fields::window(number)
}

pub fn status_name(number: u8) -> String {
    let status: Option<&Status> = record::fields::STATUSES.get(usize::from(number));
    status.map_or_else(|| number.to_string(), |status| format!("{status:?}"))
}
