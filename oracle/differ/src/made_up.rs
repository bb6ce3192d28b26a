//! The original's machines with the fields that a record spells, reached by calls or not.

use bts136::fields::{ReceiverFields, SenderFields};
use bts136::l3::broadcast::ProtocolVersion;
use bts136::l3::tsar::SegmentedMessage;
use bts136::link::tsar::{
    Completion, LowerLayerFailure, Receiver, ReceiverState, Sender, SenderFailure, SenderState,
};
use catkhize::layout;
use record::fields::{STATUSES, services, take_head, take_peer, take_protocol, window};
use record::octets::Take;

const SLOT_OCTETS: usize = 255;
const KIND: usize = 13;

fn marks(take: &mut Take) -> Vec<bool> {
    let words: Vec<u64> = (0..4).map(|_| take.take64()).collect();
    let mark = |index: usize| words[index / 64] >> (index % 64) & 1 == 1;
    (0..256).map(mark).collect()
}

/// A flag, and what is read after it.
fn optional<T>(take: &mut Take, read: impl FnOnce(&mut Take) -> T) -> Option<T> {
    let present = take.flag();
    Some(read(take)).filter(|_| present)
}

/// The receiver that a record spells: a possible one, of the original's profile; its data stand in the store.
pub fn receiver(record: &[u8], store: &[u8]) -> Receiver {
    let mut take = Take(&record[1..]);
    let peer = take_peer(&mut take);
    let protocol = take_protocol(&mut take);
    let transaction_id = take.take8();
    let version = ProtocolVersion(take.take8());
    take.take8();
    let maximum_message_octets = take.take64() as usize;
    let (state, status) = (take.take8(), take.take8());
    let status = STATUSES[usize::from(status)];
    let state = match state {
        0 => ReceiverState::AwaitingBegin,
        1 => ReceiverState::Receiving,
        2 => ReceiverState::Complete,
        3 => ReceiverState::Failed(status),
        4 => ReceiverState::Expired,
        _ => ReceiverState::Canceled,
    };
    let services = services([take.take8(), take.take8(), take.take8()]);
    let end_sequence = optional(&mut take, |take| take.take8());
    let message_length = optional(&mut take, |take| take.take16() as u16);
    let stored_octets = take.take64() as usize;
    let deadline_monotonic_ms = optional(&mut take, |take| take.take64());
    let last_monotonic_ms = take.take64();
    let held = marks(&mut take);
    let lengths: Vec<usize> = (0..256).map(|_| take.take16()).collect();
    let segment = |index: usize| {
        held[index].then(|| {
            let kind = &record[layout::RECEIVER - (256 - index) * KIND..][..KIND];
            let head = [&[transaction_id, index as u8], kind].concat();
            let mut segment = take_head(&mut Take(&head));
            let data = &store[SLOT_OCTETS * index..][..lengths[index]];
            segment.segment_data = data.to_vec();
            segment
        })
    };
    Receiver::made_up(ReceiverFields {
        peer,
        protocol,
        transaction_id,
        version,
        maximum_message_octets,
        state,
        services,
        segments: (0..256).map(segment).collect(),
        end_sequence,
        message_length,
        stored_octets,
        deadline_monotonic_ms,
        last_monotonic_ms,
    })
}

fn sender_state(octets: &[u8]) -> SenderState {
    let status = |number: u8| STATUSES[usize::from(number)];
    match octets {
        [0, ..] => SenderState::Prepared,
        [1, ..] => SenderState::AwaitingAccept,
        [2, ..] => SenderState::AwaitingResponse,
        [3, 0, ..] => SenderState::Complete(Completion::LowerLayerAccepted),
        [3, 1, ..] => SenderState::Complete(Completion::PeerReceived),
        [3, ..] => SenderState::Complete(Completion::ExceptionIntervalElapsed),
        [4, 0, ..] => SenderState::Failed(SenderFailure::SegmentInterval),
        [4, 1, lower, value] => SenderState::Failed(SenderFailure::LowerLayer(match lower {
            0 => LowerLayerFailure::Rejected { cause: *value },
            1 => LowerLayerFailure::TimedOut,
            _ => LowerLayerFailure::Cancelled,
        })),
        [4, .., value] => SenderState::Failed(SenderFailure::Peer(status(*value))),
        _ => SenderState::Cancelled,
    }
}

/// What of a sender's record stands beside the original's fields.
pub struct Named {
    pub number: u64,
    /// The present submission's ticket.
    pub ticket: Option<u64>,
    pub last_ticket: u64,
}

/// The sender that a record spells: a possible one, of the original's profile. Of its plan the original gets the count, the transaction and
/// the window, which is all that a call but submission() reads.
pub fn sender(record: &[u8]) -> (Sender, Named) {
    let mut take = Take(&record[1..]);
    let peer = take_peer(&mut take);
    let protocol = take_protocol(&mut take);
    let version = ProtocolVersion(take.take8());
    take.take8();
    let number = take.take64();
    let state = sender_state(take.octets(4));
    let submission = optional(&mut take, |take| {
        (take.take64(), (take.take8(), take.take64()))
    });
    let last_ticket = take.take64();
    let (submitted, retry, received) = (marks(&mut take), marks(&mut take), marks(&mut take));
    let deadline_monotonic_ms = optional(&mut take, |take| take.take64());
    let last_monotonic_ms = take.take64();
    let layer3_submissions = take.take64();
    let frozen = take.flag();
    let mut planned = Take(take.octets(43));
    planned.octets(16);
    let (transaction, planned_window) = (planned.take8(), planned.take8());
    planned.octets(16);
    let count = planned.take64();
    let frozen_count = take.take64();
    take.octets(16);
    let frozen_window = take.take8();
    let first = take_head(&mut take);
    let (count, transaction_id, window_number) = if frozen {
        (frozen_count, first.transaction_id, frozen_window)
    } else {
        (count, transaction, planned_window)
    };
    let count = count as usize;
    let below = |mut marks: Vec<bool>| {
        marks.truncate(count);
        marks
    };
    let sender = Sender::made_up(SenderFields {
        peer,
        protocol,
        version,
        plan: SegmentedMessage::made_up(count, transaction_id, window(window_number)),
        transaction_id,
        state,
        current: submission.map(|(_, current)| current),
        submitted: below(submitted),
        retry: below(retry),
        received: below(received),
        deadline_monotonic_ms,
        last_monotonic_ms,
        layer3_submissions,
    });
    let named = Named {
        number,
        ticket: submission.map(|(ticket, _)| ticket),
        last_ticket,
    };
    (sender, named)
}
