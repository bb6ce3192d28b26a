//! The private fields of the machines, for whoever makes one up.

use crate::l3::broadcast::ProtocolVersion;
use crate::l3::relay::HigherLayerProtocol;
use crate::l3::tsar::{OptionalServices, Segment, SegmentedMessage};
use crate::link::rach::MobileIdentity;
use crate::link::tsar::{ReceiverState, SenderState};

/// The fields of a receiver.
pub struct ReceiverFields {
    pub peer: MobileIdentity,
    pub protocol: HigherLayerProtocol,
    pub transaction_id: u8,
    pub version: ProtocolVersion,
    pub maximum_message_octets: usize,
    pub state: ReceiverState,
    pub services: OptionalServices,
    pub segments: Vec<Option<Segment>>,
    pub end_sequence: Option<u8>,
    pub message_length: Option<u16>,
    pub stored_octets: usize,
    pub deadline_monotonic_ms: Option<u64>,
    pub last_monotonic_ms: u64,
}

/// The fields of a sender. `current` is the index and the prepared reading of its submission.
pub struct SenderFields {
    pub peer: MobileIdentity,
    pub protocol: HigherLayerProtocol,
    pub version: ProtocolVersion,
    pub plan: SegmentedMessage,
    pub transaction_id: u8,
    pub state: SenderState,
    pub current: Option<(u8, u64)>,
    pub submitted: Vec<bool>,
    pub retry: Vec<bool>,
    pub received: Vec<bool>,
    pub deadline_monotonic_ms: Option<u64>,
    pub last_monotonic_ms: u64,
    pub layer3_submissions: u64,
}
