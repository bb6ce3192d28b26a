//! Document 01's refusal numbers for the errors of the original.

use crate::list::REFUSED;
use bts136::l3::tsar::{self, PlanningError};
use bts136::link::tsar::{Error as SendError, ReceiveError};

/// Refusal n with field m, which is 0 but for n = 6.
pub type Refusal = (u8, u8);

/// Added by document 01; the original has no such refusal.
pub const OUTPUT_TOO_SHORT: Refusal = (61, 0);
pub const JOINED_LENGTH: Refusal = (24, 0);
pub const IDENTITY: Refusal = (30, 0);
pub const MAP_LENGTH: Refusal = (6, 6);

/// The planner's first test.
pub const PAYLOAD_BUDGET: Refusal = (20, 0);

pub fn answer(refusal: Refusal) -> Vec<u8> {
    vec![REFUSED, refusal.0, refusal.1]
}

pub fn codec(error: tsar::Error) -> Refusal {
    match error {
        tsar::Error::Version => (1, 0),
        tsar::Error::Truncated => (2, 0),
        tsar::Error::Protocol => (3, 0),
        tsar::Error::MessageType => (4, 0),
        tsar::Error::UnsupportedResponse => (5, 0),
        tsar::Error::Field(name) => (6, field(name)),
        tsar::Error::Reserved => (7, 0),
        tsar::Error::DuplicateParameter => (8, 0),
        tsar::Error::AmbiguousMapLength => panic!("only the wire codec of responses has this"),
    }
}

fn field(name: &str) -> u8 {
    match name {
        "transaction_id" => 1,
        "segment_data_length" => 2,
        "begin_sequence_number" => 3,
        "message_length" => 4,
        "crc24" => 5,
        "acknowledgment_map_length" => 6,
        "optional_services_support_status" => 7,
        _ => panic!("document 01 has no field {name}"),
    }
}

pub fn planning(error: PlanningError) -> Refusal {
    match error {
        PlanningError::PayloadBudget => PAYLOAD_BUDGET,
        PlanningError::HeaderCapacity => (21, 0),
        PlanningError::SegmentCount => (22, 0),
        PlanningError::FrozenPlan => (23, 0),
        PlanningError::Codec(error) => codec(error),
    }
}

pub fn receiving(error: ReceiveError) -> Refusal {
    match error {
        ReceiveError::Identity => IDENTITY,
        ReceiveError::Service => (31, 0),
        ReceiveError::TransactionId => (32, 0),
        ReceiveError::Codec(error) => codec(error),
        ReceiveError::ClockRegression => (33, 0),
        ReceiveError::TimeOverflow => (34, 0),
        ReceiveError::UnparsedSegment => (35, 0),
        ReceiveError::BeginRequired => (36, 0),
        ReceiveError::TimerDue => (37, 0),
        ReceiveError::Closed => (38, 0),
    }
}

pub fn sending(error: SendError) -> Refusal {
    match error {
        SendError::Identity => IDENTITY,
        SendError::Service => (31, 0),
        SendError::TransactionId => (32, 0),
        SendError::ClockRegression => (33, 0),
        SendError::TimeOverflow => (34, 0),
        SendError::Closed => (38, 0),
        SendError::Plan => (40, 0),
        SendError::CounterOverflow => (41, 0),
        SendError::StaleSubmission => (42, 0),
        SendError::NotSubmitted => (43, 0),
        SendError::ReceiptTime => (44, 0),
        SendError::Peer => (45, 0),
        SendError::ResponsesProhibited => (46, 0),
        SendError::UnparsedResponse => (47, 0),
        SendError::UnsubmittedAcknowledgment => (48, 0),
        SendError::ContradictoryReceipt => (49, 0),
        SendError::Codec(error) => codec(error),
    }
}
