//! What the sender's cases share: numbers, and senders that calls have led to some state. All have three segments, and submission k is
//! queued, observed and accepted at Qk.

pub use super::outcome::*;
pub use super::record::{Sender, Sent, marks, try_new, try_new_under};
pub use super::response::Response;
pub use crate::tally::{Group, Tally};
pub use catkhize::AcknowledgmentWindow::{self, *};
pub use catkhize::Status::{self, *};

use super::plan::{frozen_plan, plan_at, plan_under};
use crate::octets::head;
use crate::plan::Heads;
use crate::profiles::ONE;
use catkhize::calls::Origin;

/// 14 octets at a budget of 9 make three segments: data lengths 4, 6, 4 under Prohibited, else 2, 6, 6.
pub const MESSAGE: [u8; 14] = [0xA5; 14];
pub const BUDGET: u64 = 9;
pub const TRANSACTION: u8 = 1;
pub const VERSION: u8 = 5;

/// The peer and the service: Segmented with octet 3.
pub const ORIGIN: Origin = Origin {
    kind: 1,
    width: 34,
    value: 136,
    protocol: 0,
    octet: 3,
};

/// The number of the sender under test, and that of another.
pub const OWN: u64 = 136;
pub const FOREIGN: u64 = 137;

/// The lower layer's failure TimedOut: its number, and no cause.
pub const TIMED_OUT: (u8, u8) = (1, 0);

/// From a queued reading to its deadline, under profile 1.
pub const INTERVAL: u64 = ONE.sender;

pub const MAX: u64 = u64::MAX;

/// The reading of try_new, the readings of the submissions, and their deadlines.
pub const MADE: u64 = 100;
pub const Q1: u64 = 1_000;
pub const Q2: u64 = 2_000;
pub const Q3: u64 = 3_000;
pub const D1: u64 = 331_000;
pub const D2: u64 = 332_000;
pub const D3: u64 = 333_000;

/// Readings between the last submission and its deadline.
pub const R4: u64 = 4_000;
pub const R5: u64 = 5_000;
pub const R6: u64 = 6_000;

impl Sender {
    /// Submitted at a reading.
    pub fn handed(&self, ticket: u64, monotonic_ms: u64) -> Sender {
        self.submitted(OWN, ticket, monotonic_ms, monotonic_ms)
            .sender
    }

    /// Submitted and accepted at a reading.
    pub fn taken(&self, ticket: u64, monotonic_ms: u64) -> Sender {
        self.handed(ticket, monotonic_ms)
            .accepted(OWN, ticket, monotonic_ms)
            .sender
    }
}

/// A sender of the plan of a message.
pub fn made_of(
    message: &[u8],
    budget: u64,
    window: AcknowledgmentWindow,
    monotonic_ms: u64,
) -> Sender {
    try_new(&plan_at(message, budget, window), message, monotonic_ms).sender
}

/// A sender of a frozen plan of the same message, with nothing submitted.
pub fn frozen_offered() -> Sender {
    try_new(&frozen_plan(), &MESSAGE, MADE).sender
}

/// Prepared, segment 0 offered under ticket 0.
pub fn first_offered(window: AcknowledgmentWindow) -> Sender {
    try_new(&plan_under(window), &MESSAGE, MADE).sender
}

/// AwaitingAccept for segment 0, deadline D1.
pub fn first_awaited(window: AcknowledgmentWindow) -> Sender {
    first_offered(window).handed(0, Q1)
}

/// Prepared, segment 1 offered under ticket 1, deadline D1.
pub fn second_offered(window: AcknowledgmentWindow) -> Sender {
    first_offered(window).taken(0, Q1)
}

/// AwaitingAccept for segment 1, deadline D2.
pub fn second_awaited(window: AcknowledgmentWindow) -> Sender {
    second_offered(window).handed(1, Q2)
}

/// Prepared, segment 2 offered under ticket 2, deadline D2.
pub fn third_offered(window: AcknowledgmentWindow) -> Sender {
    second_offered(window).taken(1, Q2)
}

/// AwaitingAccept for segment 2, deadline D3; under Prohibited none.
pub fn third_awaited(window: AcknowledgmentWindow) -> Sender {
    third_offered(window).handed(2, Q3)
}

/// AwaitingResponse, deadline D3; under Prohibited complete.
pub fn all_accepted(window: AcknowledgmentWindow) -> Sender {
    third_offered(window).taken(2, Q3)
}

/// A sender that was made of these segments: every one is offered as it was written out, submitted and accepted. Then, where there are responses,
/// none comes until the deadline, or one says that the peer has them all.
pub fn drive(g: &mut Group, made: Sent, heads: Heads, window: AcknowledgmentWindow) {
    drive_until(g, made, heads, window, D1);
}

/// The same with another deadline of what is queued at Q1.
pub fn drive_until(
    g: &mut Group,
    made: Sent,
    heads: Heads,
    window: AcknowledgmentWindow,
    due_at: u64,
) {
    let mut sent = made;
    let mut offset = 0_u64;
    for (index, (segment, data)) in heads.iter().enumerate() {
        let ticket = index as u64;
        let deadline = (index > 0).then_some(due_at);
        case(g, sent, prepared(ticket, index as u8, deadline, ticket));
        let part = [&head(*segment, *data)[..], &offset.to_be_bytes()].concat();
        g.case(sent.sender.offered().to_vec(), part);
        offset += data;
        sent = sent.sender.handed(ticket, Q1).accepted(OWN, ticket, Q1);
    }
    let count = heads.len();
    let submissions = count as u64;
    if window == Prohibited {
        return case(g, sent, ended(LOWER_LAYER_ACCEPTED, submissions));
    }
    case(g, sent, awaiting_response(Some(due_at), submissions));
    let due = match window {
        Exceptions => ended(EXCEPTION_INTERVAL_ELAPSED, submissions),
        _ => prepared(submissions, 0, None, submissions),
    };
    case(g, sent.sender.advance(due_at), due);
    let received = Response::new(Received, marks(0..count), count as u16);
    let heard = sent.sender.hears(received, Q1);
    case(g, heard, ended(PEER_RECEIVED, submissions));
}
