//! What a call has to give and to leave, and the comparison with what it gave.

use super::record::{Sent, State};
use crate::octets::{FILL, refusal};
use crate::tally::Group;
use catkhize::{Status, layout};

// States, as STATE lays them out: case, completion or failure, the lower layer's failure, cause or status.
const PREPARED: State = [0, 0, 0, 0];
const AWAITING_ACCEPT: State = [1, 0, 0, 0];
const AWAITING_RESPONSE: State = [2, 0, 0, 0];
pub const LOWER_LAYER_ACCEPTED: State = [3, 0, 0, 0];
pub const PEER_RECEIVED: State = [3, 1, 0, 0];
pub const EXCEPTION_INTERVAL_ELAPSED: State = [3, 2, 0, 0];
pub const SEGMENT_INTERVAL: State = [4, 0, 0, 0];
pub const CANCELLED: State = [5, 0, 0, 0];

/// Failed by the lower layer, for a failure's number and its cause.
pub fn lower_layer_failed((failure, cause): (u8, u8)) -> State {
    [4, 1, failure, cause]
}

/// Failed by the peer's word.
pub fn peer_failed(status: Status) -> State {
    [4, 2, 0, status as u8]
}

/// Ticket and index of what is offered; where octets around them are not as they have to be, what the call gave.
pub type Offer = Result<Option<(u64, u8)>, (u32, [u8; layout::SUBMISSION])>;

/// A deadline's flag and reading.
pub fn deadline_fields(deadline: Option<u64>) -> (u8, u64) {
    deadline.map_or((0, 0), |at| (1, at))
}

/// What a record shows after a call.
#[derive(Debug, Clone, Copy, PartialEq)]
pub struct Shown {
    pub state: State,
    pub deadline: (u8, u64),
    pub submissions: u64,
    pub offer: Offer,
}

/// The number given, the answer, and what the record shows: nothing where no octet of it changed and none may.
#[derive(Debug, Clone, Copy, PartialEq)]
pub struct Outcome {
    given: u32,
    answer: State,
    left: Option<Shown>,
}

fn left(
    state: State,
    deadline: Option<u64>,
    submissions: u64,
    offer: Option<(u64, u8)>,
) -> Outcome {
    Outcome {
        given: 0,
        answer: state,
        left: Some(Shown {
            state,
            deadline: deadline_fields(deadline),
            submissions,
            offer: Ok(offer),
        }),
    }
}

pub fn prepared(ticket: u64, index: u8, deadline: Option<u64>, submissions: u64) -> Outcome {
    left(PREPARED, deadline, submissions, Some((ticket, index)))
}

pub fn awaiting_accept(deadline: Option<u64>, submissions: u64) -> Outcome {
    left(AWAITING_ACCEPT, deadline, submissions, None)
}

pub fn awaiting_response(deadline: Option<u64>, submissions: u64) -> Outcome {
    left(AWAITING_RESPONSE, deadline, submissions, None)
}

/// A closed state: no deadline and no offer.
pub fn ended(state: State, submissions: u64) -> Outcome {
    left(state, None, submissions, None)
}

/// Document 01's refusal n/m, which changes no octet of record and answer.
pub fn refuses_at(n: u32, m: u32) -> Outcome {
    Outcome {
        given: refusal(n, m),
        answer: [FILL; layout::STATE],
        left: None,
    }
}

pub fn refuses(n: u32) -> Outcome {
    refuses_at(n, 0)
}

impl Outcome {
    /// The same record beside a refusal.
    pub fn refused(self, n: u32) -> Outcome {
        let left = self.left;
        Outcome { left, ..refuses(n) }
    }
}

/// A case: what a call gave and left is what it had to.
pub fn case(g: &mut Group, sent: Sent, want: Outcome) {
    let unchanged = want.left.is_none() && sent.sender == sent.before;
    let given = Outcome {
        given: sent.given,
        answer: sent.answer,
        left: (!unchanged).then(|| sent.sender.shown()),
    };
    g.case(given, want);
}

/// A case for each row.
pub fn cases<const N: usize>(g: &mut Group, rows: [(Sent, Outcome); N]) {
    for (sent, want) in rows {
        case(g, sent, want);
    }
}

/// Every call is refused alike and changes nothing.
pub fn all_refuse<const N: usize>(g: &mut Group, n: u32, calls: [Sent; N]) {
    for sent in calls {
        case(g, sent, refuses(n));
    }
}
