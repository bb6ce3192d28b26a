//! Senders under each profile of document 02 (2026-11): making them, how long they wait, records of neither profile, and that the profile stays.

mod making;
mod neither;
mod overflow;
mod timing;
mod trains;

use super::bench::*;
use super::plan::plan_under;
use crate::exceptions::THREE;
use crate::octets::{Segment, train};
use crate::profiles::{BOTH, Profile};

/// Windows under which a response is awaited to the last segment, and a due deadline asks for segments again.
const ANSWERED: [AcknowledgmentWindow; 4] = [Every4, Every8, Every16, Last];

/// A profile and a window: senders of three segments that calls have led to some state. Submission k is queued, observed and accepted at Qk.
#[derive(Clone, Copy)]
struct Under(Profile, AcknowledgmentWindow);

impl Under {
    /// The deadline of a submission that is queued at a reading.
    fn after(self, queued: u64) -> u64 {
        queued + self.0.sender
    }

    /// Prepared, segment 0 offered under ticket 0; made at a reading.
    fn made_at(self, monotonic_ms: u64) -> Sender {
        let Self(profile, window) = self;
        try_new_under(profile.number, &plan_under(window), &MESSAGE, monotonic_ms).sender
    }

    fn first_offered(self) -> Sender {
        self.made_at(MADE)
    }

    /// AwaitingAccept for segment 0.
    fn first_awaited(self) -> Sender {
        self.first_offered().handed(0, Q1)
    }

    /// Prepared, segment 1 offered under ticket 1.
    fn second_offered(self) -> Sender {
        self.first_offered().taken(0, Q1)
    }

    /// Prepared, segment 2 offered under ticket 2.
    fn third_offered(self) -> Sender {
        self.second_offered().taken(1, Q2)
    }

    /// AwaitingAccept for segment 2.
    fn third_awaited(self) -> Sender {
        self.third_offered().handed(2, Q3)
    }

    /// AwaitingResponse; under Prohibited complete.
    fn all_accepted(self) -> Sender {
        self.third_offered().taken(2, Q3)
    }
}

/// The segments of their plan: 14 octets, which the Begin states.
fn segments(window: AcknowledgmentWindow) -> Vec<(Segment, u64)> {
    match window {
        Prohibited => train(TRANSACTION, Some(14), Prohibited, &[4, 6, 4]),
        _ => THREE.heads_under(TRANSACTION, window),
    }
}

/// What becomes of a sender whose deadline is due before the last segment is accepted: under Prohibited it fails, else this.
fn due(window: AcknowledgmentWindow, submissions: u64, otherwise: Outcome) -> Outcome {
    match window {
        Prohibited => ended(SEGMENT_INTERVAL, submissions),
        _ => otherwise,
    }
}

/// Each profile under each of these windows.
fn each<const N: usize>(windows: [AcknowledgmentWindow; N]) -> impl Iterator<Item = Under> {
    let each = move |profile| {
        windows
            .into_iter()
            .map(move |window| Under(profile, window))
    };
    BOTH.into_iter().flat_map(each)
}

pub fn corners(tally: &mut Tally) {
    making::corners(tally);
    timing::corners(tally);
    overflow::corners(tally);
    trains::corners(tally);
    neither::corners(tally);
}
