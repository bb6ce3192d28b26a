//! Messages under Exceptions, which no planner cuts, with the data octets of every segment written out: what the corners of frozen check, sender
//! and receiver share.

use crate::octets::{Run, Segment, lengths, train};
use catkhize::AcknowledgmentWindow::{self, Exceptions};

/// A message and how it is cut.
#[derive(Clone, Copy)]
pub struct Cutting {
    pub octets: usize,
    /// The octets of its longest segment, encoded.
    pub budget: u64,
    /// Whether the Begin states the length.
    states_length: bool,
    runs: &'static [Run],
}

impl Cutting {
    /// The length that the Begin states.
    fn stated(&self) -> Option<u16> {
        self.states_length.then_some(self.octets as u16)
    }

    /// The segments in a transaction, each with its data octets.
    pub fn heads(&self, transaction: u8) -> Vec<(Segment, u64)> {
        self.heads_under(transaction, Exceptions)
    }

    /// The same with another window.
    pub fn heads_under(&self, transaction: u8, asked: AcknowledgmentWindow) -> Vec<(Segment, u64)> {
        train(transaction, self.stated(), asked, &lengths(self.runs))
    }
}

const fn cut(octets: usize, budget: u64, states_length: bool, runs: &'static [Run]) -> Cutting {
    Cutting {
        octets,
        budget,
        states_length,
        runs,
    }
}

/// 9 octets in six segments.
pub const SIX: Cutting = cut(9, 5, false, &[(1, 0), (4, 2), (1, 1)]);

/// 14 octets in three segments.
pub const THREE: Cutting = cut(14, 9, true, &[(1, 2), (2, 6)]);

/// 9 octets in three segments, the later ones of one length.
pub const EVEN: Cutting = cut(9, 8, true, &[(1, 1), (2, 4)]);

/// All of them. One has an empty Continue; as the others are, plan_message or plan_even cuts the message under another window with services.
pub const ALL: [Cutting; 8] = [
    SIX,
    cut(9, 7, false, &[(1, 2), (1, 4), (1, 3)]),
    cut(9, 8, true, &[(1, 1), (1, 5), (1, 3)]),
    EVEN,
    THREE,
    cut(10, 9, false, &[(1, 4), (1, 0), (1, 6)]),
    cut(510, 5, false, &[(1, 0), (255, 2)]),
    cut(65_278, 258, false, &[(1, 253), (255, 255)]),
];
