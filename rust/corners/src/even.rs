//! Messages that plan_even cuts, with the data octets of every segment written out: what the corners of planner, sender and receiver share.

use crate::octets::{Run, Segment, lengths, train};
use catkhize::AcknowledgmentWindow::{self, Every4, Every8, Every16, Last, Prohibited};

/// A message and how it is cut.
#[derive(Clone, Copy)]
pub struct Even {
    pub octets: usize,
    pub budget: u64,
    pub window: AcknowledgmentWindow,
    /// Whether the Begin states the length.
    pub states_length: bool,
    /// What each later segment has at least.
    pub share: u64,
    runs: &'static [Run],
}

impl Even {
    /// The segments in a transaction, each with its data octets.
    pub fn heads(&self, transaction: u8) -> Vec<(Segment, u64)> {
        let length = self.states_length.then_some(self.octets as u16);
        train(transaction, length, self.window, &lengths(self.runs))
    }
}

/// A message of so many octets at a budget under a window: the Begin states the length or not, the share, the runs.
pub const fn cut(
    octets: usize,
    budget: u64,
    window: AcknowledgmentWindow,
    states_length: bool,
    share: u64,
    runs: &'static [Run],
) -> Even {
    Even {
        octets,
        budget,
        window,
        states_length,
        share,
        runs,
    }
}

/// 8 octets at 6, which plan_message cuts into 1, 3, 3 and 1.
pub const EIGHT: Even = cut(8, 6, Prohibited, true, 2, &[(1, 1), (1, 3), (2, 2)]);

/// 199 octets at 103: 101 of them for two later segments, of which plan_message gives the first one 100.
pub const SPLIT: Even = cut(199, 103, Prohibited, true, 50, &[(1, 98), (1, 51), (1, 50)]);

/// 10 octets at 9 and 11 at 10: two segments, the End full and not full.
pub const TEN: Even = cut(10, 9, Prohibited, true, 6, &[(1, 4), (1, 6)]);
pub const ELEVEN: Even = cut(11, 10, Prohibited, true, 6, &[(1, 5), (1, 6)]);

/// 9 octets at 8 with services.
pub const NINE: Even = cut(9, 8, Every4, true, 4, &[(1, 1), (2, 4)]);

/// 256 segments, of which the Begin has no data; and of which all but the End are full.
pub const EMPTY_BEGIN: Even = cut(510, 5, Every4, false, 2, &[(1, 0), (255, 2)]);
pub const SHORT_END: Even = cut(
    65_279,
    258,
    Prohibited,
    false,
    254,
    &[(1, 255), (254, 255), (1, 254)],
);

/// None left over, one, and one less than there are later segments.
pub const LEFT_OVER: [Even; 7] = [
    cut(10, 6, Prohibited, true, 3, &[(1, 1), (3, 3)]),
    EIGHT,
    cut(9, 6, Prohibited, true, 2, &[(1, 1), (2, 3), (1, 2)]),
    cut(503, 103, Prohibited, true, 81, &[(1, 98), (5, 81)]),
    cut(499, 103, Prohibited, true, 80, &[(1, 98), (1, 81), (4, 80)]),
    cut(502, 103, Prohibited, true, 80, &[(1, 98), (4, 81), (1, 80)]),
    SPLIT,
];

/// There is nothing to spread: the End has the rest. plan_message's has it too, but its record names the capacity.
pub const TWO: [Even; 6] = [
    TEN,
    ELEVEN,
    cut(12, 10, Prohibited, true, 7, &[(1, 5), (1, 7)]),
    cut(15, 14, Every4, true, 8, &[(1, 7), (1, 8)]),
    cut(261, 260, Prohibited, true, 6, &[(1, 255), (1, 6)]),
    cut(510, 260, Prohibited, true, 255, &[(1, 255), (1, 255)]),
];

/// 255 and 256 segments: the fewest and the most octets that they have.
pub const MOST: [Even; 7] = [
    cut(256, 4, Prohibited, false, 1, &[(1, 1), (255, 1)]),
    cut(509, 5, Every4, false, 1, &[(1, 0), (254, 2), (1, 1)]),
    EMPTY_BEGIN,
    cut(65_025, 258, Prohibited, false, 255, &[(1, 255), (254, 255)]),
    cut(
        65_026,
        258,
        Prohibited,
        false,
        254,
        &[(1, 255), (1, 255), (254, 254)],
    ),
    SHORT_END,
    cut(65_280, 258, Prohibited, false, 255, &[(1, 255), (255, 255)]),
];

/// A length is stated up to 4,095 octets.
pub const STATED: [Even; 4] = [
    cut(
        4_095,
        103,
        Prohibited,
        true,
        99,
        &[(1, 98), (37, 100), (3, 99)],
    ),
    cut(
        4_096,
        103,
        Prohibited,
        false,
        99,
        &[(1, 100), (36, 100), (4, 99)],
    ),
    cut(4_095, 4_094, Prohibited, true, 240, &[(1, 255), (16, 240)]),
    cut(
        4_096,
        4_095,
        Prohibited,
        false,
        240,
        &[(1, 255), (1, 241), (15, 240)],
    ),
];

/// Each window that has services and is planned, with the least budget at which the length is stated and the one below it.
pub fn windows() -> Vec<Even> {
    let windows = [Every4, Every8, Every16, Last];
    let both = |window| {
        [
            cut(9, 7, window, false, 3, &[(1, 2), (1, 4), (1, 3)]),
            Even { window, ..NINE },
        ]
    };
    windows.into_iter().flat_map(both).collect()
}

/// All of them.
pub fn all() -> Vec<Even> {
    [&LEFT_OVER[..], &TWO, &MOST, &STATED, &windows()].concat()
}
