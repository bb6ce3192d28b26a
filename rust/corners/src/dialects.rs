//! Messages whose segments state the length as either dialect of document 02 has it, with the data octets of every segment written out: what the
//! corners of converter, sender and receiver share.

use crate::octets::{Run, Segment, lengths, stating, train};
use crate::plan::Heads;
use catkhize::AcknowledgmentWindow::{self, Every4, Every8, Every16, Exceptions, Last, Prohibited};
use catkhize::Dialect::{self, BeginOnly, Every};

/// The dialect being read, and the one that is written.
pub const BOTH: [(Dialect, Dialect); 2] = [(BeginOnly, Every), (Every, BeginOnly)];

pub const WINDOWS: [AcknowledgmentWindow; 6] =
    [Prohibited, Every4, Every8, Every16, Last, Exceptions];

/// Whether the segment at a place states the length.
pub type Stating = fn(usize) -> bool;

/// A budget for every segment below.
pub const ROOM: u64 = 300;

/// A message and how it is cut.
#[derive(Clone, Copy)]
pub struct Cutting {
    pub octets: usize,
    pub window: AcknowledgmentWindow,
    /// The octets of the longest segment, encoded: where Begin alone states the length, and where every segment does.
    pub longest: [u64; 2],
    runs: &'static [Run],
}

/// The segments, of which those at these places state a length and the others none.
pub fn stating_at(
    heads: Heads,
    length: usize,
    states: impl Fn(usize) -> bool,
) -> Vec<(Segment, u64)> {
    let length = |index| states(index).then_some(length as u16);
    let heads = heads.iter().enumerate();
    heads
        .map(|(index, (segment, data))| (stating(*segment, length(index)), *data))
        .collect()
}

impl Cutting {
    /// The segments in a transaction, each with its data octets, of which those at these places state the length.
    pub fn stating(&self, transaction: u8, states: impl Fn(usize) -> bool) -> Vec<(Segment, u64)> {
        let bare = train(transaction, None, self.window, &lengths(self.runs));
        stating_at(&bare, self.octets, states)
    }

    /// The segments in a dialect.
    pub fn heads(&self, transaction: u8, dialect: Dialect) -> Vec<(Segment, u64)> {
        match dialect {
            BeginOnly => self.stating(transaction, |index| index == 0),
            Every => self.stating(transaction, |_| true),
        }
    }

    /// The same under another window. There is room for it.
    pub fn under(self, window: AcknowledgmentWindow) -> Self {
        Self {
            window,
            longest: [ROOM; 2],
            ..self
        }
    }
}

/// A message of so many octets under a window: the octets of the longest segment in either dialect, the runs.
pub const fn cut(
    octets: usize,
    window: AcknowledgmentWindow,
    longest: [u64; 2],
    runs: &'static [Run],
) -> Cutting {
    Cutting {
        octets,
        window,
        longest,
        runs,
    }
}

/// An empty message in two empty segments.
pub const EMPTY: Cutting = cut(0, Prohibited, [5, 5], &[(2, 0)]);

/// 10 octets in two segments.
pub const TWO: Cutting = cut(10, Prohibited, [9, 11], &[(1, 4), (1, 6)]);

/// 14 octets in three segments, of which the Continue, the End, both and the Begin are longest where every segment states the length.
pub const THREE: Cutting = cut(14, Prohibited, [9, 11], &[(1, 4), (1, 6), (1, 4)]);
pub const LONG_END: Cutting = cut(14, Prohibited, [9, 11], &[(2, 4), (1, 6)]);
pub const SERVED: Cutting = cut(14, Last, [9, 11], &[(1, 2), (2, 6)]);
pub const LONG_BEGIN: Cutting = cut(14, Prohibited, [11, 11], &[(1, 6), (2, 4)]);

/// 4,095 octets in 17 segments and in 256.
pub const LONGEST: Cutting = cut(4_095, Prohibited, [260, 260], &[(16, 255), (1, 15)]);
pub const MOST: Cutting = cut(4_095, Prohibited, [20, 21], &[(1, 15), (255, 16)]);

/// All of them, trains with an empty Begin, an empty Continue, an empty End and none but empty segments, and one of 255 segments.
pub const ALL: [Cutting; 13] = [
    EMPTY,
    TWO,
    THREE,
    LONG_END,
    SERVED,
    LONG_BEGIN,
    cut(12, Every4, [9, 11], &[(1, 0), (2, 6)]),
    cut(10, Exceptions, [11, 11], &[(1, 4), (1, 0), (1, 6)]),
    cut(10, Every8, [11, 11], &[(1, 4), (1, 6), (1, 0)]),
    cut(0, Last, [7, 7], &[(256, 0)]),
    LONGEST,
    MOST,
    cut(510, Every16, [9, 9], &[(1, 2), (254, 2)]),
];
