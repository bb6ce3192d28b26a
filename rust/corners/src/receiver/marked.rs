//! P13 and P14 of document 01.

use super::bench::run;
use super::rows::*;
use crate::tally::Tally;

/// A Begin without data or stated length, then an empty End at sequence 1: an empty message is handed over. With no window, and with one
/// that answers.
const P13: &[Row] = &[
    FRESH,
    begin(PLAIN, 0, 1_000).holds(),
    end(1, 0, 2_000).hands_over(),
    FRESH,
    begin(LAST, 0, 1_000).holds(),
    end(1, 0, 2_000).hands_over().map(2, 0b11),
];

/// A Begin, then a Continue at 255: Failed(Aborted).
const P14: &[Row] = &[
    FRESH,
    begin(PLAIN, 2, 1_000).holds(),
    later(255, 2, 2_000).fails(2),
    FRESH,
    begin(LAST, 2, 1_000).holds(),
    later(255, 2, 2_000).fails(2).map(1, 0b1),
];

pub fn corners(tally: &mut Tally) {
    tally.group("receiver: P13 and P14", |g| run(g, &[P13, P14]));
}
