//! The deadline D, 300,000 ms after the last segment under profile 1, the readings that calls take, and the last ones that numbers of 64 bits allow.

use super::bench::run;
use super::rows::*;
use crate::tally::Tally;

/// A Begin of 2 octets at 1,000, so that D is 301,000: with no window, under Prohibited, and under a window that answers.
const SILENT: Row = begin(PLAIN, 2, 1_000).holds();
const BARRED: Row = begin(PROHIBITED, 2, 1_000).holds();
const ASKING: Row = begin(EVERY4, 2, 1_000).holds();

/// Advance at D - 1, D and D + 1: under Prohibited the reception expires.
const LAPSING: &[Row] = &[
    FRESH,
    BARRED,
    advance(300_999).waits(),
    advance(301_000).lapses(),
    advance(301_000).waits(),
    FRESH,
    SILENT,
    advance(301_001).lapses(),
];

/// Under another window the response asks for what is missing, once; the next segment sets a deadline again.
const ASKED: &[Row] = &[
    FRESH,
    ASKING,
    advance(300_999).waits(),
    advance(301_000).asks().map(2, 0b1),
    advance(900_000).waits(),
    later(1, 2, 900_001).holds(),
    advance(1_200_000).waits(),
    advance(1_200_001).asks().map(3, 0b11),
    FRESH,
    ASKING,
    advance(301_001).asks().map(2, 0b1),
];

/// A segment at D is taken, and sets a deadline of its own.
const TAKEN: &[Row] = &[
    FRESH,
    SILENT,
    later(1, 2, 301_000).holds(),
    advance(600_999).waits(),
    advance(601_000).lapses(),
    FRESH,
    ASKING,
    later(1, 2, 301_000).holds(),
    advance(601_000).asks().map(3, 0b11),
];

/// A segment at D + 1 is not: 37 and nothing changes, for a repeat too, equal or not; one with an earlier reading is still taken.
const DUE: &[Row] = &[
    FRESH,
    ASKING,
    later(1, 2, 301_001).refused(37),
    end(1, 2, 400_000).refused(37),
    begin(EVERY4, 2, 301_001).refused(37),
    begin(EVERY4, 3, 301_001).refused(37),
    later(255, 2, 301_001).refused(37),
    later(1, 2, 301_000).holds(),
];

/// Under Prohibited it gives 38, the reception has expired and its store is wiped; then the receiver is closed.
const EXPIRING: &[Row] = &[
    FRESH,
    BARRED,
    later(1, 2, 301_001).expires(),
    later(1, 2, 301_002).refused(38),
    FRESH,
    SILENT,
    begin(PLAIN, 2, 301_001).expires(),
    FRESH,
    SILENT,
    end(1, 2, 900_000).expires(),
];

/// Advance takes the reading in every state; a call before the last reading gives 33.
const READINGS: &[Row] = &[
    FRESH,
    advance(500).waits(),
    advance(499).refused(33),
    begin(PLAIN, 2, 499).refused(33),
    SILENT,
    advance(6_000).waits(),
    later(1, 2, 5_999).refused(33),
    cancel(5_999).refused(33),
    end(1, 2, 6_000).hands_over(),
    advance(7_000).waits(),
    end(1, 2, 6_999).refused(33),
];

/// In a closed state too. A refused cancel takes no reading.
const CLOSED_READINGS: &[Row] = &[
    FRESH,
    SILENT,
    later(255, 0, 2_000).fails(2),
    cancel(9_000).refused(38),
    advance(3_000).waits(),
    advance(2_999).refused(33),
    FRESH,
    SILENT,
    cancel(2_000).cancels(),
    cancel(9_000).refused(38),
    advance(3_000).waits(),
    advance(2_999).refused(33),
];

/// A deadline of 2^64 - 1 can still be set, and fires; a reading later there is 34, and nothing changes.
const LATEST_RECEIVING: &[Row] = &[
    FRESH,
    begin(EVERY4, 2, LATEST + 1).refused(34),
    begin(EVERY4, 2, LATEST).holds(),
    begin(EVERY4, 2, LATEST + 1).refused(34),
    later(1, 2, u64::MAX).refused(34),
    advance(u64::MAX - 1).waits(),
    advance(u64::MAX).asks().map(2, 0b1),
    FRESH,
    begin(PLAIN, 2, LATEST).holds(),
    advance(u64::MAX).lapses(),
];

/// 34 also where no deadline would be set: in Complete, for a repeat and for a sequence that is not held.
const LATEST_COMPLETE: &[Row] = &[
    FRESH,
    SILENT,
    end(1, 2, 2_000).hands_over(),
    end(1, 2, LATEST).repeats(),
    end(1, 2, LATEST + 1).refused(34),
    later(2, 0, LATEST + 1).refused(34),
    later(2, 0, LATEST).closes(),
    advance(u64::MAX).waits(),
];

pub fn corners(tally: &mut Tally) {
    tally.group("receiver: before, at and past the deadline", |g| {
        run(g, &[LAPSING, ASKED, TAKEN, DUE, EXPIRING])
    });
    tally.group("receiver: readings that calls take", |g| {
        run(g, &[READINGS, CLOSED_READINGS])
    });
    tally.group("receiver: the last readings", |g| {
        run(g, &[LATEST_RECEIVING, LATEST_COMPLETE])
    });
}
