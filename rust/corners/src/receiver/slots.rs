//! A segment for a slot that is not held: each test against the next, and what a failure leaves in the record.

use super::bench::run;
use super::rows::Row::{Keeps, Start};
use super::rows::*;
use crate::tally::Tally;

/// A Begin of 2 octets that states 5, to a receiver of at most 100, under a window that answers failures; with sequence 3 held too; with an
/// End at 4.
const BEGUN: Row = begin(LAST, 2, 1_000).states(5).holds();
const TO_3: Row = later(3, 1, 2_000).holds();
const TO_4: Row = end(4, 1, 2_000).holds().map(5, 0b10001);

/// A Begin that states nothing.
const UNSTATED: Row = begin(LAST, 2, 1_000).holds();

/// A Continue at 255 (2), before a stated length that clashes (8) and before data that are too long (9).
const LAST_SEQUENCE: &[Row] = &[
    FRESH,
    BEGUN,
    later(255, 0, 9_000).states(6).fails(2).map(1, 0b1),
    FRESH,
    BEGUN,
    later(255, 101, 9_000).fails(2).map(1, 0b1),
    FRESH,
    BEGUN,
    later(254, 0, 9_000).holds(),
];

/// A first Begin whose services are not served (13, 4, 3), before a stated length that is too long (9).
const UNSERVED: &[Row] = &[
    FRESH,
    begin(SEVERAL_16, 2, 1_000).states(101).fails(13).map(1, 0),
    FRESH,
    begin(SEVERAL_24, 2, 1_000).states(101).fails(13).map(1, 0),
    FRESH,
    begin(LAST_V42, 2, 1_000).states(101).fails(4).map(1, 0),
    FRESH,
    begin(LAST_CRC16, 2, 1_000).states(101).fails(3).map(1, 0),
    FRESH,
    begin(LAST_CRC24, 2, 1_000).states(101).fails(3).map(1, 0),
    FRESH,
    begin(LAST, 2, 1_000).states(101).fails(9).map(1, 0),
    FRESH,
    begin(V42, 2, 1_000).states(101).fails(4),
];

/// An End's CRC (3), before its place (2) and before a stated length that clashes (8).
const END_CRC: &[Row] = &[
    FRESH,
    BEGUN,
    TO_3,
    end(2, 1, 9_000).crc(CRC16).fails(3).map(4, 0b1001),
    FRESH,
    BEGUN,
    TO_3,
    end(4, 1, 9_000)
        .crc(CRC24)
        .states(6)
        .fails(3)
        .map(4, 0b1001),
];

/// An End before a held segment, and one at another place than the first (2), before a stated length that clashes (8).
const END_PLACE: &[Row] = &[
    FRESH,
    BEGUN,
    TO_3,
    end(2, 1, 9_000).fails(2).map(4, 0b1001),
    FRESH,
    BEGUN,
    TO_3,
    end(2, 1, 9_000).states(6).fails(2).map(4, 0b1001),
    FRESH,
    BEGUN,
    TO_4,
    end(3, 0, 9_000).states(6).fails(2).map(5, 0b10001),
    FRESH,
    BEGUN,
    TO_4,
    end(5, 0, 9_000).states(6).fails(2).map(5, 0b10001),
];

/// A segment past the end (2), before a stated length that clashes (8) and before data that are too long (9); one within it is held.
const PAST_END: &[Row] = &[
    FRESH,
    BEGUN,
    TO_4,
    later(3, 1, 9_000).holds(),
    later(5, 0, 9_000).states(6).fails(2).map(5, 0b11001),
    FRESH,
    BEGUN,
    TO_4,
    later(254, 101, 9_000).fails(2).map(5, 0b10001),
];

/// Stated lengths that clash (8), before data or a stated length that are too long (9); the same length again is taken.
const CLASHING: &[Row] = &[
    FRESH,
    BEGUN,
    later(1, 101, 9_000).states(6).fails(8).map(1, 0b1),
    FRESH,
    BEGUN,
    later(1, 0, 9_000).states(101).fails(8).map(1, 0b1),
    FRESH,
    BEGUN,
    later(1, 1, 9_000).states(5).holds(),
    end(2, 0, 9_000).states(4).fails(8).map(2, 0b11),
    FRESH,
    UNSTATED,
    later(1, 1, 9_000).states(5).holds(),
    later(2, 1, 9_000).states(6).fails(8).map(2, 0b11),
];

/// Data past the maximum (9), before data past the stated length (8).
const TOO_LONG: &[Row] = &[
    FRESH,
    BEGUN,
    later(1, 99, 9_000).fails(9).map(1, 0b1),
    FRESH,
    BEGUN,
    later(1, 98, 9_000).fails(8).map(1, 0b1),
    Start(1, 3),
    UNSTATED,
    later(2, 1, 9_000).holds(),
    later(1, 1, 9_000).fails(9).map(3, 0b101),
];

/// A stated length of the maximum, and one more (9).
const STATES_TOO_LONG: &[Row] = &[
    FRESH,
    begin(LAST, 2, 1_000).states(100).holds(),
    FRESH,
    begin(LAST, 2, 1_000).states(101).fails(9).map(1, 0),
    FRESH,
    UNSTATED,
    later(1, 0, 9_000).states(101).fails(9).map(1, 0b1),
];

/// Data past the stated length (8): the new segment is not in the map. Data up to it are held.
const PASSING: &[Row] = &[
    FRESH,
    BEGUN,
    later(1, 4, 9_000).fails(8).map(1, 0b1),
    FRESH,
    BEGUN,
    later(1, 3, 9_000).holds(),
    end(2, 1, 9_000).fails(8).map(2, 0b11),
    FRESH,
    UNSTATED,
    later(1, 0, 9_000).states(1).fails(8).map(1, 0b1),
];

/// Another length at completion (8): the new segment and the end are in the map. The stated one completes.
const COMPLETING: &[Row] = &[
    FRESH,
    BEGUN,
    end(1, 2, 9_000).fails(8).map(2, 0b11),
    FRESH,
    BEGUN,
    end(1, 3, 9_000).hands_over().map(2, 0b11),
    FRESH,
    BEGUN,
    end(2, 1, 9_000).holds().map(3, 0b101),
    later(1, 1, 9_000).fails(8).map(3, 0b111),
    FRESH,
    BEGUN,
    end(2, 1, 9_000).holds().map(3, 0b101),
    later(1, 2, 9_000).hands_over().map(3, 0b111),
];

/// The same where the End is the first to state a length.
const COMPLETING_FIRST: &[Row] = &[
    FRESH,
    UNSTATED,
    end(1, 2, 9_000).states(5).fails(8).map(2, 0b11),
    FRESH,
    UNSTATED,
    end(1, 2, 9_000).states(3).fails(8).map(1, 0b1),
    FRESH,
    UNSTATED,
    end(1, 2, 9_000).states(4).hands_over().map(2, 0b11),
];

/// A failure keeps a Begin's services, and the stated length from where lengths are compared with the maximum.
const KEPT_OF_BEGIN: &[Row] = &[
    FRESH,
    begin(LAST_V42, 2, 1_000).states(7).fails(4).map(1, 0),
    Keeps(None, LAST_V42, None),
    FRESH,
    begin(LAST, 2, 1_000).states(101).fails(9).map(1, 0),
    Keeps(None, LAST, Some(101)),
    FRESH,
    BEGUN,
    later(1, 0, 9_000).states(6).fails(8).map(1, 0b1),
    Keeps(None, LAST, Some(5)),
];

/// It keeps the end. A failing End sets none, but for a length error at completion.
const KEPT_OF_END: &[Row] = &[
    FRESH,
    BEGUN,
    TO_4,
    later(5, 0, 9_000).states(6).fails(2).map(5, 0b10001),
    Keeps(Some(4), LAST, Some(5)),
    FRESH,
    BEGUN,
    end(1, 4, 9_000).fails(8).map(1, 0b1),
    Keeps(None, LAST, Some(5)),
    FRESH,
    BEGUN,
    end(1, 2, 9_000).fails(8).map(2, 0b11),
    Keeps(Some(1), LAST, Some(5)),
];

pub fn corners(tally: &mut Tally) {
    tally.group(
        "receiver: kinds and places, each test against the next",
        |g| run(g, &[LAST_SEQUENCE, UNSERVED, END_CRC, END_PLACE, PAST_END]),
    );
    tally.group("receiver: lengths, each test against the next", |g| {
        run(g, &[CLASHING, TOO_LONG, STATES_TOO_LONG]);
        run(g, &[PASSING, COMPLETING, COMPLETING_FIRST]);
    });
    tally.group("receiver: what a failure keeps", |g| {
        run(g, &[KEPT_OF_BEGIN, KEPT_OF_END])
    });
}
