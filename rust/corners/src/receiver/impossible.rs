//! 62: records that no list of calls leaves, each wrong in one point, and records like them that are possible. Each of the four calls is
//! refused and changes nothing.

use super::bench::run;
use super::record::SlotKind;
use super::record::State::{AwaitingBegin, Canceled, Expired, Failed, Receiving};
use super::rows::Row::{Make, Start, Wrong};
use super::rows::*;
use crate::tally::Tally;

/// A receiver of at most 1,000 octets.
const ROOMY: Row = Start(1, 1_000);

/// A Begin of 2 octets, and 3 more octets: in slot 2 of a reception that goes on, or in the End at 1.
const FIRST_SLOT: Row = begin(LAST, 2, 1_000).holds();
const SLOT_2: Row = later(2, 3, 2_000).holds();
const AN_END_AT_1: Row = end(1, 3, 2_000).hands_over().map(2, 0b11);

/// Kinds without parameters.
const A_BEGIN: SlotKind = plain_kind(0);
const A_LATER: SlotKind = plain_kind(1);
const AN_END: SlotKind = plain_kind(2);

const fn plain_kind(number: u8) -> SlotKind {
    let mut kind = [0; 13];
    kind[0] = number;
    kind
}

/// A held length passes 255; the count is one less or one more than the sum of held lengths; it passes the maximum.
const COUNTS: &[Row] = &[
    ROOMY,
    FIRST_SLOT,
    SLOT_2,
    Make(|r| r.lengths[2] = 256),
    Make(|r| r.stored = 258),
    Wrong,
    Make(|r| r.lengths[2] = 3),
    Make(|r| r.stored = 4),
    Wrong,
    Make(|r| r.stored = 6),
    Wrong,
    Make(|r| r.stored = 5),
    Make(|r| r.maximum = 4),
    Wrong,
    Make(|r| r.maximum = 5),
    later(1, 0, 5_000).holds(),
];

/// A slot is held outside Receiving and Complete.
const HELD_OUTSIDE: &[Row] = &[
    ROOMY,
    FIRST_SLOT,
    SLOT_2,
    Make(|r| r.deadline = None),
    Make(|r| r.state = AwaitingBegin),
    Wrong,
    Make(|r| r.state = Failed(2)),
    Wrong,
    Make(|r| r.state = Expired),
    Wrong,
    Make(|r| r.state = Canceled),
    Wrong,
    Make(|r| r.state = Receiving),
    later(1, 0, 5_000).holds(),
];

/// Slot 0 is not held, or holds no Begin: while receiving, and after Complete with no slot before the end.
const NO_BEGIN: &[Row] = &[
    ROOMY,
    FIRST_SLOT,
    SLOT_2,
    Make(|r| r.slots[0] = A_LATER),
    Wrong,
    Make(|r| r.slots[0] = AN_END),
    Wrong,
    Make(|r| r.slots[0] = A_BEGIN),
    Make(|r| r.held = [0b100, 0, 0, 0]),
    Make(|r| r.stored = 3),
    Wrong,
    ROOMY,
    FIRST_SLOT,
    AN_END_AT_1,
    Make(|r| r.slots[0] = A_LATER),
    Wrong,
    Make(|r| r.slots[0] = AN_END),
    Wrong,
    Make(|r| r.slots[0] = A_BEGIN),
    Make(|r| r.held = [0, 0, 0, 0]),
    Make(|r| r.stored = 0),
    Make(|r| r.end = Some(0)),
    Wrong,
];

/// A slot is held past the end: while receiving, and after Complete.
const HELD_PAST_END: &[Row] = &[
    ROOMY,
    FIRST_SLOT,
    SLOT_2,
    Make(|r| r.end = Some(0)),
    Wrong,
    Make(|r| r.end = Some(1)),
    Wrong,
    Make(|r| r.end = Some(3)),
    later(1, 0, 5_000).holds(),
    ROOMY,
    FIRST_SLOT,
    AN_END_AT_1,
    Make(|r| r.end = Some(0)),
    Wrong,
    ROOMY,
    FIRST_SLOT,
    Make(|r| r.mark(255)),
    Make(|r| r.end = Some(254)),
    Wrong,
];

/// A deadline outside Receiving.
const DUE_OUTSIDE: &[Row] = &[
    ROOMY,
    Make(|r| r.deadline = Some(9_000)),
    Wrong,
    Make(|r| r.state = Failed(2)),
    Wrong,
    Make(|r| r.state = Expired),
    Wrong,
    Make(|r| r.state = Canceled),
    Wrong,
    ROOMY,
    FIRST_SLOT,
    AN_END_AT_1,
    Make(|r| r.deadline = Some(9_000)),
    Wrong,
];

/// Complete with no end, or with a gap before it. The end's own slot is no gap before it.
const NOT_COMPLETE: &[Row] = &[
    ROOMY,
    FIRST_SLOT,
    AN_END_AT_1,
    Make(|r| r.end = None),
    Wrong,
    Make(|r| r.end = Some(3)),
    Wrong,
    Make(|r| r.end = Some(255)),
    Wrong,
    Make(|r| r.end = Some(2)),
    begin(LAST, 2, 5_000).repeats().map(3, 0b011),
    Make(|r| r.held = [0b101, 0, 0, 0]),
    Make(|r| r.stored = 2),
    Wrong,
];

/// Possible: no deadline while receiving, a held length of 255, and leftovers in slots that are not held.
const POSSIBLE: &[Row] = &[
    ROOMY,
    FIRST_SLOT,
    SLOT_2,
    Make(|r| r.deadline = None),
    advance(900_000).waits(),
    later(1, 0, 900_000).holds(),
    Make(|r| r.lengths[2] = 255),
    Make(|r| r.stored = 257),
    Make(|r| r.lengths[7] = 300),
    Make(|r| r.lengths[255] = 65_535),
    advance(900_000).waits(),
    later(7, 1, 900_000).holds(),
    cancel(900_000).cancels(),
];

pub fn corners(tally: &mut Tally) {
    tally.group("receiver: 62, lengths and counts", |g| run(g, &[COUNTS]));
    tally.group("receiver: 62, slots", |g| {
        run(g, &[HELD_OUTSIDE, NO_BEGIN, HELD_PAST_END])
    });
    tally.group("receiver: 62, deadlines and ends", |g| {
        run(g, &[DUE_OUTSIDE, NOT_COMPLETE])
    });
    tally.group("receiver: records that are possible", |g| {
        run(g, &[POSSIBLE])
    });
}
