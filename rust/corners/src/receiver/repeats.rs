//! A segment whose sequence is held already, and sequences that are not held after Complete.

use super::bench::run;
use super::rows::*;
use crate::tally::{Group, Tally};

/// Three segments of 2 octets; the third completes the message.
const FIRST: Row = begin(PLAIN, 2, 1_000).holds();
const SECOND: Row = later(1, 2, 2_000).holds();
const THIRD: Row = end(2, 2, 3_000).hands_over();

/// While receiving a repeat moves the deadline.
const MOVING: &[Row] = &[
    FRESH,
    FIRST,
    SECOND,
    begin(PLAIN, 2, 3_000).repeats(),
    later(1, 2, 300_000).repeats(),
    advance(599_999).waits(),
    advance(600_000).lapses(),
];

/// After Complete it sets none.
const SETTING_NONE: &[Row] = &[
    FRESH,
    FIRST,
    SECOND,
    THIRD,
    begin(PLAIN, 2, 4_000).repeats(),
    later(1, 2, 5_000).repeats(),
    end(2, 2, 900_000).repeats(),
    advance(9_000_000).waits(),
];

/// A repeat that differs in data length: DuplicateSizeMismatch, whatever else differs.
const SIZES: &[Row] = &[
    begin(PLAIN, 3, 9_000).fails(11),
    begin(PLAIN, 1, 9_000).fails(11),
    begin(PLAIN, 0, 9_000).fails(11),
    begin(V42_CRC16, 3, 9_000).states(6).fails(11),
    later(1, 3, 9_000).altered().fails(11),
    end(1, 1, 9_000).fails(11),
    end(1, 3, 9_000).crc(CRC16).fails(11),
];

/// Otherwise: Aborted. A held slot is compared before any other test, so that unserved services or a CRC are not what it fails with;
/// services absent and the same services spelled out differ.
const PARTS: &[Row] = &[
    begin(PLAIN, 2, 9_000).altered().fails(2),
    begin(PLAIN, 2, 9_000).states(6).fails(2),
    begin(PROHIBITED, 2, 9_000).fails(2),
    begin(EVERY4, 2, 9_000).fails(2),
    begin(V42_CRC16, 2, 9_000).fails(2),
    later(1, 2, 9_000).altered().fails(2),
    later(1, 2, 9_000).states(6).fails(2),
    end(1, 2, 9_000).fails(2),
    end(1, 2, 9_000).crc(CRC16).fails(2),
];

/// Services spelled out are repeated by the same ones alone; the slot of a repeat that differs is in the response's map.
const SPELLED_OUT: &[Row] = &[
    FRESH,
    begin(PROHIBITED, 2, 1_000).holds(),
    begin(PROHIBITED, 2, 2_000).repeats(),
    begin(PLAIN, 2, 3_000).fails(2),
    FRESH,
    begin(LAST, 2, 1_000).holds(),
    later(2, 2, 2_000).holds(),
    begin(LAST, 2, 3_000).repeats(),
    later(2, 2, 3_000).altered().fails(2).map(3, 0b101),
];

/// A sequence that is not held, after Complete: 38, the reading is taken and nothing else changes.
const UNHELD: &[Row] = &[
    FRESH,
    FIRST,
    SECOND,
    THIRD,
    later(3, 2, 5_000).closes(),
    later(3, 2, 4_999).refused(33),
    end(3, 0, 5_000).closes(),
    end(3, 0, 5_000).crc(CRC24).closes(),
    later(255, 2, 6_000).closes(),
    later(9, 255, 400_000).states(4_000).closes(),
    end(2, 2, 400_000).repeats(),
];

/// Each row while receiving, and after Complete.
fn both_times(g: &mut Group, rows: &[Row]) {
    for row in rows {
        let receiving = [FRESH, FIRST, SECOND, *row];
        let complete = [FRESH, FIRST, SECOND, THIRD, *row];
        run(g, &[&receiving, &complete]);
    }
}

pub fn corners(tally: &mut Tally) {
    tally.group("receiver: repeats that are equal", |g| {
        run(g, &[MOVING, SETTING_NONE])
    });
    tally.group("receiver: repeats that differ in data length", |g| {
        both_times(g, SIZES);
    });
    tally.group("receiver: repeats that differ otherwise", |g| {
        both_times(g, PARTS);
    });
    tally.group("receiver: services absent and spelled out", |g| {
        run(g, &[SPELLED_OUT])
    });
    tally.group(
        "receiver: sequences that are not held after Complete",
        |g| run(g, &[UNHELD]),
    );
}
