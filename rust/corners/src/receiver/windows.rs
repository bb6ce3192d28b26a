//! The responses of each window, the maps of timeout answers, and the support list.

use super::bench::run;
use super::rows::Row::{Make, Start};
use super::rows::*;
use crate::tally::{Group, Tally};

/// Each window, its period or 0, and whether it answers the whole train.
const WINDOWS: [(Services, u16, bool); 6] = [
    (PROHIBITED, 0, false),
    (EVERY4, 4, true),
    (EVERY8, 8, true),
    (EVERY16, 16, true),
    (LAST, 0, true),
    (EXCEPTIONS, 0, false),
];

/// How many segments a train has, and the marks of all of them.
const SEGMENTS: u16 = 18;
const ALL: u64 = 0x3_ffff;

/// Segment s of a train of one octet each.
fn segment(window: Services, s: u16) -> Call {
    match s {
        0 => begin(window, 1, 1_000),
        17 => end(17, 1, 1_000),
        _ => later(s as u8, 1, 1_000),
    }
}

/// A train in order to a new receiver, and each of its segments again after Complete. The period counts sequence numbers.
pub fn trains(g: &mut Group, fresh: Row) {
    for (window, period, answered) in WINDOWS {
        let whole = if answered { SEGMENTS } else { 0 };
        let mut rows = vec![fresh];
        for s in 0..SEGMENTS - 1 {
            let due = period > 0 && (s + 1) % period == 0;
            let entries = if due { s + 1 } else { 0 };
            let marks = ALL >> (SEGMENTS - entries);
            rows.push(segment(window, s).holds().map(entries, marks));
        }
        let last = segment(window, SEGMENTS - 1);
        rows.push(last.hands_over().map(whole, ALL));
        for s in 0..SEGMENTS {
            rows.push(segment(window, s).repeats().map(whole, ALL));
        }
        run(g, &[&rows]);
    }
}

/// An End that leaves a gap is answered, and so is its repeat, but not the Begin's; then the gap is filled.
fn gaps(g: &mut Group) {
    for (window, _, answered) in WINDOWS {
        let n = if answered { 3 } else { 0 };
        let rows = [
            FRESH,
            begin(window, 1, 1_000).holds(),
            end(2, 1, 2_000).holds().map(n, 0b101),
            end(2, 1, 3_000).repeats().map(n, 0b101),
            begin(window, 1, 3_000).repeats(),
            later(1, 1, 4_000).hands_over().map(n, 0b111),
        ];
        run(g, &[&rows]);
    }
}

/// Failures and timeouts are answered under every window but Prohibited.
fn exceptional(g: &mut Group) {
    let barred = begin(PROHIBITED, 1, 1_000).holds();
    let failing = later(255, 0, 2_000).fails(2);
    let lapsing = advance(301_000).lapses();
    run(g, &[&[FRESH, barred, failing], &[FRESH, barred, lapsing]]);
    for window in [EVERY4, EVERY8, EVERY16, LAST, EXCEPTIONS] {
        let rows = [
            FRESH,
            begin(window, 1, 1_000).holds(),
            advance(301_000).asks().map(2, 0b1),
            later(255, 0, 301_000).fails(2).map(1, 0b1),
        ];
        run(g, &[&rows]);
    }
}

/// The period counts the sequence number and not the held segments, for a repeat too.
const BY_SEQUENCE: &[Row] = &[
    FRESH,
    begin(EVERY4, 1, 1_000).holds(),
    later(1, 1, 2_000).holds(),
    later(4, 1, 2_000).holds(),
    later(5, 1, 2_000).holds(),
    later(3, 1, 2_000).holds().map(6, 0b111011),
    later(3, 1, 2_000).repeats().map(6, 0b111011),
    later(5, 1, 2_000).repeats(),
];

/// The map of a timeout answer. With no end it has an entry past the highest held sequence, and at most 256; with an end it ends there.
const EXPECTING: Row = begin(EXCEPTIONS, 1, 1_000).holds();

const OPEN_MAPS: &[Row] = &[
    FRESH,
    EXPECTING,
    advance(301_000).asks().map(2, 0b1),
    FRESH,
    EXPECTING,
    later(3, 1, 2_000).holds(),
    advance(302_000).asks().map(5, 0b1001),
    FRESH,
    EXPECTING,
    later(63, 1, 2_000).holds(),
    advance(302_000).asks().pair(65, 63),
    FRESH,
    EXPECTING,
    later(64, 1, 2_000).holds(),
    advance(302_000).asks().pair(66, 64),
    FRESH,
    EXPECTING,
    later(253, 1, 2_000).holds(),
    advance(302_000).asks().pair(255, 253),
    FRESH,
    EXPECTING,
    later(254, 1, 2_000).holds(),
    advance(302_000).asks().pair(256, 254),
];

/// A record in which slot 255 is held and no end is known is possible: its map has 256 entries too.
const OTHER_MAPS: &[Row] = &[
    FRESH,
    EXPECTING,
    Make(|r| r.mark(255)),
    advance(301_000).asks().pair(256, 255),
    FRESH,
    EXPECTING,
    end(2, 1, 2_000).holds(),
    advance(302_000).asks().map(3, 0b101),
    FRESH,
    EXPECTING,
    end(64, 1, 2_000).holds(),
    advance(302_000).asks().pair(65, 64),
    FRESH,
    EXPECTING,
    end(254, 1, 2_000).holds(),
    advance(302_000).asks().pair(255, 254),
    FRESH,
    EXPECTING,
    end(255, 1, 2_000).holds(),
    advance(302_000).asks().pair(256, 255),
    FRESH,
    EXPECTING,
    later(2, 1, 2_000).holds(),
    end(5, 1, 2_000).holds(),
    advance(302_000).asks().map(6, 0b100101),
];

/// The support list stands in a response with status 13 under version 5 or more, and nowhere else.
const SUPPORT: &[Row] = &[
    Start(1, 100),
    begin(SEVERAL_16, 2, 1_000).fails(13).map(1, 0),
    Start(4, 100),
    begin(SEVERAL_16, 2, 1_000).fails(13).map(1, 0),
    Start(5, 100),
    begin(SEVERAL_16, 2, 1_000).fails(13).lists(1),
    Start(255, 100),
    begin(SEVERAL_16, 2, 1_000).fails(13).lists(1),
    Start(5, 100),
    begin(V42_CRC16, 2, 1_000).fails(13),
    Start(5, 100),
    begin(LAST_V42, 2, 1_000).fails(4).map(1, 0),
    Start(5, 100),
    begin(LAST_CRC16, 2, 1_000).fails(3).map(1, 0),
    Start(5, 100),
    begin(LAST, 101, 1_000).fails(9).map(1, 0),
];

pub fn corners(tally: &mut Tally) {
    tally.group("receiver: trains under each window", |g| trains(g, FRESH));
    tally.group("receiver: an End that leaves a gap under each window", gaps);
    tally.group(
        "receiver: failures and timeouts under each window",
        exceptional,
    );
    tally.group("receiver: periods count sequences", |g| {
        run(g, &[BY_SEQUENCE])
    });
    tally.group("receiver: maps of timeout answers", |g| {
        run(g, &[OPEN_MAPS, OTHER_MAPS])
    });
    tally.group("receiver: the support list", |g| run(g, &[SUPPORT]));
}
