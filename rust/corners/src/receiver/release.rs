//! Release (document 02, 2026-07): the store is wiped, slots and count are emptied as by cancel, the reading is taken and the state is
//! Canceled. It gives 60, 62 and 33 in this order, and 38 unless the receiver is Complete; a release that is refused changes nothing.
//! Repeats after it get 38.

use super::bench::run;
use super::record::State::{AwaitingBegin, Canceled, Complete, Expired, Failed, Receiving};
use super::rows::Row::{Again, Left, Make, Refill, Start};
use super::rows::*;
use crate::octets::window;
use crate::tally::{Group, Tally};
use catkhize::AcknowledgmentWindow::{Every4, Last};

/// A message of three segments, the last at 3,000.
const FIRST: Row = begin(PLAIN, 2, 1_000).holds();
const SECOND: Row = later(1, 3, 2_000).holds();
const THIRD: Row = end(2, 4, 3_000).hands_over();
const HANDED_OVER: &[Row] = &[FRESH, FIRST, SECOND, THIRD];

/// The same, released at 7,000; and with the store A5 again, so that a wipe would show.
const RELEASE: Row = release(7_000).releases();
const RELEASED: &[Row] = &[FRESH, FIRST, SECOND, THIRD, RELEASE];
const REFILLED: &[Row] = &[FRESH, FIRST, SECOND, THIRD, RELEASE, Refill];

/// Each row on a receiver of its own that the first rows bring about.
fn each(g: &mut Group, before: &[Row], rows: &[Row]) {
    for row in rows {
        run(g, &[&[before, &[*row]].concat()]);
    }
}

/// 60: a store of none, of 65,279 octets and of 65,280.
const STORES: &[Row] = &[
    FRESH,
    FIRST,
    SECOND,
    THIRD,
    release(7_000).lent(0, 0).refused(60),
    release(7_000).lent(65_279, 0).refused(60),
    release(7_000).lent(65_280, 0).releases(),
];

/// 62: a record that is wrong in one point, in each of three ways, and then in none.
const RECORDS: &[Row] = &[
    FRESH,
    FIRST,
    SECOND,
    THIRD,
    Make(|r| r.maximum = 8),
    release(7_000).refused(62),
    Make(|r| r.maximum = 9),
    Make(|r| r.deadline = Some(9_000)),
    release(7_000).refused(62),
    Make(|r| r.deadline = None),
    Make(|r| r.end = Some(4)),
    release(7_000).refused(62),
    Make(|r| r.end = Some(3)),
    release(7_000).releases(),
];

/// 33: a reading of one below the last, and the last.
const CLOCKS: &[Row] = &[
    FRESH,
    FIRST,
    SECOND,
    THIRD,
    release(0).refused(33),
    release(2_999).refused(33),
    release(3_000).releases(),
];

/// 38: without the last missing segment, and with it.
const STATES: &[Row] = &[
    FRESH,
    FIRST,
    end(2, 4, 2_000).holds(),
    release(3_000).refused(38),
    later(1, 3, 3_000).hands_over(),
    release(3_000).releases(),
];

/// 60 before 62, 62 before 33, 33 before 38: on a complete receiver, and on one that still receives.
const ORDER: &[Row] = &[
    FRESH,
    FIRST,
    SECOND,
    THIRD,
    Make(|r| r.deadline = Some(9_000)),
    release(2_999).lent(65_279, 0).refused(60),
    release(7_000).lent(65_279, 0).refused(60),
    release(2_999).refused(62),
    Make(|r| r.deadline = None),
    release(2_999).lent(65_279, 0).refused(60),
    release(2_999).refused(33),
    release(3_000).releases(),
    FRESH,
    FIRST,
    SECOND,
    Make(|r| r.stored = 6),
    release(1_999).lent(65_279, 0).refused(60),
    release(2_000).lent(65_279, 0).refused(60),
    release(1_999).refused(62),
    release(2_000).refused(62),
    Make(|r| r.stored = 5),
    release(2_000).lent(65_279, 0).refused(60),
    release(1_999).refused(33),
    release(2_000).refused(38),
    THIRD,
    release(3_000).releases(),
];

/// 38 before any Begin; a Begin is taken after it, at a lower reading.
const AWAITING: &[Row] = &[
    FRESH,
    release(0).refused(38),
    release(u64::MAX).refused(38),
    FIRST,
];

/// 38 while receiving, before, at and past the deadline, which does nothing then, and where none runs: under each window, by hand and by a
/// timeout answer.
fn receiving(g: &mut Group) {
    for window in [PLAIN, PROHIBITED, EVERY4, EVERY8, EVERY16, LAST, EXCEPTIONS] {
        let rows = [
            FRESH,
            begin(window, 2, 1_000).holds(),
            release(1_000).refused(38),
            release(300_999).refused(38),
            release(301_000).refused(38),
            release(301_001).refused(38),
            release(u64::MAX).refused(38),
            later(1, 3, 1_001).holds(),
            Make(|r| r.deadline = None),
            release(301_002).refused(38),
        ];
        run(g, &[&rows]);
    }
    for window in [EVERY4, EVERY8, EVERY16, LAST, EXCEPTIONS] {
        let rows = [
            FRESH,
            begin(window, 2, 1_000).holds(),
            advance(301_000).asks().map(2, 0b1),
            release(301_000).refused(38),
            release(900_000).refused(38),
            later(1, 3, 301_001).holds(),
        ];
        run(g, &[&rows]);
    }
}

/// 38 in Failed, of a reception that was open and of one that was complete; in Expired, by an advance and by a segment; in Canceled, by a
/// cancel and by a release.
const CLOSED: &[Row] = &[
    FRESH,
    FIRST,
    later(255, 0, 2_000).fails(2),
    release(2_000).refused(38),
    FRESH,
    FIRST,
    SECOND,
    THIRD,
    begin(PLAIN, 1, 4_000).fails(11),
    release(4_000).refused(38),
    FRESH,
    FIRST,
    advance(301_000).lapses(),
    release(301_000).refused(38),
    FRESH,
    FIRST,
    later(1, 3, 301_001).expires(),
    release(301_001).refused(38),
    FRESH,
    cancel(1_000).cancels(),
    release(1_000).refused(38),
    FRESH,
    FIRST,
    cancel(2_000).cancels(),
    release(2_000).refused(38),
    release(9_000).refused(38),
    advance(3_000).waits(),
    FRESH,
    FIRST,
    SECOND,
    THIRD,
    RELEASE,
    release(7_000).refused(38),
    release(u64::MAX).refused(38),
    release(6_999).refused(33),
];

/// Records that calls do not leave, which are possible: the state alone decides.
const BY_STATE: &[Row] = &[
    FRESH,
    Make(|r| r.end = Some(0)),
    release(0).refused(38),
    Make(|r| r.state = Failed(10)),
    release(0).refused(38),
    Make(|r| r.state = Expired),
    release(0).refused(38),
    Make(|r| r.state = Canceled),
    release(0).refused(38),
    Make(|r| r.state = AwaitingBegin),
    release(0).refused(38),
    FRESH,
    FIRST,
    SECOND,
    THIRD,
    Make(|r| r.state = Receiving),
    release(3_000).refused(38),
    Make(|r| r.state = Complete),
    release(3_000).releases(),
];

/// What a release leaves, each field set by hand: services, end and stated length stay.
const PLAINLY: &[Row] = &[
    FRESH,
    FIRST,
    SECOND,
    THIRD,
    RELEASE,
    Left(|r| {
        r.state = Canceled;
        r.end = Some(2);
        r.last_reading = 7_000;
    }),
    FRESH,
    begin(EVERY4, 2, 1_000).states(9).holds(),
    SECOND,
    end(2, 4, 3_000).states(9).hands_over().map(3, 0b111),
    release(3_000).releases(),
    Left(|r| {
        r.state = Canceled;
        r.services = window(Every4).unwrap_or_default();
        r.end = Some(2);
        r.length = Some(9);
        r.last_reading = 3_000;
    }),
];

/// P13's empty message.
const EMPTY: &[Row] = &[
    FRESH,
    begin(PLAIN, 0, 1_000).holds(),
    end(1, 0, 2_000).hands_over(),
    release(2_000).releases(),
    Left(|r| {
        r.state = Canceled;
        r.end = Some(1);
        r.last_reading = 2_000;
    }),
    Start(5, 0),
    begin(LAST, 0, 1_000).holds(),
    end(1, 0, 2_000).hands_over().map(2, 0b11),
    release(2_001).releases(),
    Left(|r| {
        r.state = Canceled;
        r.services = window(Last).unwrap_or_default();
        r.end = Some(1);
        r.last_reading = 2_001;
    }),
];

/// Lengths and kinds that stand in slots which are not held go too, as by cancel.
const LEFTOVERS: &[Row] = &[
    FRESH,
    FIRST,
    SECOND,
    THIRD,
    Make(|r| r.lengths[7] = 300),
    Make(|r| r.lengths[255] = 65_535),
    Make(|r| r.slots[9] = [2, 1, 0, 9, 0, 0, 0, 0, 1, 0, 0, 18, 52]),
    release(3_000).releases(),
    Left(|r| {
        r.state = Canceled;
        r.end = Some(2);
        r.last_reading = 3_000;
    }),
];

/// Messages of three segments under each window.
fn windows(g: &mut Group) {
    for (window, entries) in [
        (PROHIBITED, 0),
        (EVERY4, 3),
        (EVERY8, 3),
        (EVERY16, 3),
        (LAST, 3),
        (EXCEPTIONS, 0),
    ] {
        let rows = [
            FRESH,
            begin(window, 2, 1_000).holds(),
            SECOND,
            end(2, 4, 3_000).hands_over().map(entries, 0b111),
            release(3_000).releases(),
        ];
        run(g, &[&rows]);
    }
}

/// 256 segments of 255 octets, with no window and with one that answers the whole.
fn full(g: &mut Group) {
    for (window, entries) in [(PLAIN, 0), (LAST, 256)] {
        let mut rows = vec![Start(1, 65_280), begin(window, 255, 1_000).holds()];
        rows.extend((1..255).map(|s| later(s, 255, 1_000).holds()));
        let whole = end(255, 255, 1_000).hands_over();
        rows.push(whole.marks(entries, [u64::MAX; 4]));
        rows.push(release(1_000).releases());
        run(g, &[&rows]);
    }
}

/// A release at the last reading, past it, past where a deadline was, past the last reading from which one can be set, and at the last of
/// all.
const READINGS: &[Row] = &[
    release(3_000).releases(),
    release(3_001).releases(),
    release(301_000).releases(),
    release(303_001).releases(),
    release(LATEST).releases(),
    release(LATEST + 1).releases(),
    release(u64::MAX).releases(),
];

/// The last reading is that of the last advance or repeat; a refused call's is none, but for 38 of a sequence that is not held.
const LAST_READINGS: &[Row] = &[
    FRESH,
    FIRST,
    SECOND,
    THIRD,
    advance(9_000_000).waits(),
    release(8_999_999).refused(33),
    release(9_000_000).releases(),
    FRESH,
    FIRST,
    SECOND,
    THIRD,
    later(1, 3, 400_000).repeats(),
    release(399_999).refused(33),
    release(400_000).releases(),
    FRESH,
    FIRST,
    SECOND,
    THIRD,
    later(3, 2, LATEST + 1).refused(34),
    cancel(8_000).refused(38),
    release(3_000).releases(),
    FRESH,
    FIRST,
    SECOND,
    THIRD,
    later(3, 2, 5_000).closes(),
    release(4_999).refused(33),
    release(5_000).releases(),
];

/// A released receiver gets 38 for each segment again, for those that differ in length or otherwise, for one that was not held and for a new
/// Begin, at its reading and later; even one from which no deadline can be set.
const SEGMENTS: &[Row] = &[
    begin(PLAIN, 2, 7_000).refused(38),
    later(1, 3, 7_000).refused(38),
    end(2, 4, 7_000).refused(38),
    end(2, 4, 900_000).refused(38),
    begin(PLAIN, 3, 7_000).refused(38),
    begin(EVERY4, 2, 7_000).refused(38),
    later(1, 2, 7_000).refused(38),
    later(1, 3, 7_000).altered().refused(38),
    later(1, 3, 7_000).states(9).refused(38),
    end(2, 5, 7_000).refused(38),
    end(2, 4, 7_000).altered().refused(38),
    end(2, 4, 7_000).crc(CRC16).refused(38),
    later(3, 2, 7_000).refused(38),
    later(255, 2, 7_000).refused(38),
    end(3, 2, 7_000).refused(38),
    later(3, 2, 50_000).refused(38),
    begin(LAST, 9, 7_000).refused(38),
    end(2, 4, LATEST + 1).refused(38),
    later(3, 2, u64::MAX).refused(38),
];

/// The other calls.
const OTHER_CALLS: &[Row] = &[
    advance(7_000).waits(),
    advance(u64::MAX).waits(),
    advance(6_999).refused(33),
    cancel(7_000).refused(38),
    cancel(6_999).refused(33),
    release(7_000).refused(38),
    release(6_999).refused(33),
];

/// 38 for a sequence that is not held takes no reading, unlike Complete's; an advance takes it and nothing else.
const READINGS_AFTER: &[Row] = &[
    FRESH,
    FIRST,
    SECOND,
    THIRD,
    RELEASE,
    later(3, 2, 50_000).refused(38),
    advance(7_000).waits(),
    end(2, 4, 60_000).refused(38),
    cancel(70_000).refused(38),
    release(80_000).refused(38),
    advance(8_000).waits(),
    Left(|r| {
        r.state = Canceled;
        r.end = Some(2);
        r.last_reading = 8_000;
    }),
    advance(7_999).refused(33),
    end(2, 4, 7_999).refused(33),
];

/// Receive's tests before 38 come before it still.
const BEFORE_38: &[Row] = &[
    end(2, 4, 7_000).lent(65_279, 100).refused(60),
    end(2, 4, 7_000).lent(STORE, 99).refused(61),
    end(2, 4, 6_999).refused(33),
    end(2, 4, 7_000).from(OTHER_KIND).refused(30),
    end(2, 4, 7_000).from(OTHER_OCTET).refused(31),
    end(2, 4, 7_000).within(4).refused(32),
    end(2, 256, 7_000).refused_6(2),
    begin(PLAIN, 2, 7_000).placed(1).refused_6(3),
    end(2, 4, 7_000).states(4_096).refused_6(4),
    end(2, 4, 7_000).crc(TOO_LARGE).refused_6(5),
    end(2, 4, 7_000).unparsed(1).refused(35),
    advance(7_000).lent(65_279, 0).refused(60),
    cancel(7_000).lent(65_279, 0).refused(60),
    release(7_000).lent(65_279, 0).refused(60),
];

/// The store is lent on: the next receiver's message has nothing of the first, and is released as well.
const LENT_ON: &[Row] = &[
    FRESH,
    FIRST,
    SECOND,
    THIRD,
    RELEASE,
    Again(77),
    end(2, 4, 1_000).refused(36),
    begin(PLAIN, 0, 1_000).holds(),
    end(2, 1, 2_000).holds(),
    later(1, 0, 3_000).hands_over(),
    begin(PLAIN, 0, 3_000).repeats(),
    release(3_000).releases(),
    Again(0),
    FIRST,
    cancel(2_000).cancels(),
];

pub fn corners(tally: &mut Tally) {
    tally.group("release: each refusal at its boundary", |g| {
        run(g, &[STORES, RECORDS, CLOCKS, STATES])
    });
    tally.group("release: each refusal against the next", |g| {
        run(g, &[ORDER])
    });
    tally.group("release: while receiving", receiving);
    tally.group("release: in the other states", |g| {
        run(g, &[AWAITING, CLOSED, BY_STATE])
    });
    tally.group("release: what it leaves", |g| {
        run(g, &[PLAINLY, EMPTY, LEFTOVERS])
    });
    tally.group("release: under each window", windows);
    tally.group("release: 256 segments of 255 octets", full);
    tally.group("release: readings", |g| {
        each(g, HANDED_OVER, READINGS);
        run(g, &[LAST_READINGS]);
    });
    tally.group("release: segments after it", |g| {
        run(g, &[&[RELEASED, SEGMENTS].concat()]);
        each(g, REFILLED, SEGMENTS);
    });
    tally.group("release: other calls after it", |g| {
        each(g, REFILLED, OTHER_CALLS);
        run(g, &[READINGS_AFTER]);
    });
    tally.group("release: receive's tests before 38", |g| {
        run(g, &[&[RELEASED, BEFORE_38].concat()])
    });
    tally.group("release: a store that is lent on", |g| run(g, &[LENT_ON]));
}
