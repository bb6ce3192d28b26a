//! Whole trains, what an earlier transaction left in the lent octets, and what closing wipes.

use super::bench::run;
use super::rows::Row::Again;
use super::rows::*;
use crate::tally::{Group, Tally};

/// 256 segments of 255 octets: the Begin, then the others in steps of an odd number through the sequence, of which the last hands over.
/// In order, backwards, and in steps of 3 and 167.
fn full_trains(g: &mut Group) {
    for (step, last) in [(1, 255), (255, 1), (3, 253), (167, 89)] {
        let segment = |s| match s {
            255 => end(255, 255, 2_000),
            _ => later(s, 255, 2_000),
        };
        let mut rows = vec![Row::Start(1, 65_280), begin(PLAIN, 255, 2_000).holds()];
        let mut s = 0_u8;
        for _ in 1..255 {
            s = s.wrapping_add(step);
            rows.push(segment(s).holds());
        }
        rows.push(segment(last).hands_over());
        run(g, &[&rows]);
    }
}

/// An earlier transaction, which handed over its record and left it in store and output.
const EARLIER_BEGIN: Row = begin(PLAIN, 20, 1_000).holds();
const EARLIER_LATER: Row = later(1, 30, 2_000).holds();
const EARLIER_END: Row = end(2, 10, 3_000).hands_over();

/// The next one has other data: the pattern of other seeds.
const NEXT: Row = Again(77);
const SAME: Row = Again(0);

/// It hands over its own octets alone, once it has them all: shorter segments, empty ones, and a gap where the earlier one's data stand.
const NEXT_RECORD: &[Row] = &[
    FRESH,
    EARLIER_BEGIN,
    EARLIER_LATER,
    EARLIER_END,
    NEXT,
    begin(PLAIN, 2, 1_000).holds(),
    end(2, 2, 2_000).holds(),
    later(1, 2, 3_000).hands_over(),
    NEXT,
    begin(PLAIN, 0, 1_000).holds(),
    end(1, 0, 2_000).hands_over(),
    NEXT,
    begin(PLAIN, 20, 1_000).holds(),
    later(1, 0, 2_000).holds(),
    end(2, 10, 3_000).hands_over(),
];

/// The very segments of the earlier one are no repeats of it, and a missing one is not taken from it.
const SAME_RECORD: &[Row] = &[
    FRESH,
    EARLIER_BEGIN,
    EARLIER_LATER,
    EARLIER_END,
    SAME,
    end(2, 10, 1_000).refused(36),
    EARLIER_BEGIN,
    end(2, 10, 3_000).holds(),
    advance(303_000).lapses(),
    later(1, 30, 303_000).refused(38),
];

/// A segment that is held is compared with its own data, and not with what stood there before.
const PART_OF_RECORD: &[Row] = &[
    FRESH,
    EARLIER_BEGIN,
    EARLIER_LATER,
    EARLIER_END,
    NEXT,
    begin(PLAIN, 20, 1_000).holds(),
    end(2, 10, 2_000).holds(),
    later(1, 5, 3_000).hands_over(),
    begin(PLAIN, 20, 4_000).repeats(),
    later(1, 30, 5_000).fails(11),
];

/// Closing wipes the octets of all slots, whatever they held, and none past them: a first Begin that fails, a cancel before any Begin.
const WIPING_FIRST: &[Row] = &[
    FRESH,
    EARLIER_BEGIN,
    EARLIER_LATER,
    EARLIER_END,
    NEXT,
    begin(PLAIN, 101, 1_000).fails(9),
    FRESH,
    EARLIER_BEGIN,
    EARLIER_LATER,
    EARLIER_END,
    NEXT,
    cancel(1_000).cancels(),
    FRESH,
    EARLIER_BEGIN,
    EARLIER_LATER,
    EARLIER_END,
    end(2, 9, 4_000).fails(11),
];

/// A reception with octets in its first and its last slot: canceled, expired by an advance and by a segment, failed.
const FIRST_SLOT: Row = begin(PLAIN, 2, 1_000).holds();
const LAST_SLOT: Row = end(255, 98, 2_000).holds();

const WIPING_LATER: &[Row] = &[
    FRESH,
    FIRST_SLOT,
    LAST_SLOT,
    cancel(3_000).cancels(),
    FRESH,
    FIRST_SLOT,
    LAST_SLOT,
    advance(302_000).lapses(),
    FRESH,
    FIRST_SLOT,
    LAST_SLOT,
    later(1, 0, 302_001).expires(),
    FRESH,
    FIRST_SLOT,
    LAST_SLOT,
    later(1, 1, 3_000).fails(9),
];

pub fn corners(tally: &mut Tally) {
    let title = "receiver: 256 segments of 255 octets in four orders";
    tally.group(title, full_trains);
    tally.group("receiver: after an earlier transaction", |g| {
        run(g, &[NEXT_RECORD, SAME_RECORD, PART_OF_RECORD])
    });
    tally.group("receiver: what closing wipes", |g| {
        run(g, &[WIPING_FIRST, WIPING_LATER])
    });
}
