//! Trains of 2 to 6 segments through a receiver in every order that the export writes: the last receive hands the message over, and no other one. Then
//! every segment comes again, and the output stays as it is.

use super::arrivals::{arrivals, frozen, message, planned, repeats};
use super::bench::run;
use super::rows::{Row, TRANSACTION};
use crate::dialects::WINDOWS;
use crate::octets::{FILL, Segment, train};
use crate::orders::{SEGMENTS, orders, written};
use crate::plan::{Heads, Planner};
use crate::tally::{Group, Tally};
use catkhize::AcknowledgmentWindow::{self, Every4, Last, Prohibited};
use catkhize::calls;
use std::collections::BTreeSet;

/// The windows of the planned trains.
const PLANNED: [AcknowledgmentWindow; 3] = [Prohibited, Every4, Last];

/// A budget at which the Begin states the length, and one at which a Begin with services has no room for it, nor for data.
const WIDE: u64 = 20;
const NARROW: u64 = 5;

/// The later segments of plan_message at the wide budget: all but the End are full.
const FULL: [&[u64]; 5] = [
    &[10],
    &[17, 10],
    &[17, 17, 10],
    &[17, 17, 17, 10],
    &[17, 17, 17, 17, 10],
];

/// Those of plan_even there, of other lengths than the Begin's.
const SPREAD: [&[u64]; 5] = [
    &[10],
    &[12, 11],
    &[12, 12, 11],
    &[17, 16, 16, 16],
    &[17, 16, 16, 16, 16],
];

/// Those of either planner at the narrow budget. A message of fewer segments would fit into it whole.
const BARE: [&[u64]; 3] = [&[2, 2, 2], &[2, 2, 2, 1], &[2, 2, 2, 2, 1]];

/// Those that no planner gives: no two of one length.
const UNLIKE: [u64; 5] = [7, 3, 9, 1, 5];

/// The data octets of the Begin at the wide budget.
fn wide_begin(asked: AcknowledgmentWindow) -> u64 {
    match asked {
        Prohibited => 15,
        _ => 13,
    }
}

/// The segments of a train whose Begin has so many data octets and states the length or not. No octet stands twice in their message, and none is A5.
fn heads(
    asked: AcknowledgmentWindow,
    states_length: bool,
    begin: u64,
    later: &[u64],
) -> Vec<(Segment, u64)> {
    let data = [&[begin], later].concat();
    let octets: u64 = data.iter().sum();
    let length = states_length.then_some(octets as u16);
    let heads = train(TRANSACTION, length, asked, &data);
    let message = message(&heads);
    let different: BTreeSet<&u8> = message.iter().collect();
    assert!(different.len() == message.len() && !different.contains(&FILL));
    heads
}

/// A train in every order.
fn deliver(g: &mut Group, heads: Heads, asked: AcknowledgmentWindow) {
    for (number, order) in (0..).zip(orders(heads.len() as u8)) {
        let order = written(g, &order, number);
        let mut rows = arrivals(heads, asked, &order);
        rows.push(Row::RefillOutput);
        rows.extend(repeats(heads, asked, &order));
        run(g, &[&rows]);
    }
}

/// Trains of a planner with these later segments.
fn wide(g: &mut Group, planner: Planner, trains: [&[u64]; 5]) {
    for asked in PLANNED {
        for later in trains {
            let heads = heads(asked, true, wide_begin(asked), later);
            planned(g, planner, WIDE, asked, &heads);
            deliver(g, &heads, asked);
        }
    }
}

/// Planned trains with an empty Begin. It has services: under Prohibited there is always room for data in it.
fn narrow(g: &mut Group) {
    for asked in [Every4, Last] {
        for later in BARE {
            let heads = heads(asked, false, 0, later);
            for planner in [calls::plan_message, calls::plan_even] {
                planned(g, planner, NARROW, asked, &heads);
            }
            deliver(g, &heads, asked);
        }
    }
}

/// Frozen trains with an empty Begin, which every window may have.
fn unlike(g: &mut Group) {
    for asked in WINDOWS {
        for segments in SEGMENTS {
            let later = &UNLIKE[..usize::from(segments) - 1];
            let heads = heads(asked, false, 0, later);
            frozen(g, WIDE, &heads);
            deliver(g, &heads, asked);
        }
    }
}

pub fn corners(tally: &mut Tally) {
    let title = "receiver: every order of a short train, by plan_message";
    tally.group(title, |g| wide(g, calls::plan_message, FULL));
    let title = "receiver: every order of a short train, by plan_even";
    tally.group(title, |g| wide(g, calls::plan_even, SPREAD));
    let title = "receiver: every order of a short train, planned with an empty Begin";
    tally.group(title, narrow);
    let title = "receiver: every order of a short train, frozen with an empty Begin";
    tally.group(title, unlike);
}
