//! The delivery orders of document 02, against a list that is made in another way, and 28 and 61 at their edges. The output and the octets behind it
//! are compared whole.

use crate::octets::{PAST, at_front, difference, filled, refusal};
use crate::tally::{Group, Tally};
use catkhize::calls;
use std::collections::BTreeSet;
use std::iter::successors;
use std::ops::RangeInclusive;

/// The numbers of segments for which there are orders.
pub const SEGMENTS: RangeInclusive<u8> = 2..=6;

const NUMBER: u32 = refusal(28, 0);
const OUTPUT: u32 = refusal(61, 0);

/// Every number below 2 to this power is asked for.
const LOW_BITS: u32 = 10;

/// The next list of the same numbers in lexicographic order. The last number that is below the one behind it changes places with the lowest of those
/// behind it that are above it, and the numbers behind that place then rise.
fn next(list: &[u8]) -> Option<Vec<u8>> {
    let place = list.windows(2).rposition(|pair| pair[0] < pair[1])?;
    let higher = list.iter().rposition(|number| *number > list[place])?;
    let mut next = list.to_vec();
    next.swap(place, higher);
    next[place + 1..].reverse();
    Some(next)
}

/// The orders of a train by number: the lists of its sequence numbers that have the Begin's first.
pub fn orders(segments: u8) -> Vec<Vec<u8>> {
    let first = (0..segments).collect();
    successors(Some(first), |list: &Vec<u8>| next(list))
        .take_while(|list| list[0] == 0)
        .collect()
}

/// Asks for an order on an output of so many octets, and compares what it gives and leaves.
fn asks(g: &mut Group, segments: u8, number: u64, room: usize, gives: u32, writes: &[u8]) {
    let mut output = filled(room + PAST);
    let given = calls::delivery_order(segments, number, &mut output[..room]);
    let wanted = at_front(writes, output.len());
    g.case((given, difference(&output, &wanted)), (gives, None));
}

/// The order with a number is written.
fn writes(g: &mut Group, order: &[u8], number: u64, room: usize) {
    asks(g, order.len() as u8, number, room, 0, order);
}

/// It is refused, and nothing is written.
fn refuses(g: &mut Group, segments: u8, number: u64, room: usize, refusal: u32) {
    asks(g, segments, number, room, refusal, &[]);
}

/// The order with a number as the export writes it, which has to be this one.
pub fn written(g: &mut Group, order: &[u8], number: u64) -> Vec<u8> {
    let mut output = filled(order.len());
    let given = calls::delivery_order(order.len() as u8, number, &mut output);
    g.case((given, &output[..]), (0, order));
    // A case that differs does not spoil those that are run in this order.
    if output != order {
        output.copy_from_slice(order);
    }
    output
}

/// Those of two, three and four segments, and of five and six the first and the last ones, and of six where the segment behind the Begin changes.
fn spelled_out(g: &mut Group) {
    const SPELLED: [(u64, &[u8]); 23] = [
        (0, &[0, 1]),
        (0, &[0, 1, 2]),
        (1, &[0, 2, 1]),
        (0, &[0, 1, 2, 3]),
        (1, &[0, 1, 3, 2]),
        (2, &[0, 2, 1, 3]),
        (3, &[0, 2, 3, 1]),
        (4, &[0, 3, 1, 2]),
        (5, &[0, 3, 2, 1]),
        (0, &[0, 1, 2, 3, 4]),
        (1, &[0, 1, 2, 4, 3]),
        (22, &[0, 4, 3, 1, 2]),
        (23, &[0, 4, 3, 2, 1]),
        (0, &[0, 1, 2, 3, 4, 5]),
        (1, &[0, 1, 2, 3, 5, 4]),
        (2, &[0, 1, 2, 4, 3, 5]),
        (23, &[0, 1, 5, 4, 3, 2]),
        (24, &[0, 2, 1, 3, 4, 5]),
        (48, &[0, 3, 1, 2, 4, 5]),
        (72, &[0, 4, 1, 2, 3, 5]),
        (96, &[0, 5, 1, 2, 3, 4]),
        (118, &[0, 5, 4, 3, 1, 2]),
        (119, &[0, 5, 4, 3, 2, 1]),
    ];
    for (number, order) in SPELLED {
        writes(g, order, number, order.len());
    }
}

/// Each order, on an output of just its octets and on longer ones.
fn every_order(g: &mut Group) {
    for segments in SEGMENTS {
        for (number, order) in (0..).zip(orders(segments)) {
            for longer in [0, 1, PAST] {
                writes(g, &order, number, order.len() + longer);
            }
        }
    }
}

/// What the export writes by itself: Begin first, each sequence number once, each order above the one before it, and as many that differ as the later
/// segments have orders.
fn rising(g: &mut Group) {
    for segments in SEGMENTS {
        let count: u64 = (1..u64::from(segments)).product();
        let all: Vec<u8> = (0..segments).collect();
        let mut before = Vec::new();
        let mut different = BTreeSet::new();
        for number in 0..count {
            let mut order = filled(segments.into());
            let given = calls::delivery_order(segments, number, &mut order);
            let mut sorted = order.clone();
            sorted.sort();
            let found = (given, order[0], &sorted, before < order);
            g.case(found, (0, 0, &all, true));
            different.insert(order.clone());
            before = order;
        }
        g.case(different.len() as u64, count);
    }
}

/// Every number of segments, with the first order and room for it.
fn counts(g: &mut Group) {
    for segments in 0..=u8::MAX {
        let room = usize::from(segments);
        if SEGMENTS.contains(&segments) {
            writes(g, &orders(segments)[0], 0, room);
        } else {
            refuses(g, segments, 0, room, NUMBER);
        }
    }
}

/// Low numbers, below and past the count of orders; then those next to each power of 2, and those that have an order in the bits below it.
fn numbers(g: &mut Group) {
    for segments in SEGMENTS {
        let orders = orders(segments);
        let (count, room) = (orders.len(), usize::from(segments));
        for number in 0..1 << LOW_BITS {
            match orders.get(number) {
                Some(order) => writes(g, order, number as u64, room),
                None => refuses(g, segments, number as u64, room, NUMBER),
            }
        }
        for bit in LOW_BITS..u64::BITS {
            let power = 1 << bit;
            for number in [power - 1, power, power + count as u64 - 1] {
                refuses(g, segments, number, room, NUMBER);
            }
        }
        refuses(g, segments, u64::MAX, room, NUMBER);
    }
}

/// Each order, on every output below its octets, of just them and of one more.
fn rooms(g: &mut Group) {
    for segments in SEGMENTS {
        let needed = usize::from(segments);
        for (number, order) in (0..).zip(orders(segments)) {
            for room in 0..needed {
                refuses(g, segments, number, room, OUTPUT);
            }
            for room in [needed, needed + 1] {
                writes(g, &order, number, room);
            }
        }
    }
}

/// Both faults, and 28 alone where the output is long enough.
fn order_of_refusals(g: &mut Group) {
    let longest = usize::from(*SEGMENTS.end()) + 1;
    for segments in (0..=u8::MAX).filter(|segments| !SEGMENTS.contains(segments)) {
        for room in 0..=longest {
            for number in [0, u64::MAX] {
                refuses(g, segments, number, room, NUMBER);
            }
        }
    }
    for segments in SEGMENTS {
        let count = orders(segments).len() as u64;
        for room in 0..=usize::from(segments) + 1 {
            for number in [count, count + 1, 1 << 32, u64::MAX] {
                refuses(g, segments, number, room, NUMBER);
            }
        }
    }
}

pub fn corners(tally: &mut Tally) {
    tally.group("orders: short trains, spelled out", spelled_out);
    tally.group("orders: every order, by next permutation", every_order);
    tally.group("orders: distinct and rising", rising);
    tally.group("orders: 28, every number of segments", counts);
    tally.group("orders: 28, numbers past the last order", numbers);
    tally.group("orders: 61, output short, exact, longer", rooms);
    tally.group("orders: 28 before 61", order_of_refusals);
}
