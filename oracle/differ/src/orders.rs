//! The delivery orders of a short train, by document 02 (2026-10). The original has none: what delivery_order gives and writes is judged here
//! by document 02's words, from a list of all orders. What a train does that is delivered in such an order is compared with the original
//! (`deliveries`).

pub mod deliveries;

use crate::spell::filled;
use crate::table::{
    Area, COUNT_OF_ORDERS, CUT_NUMBER, DELIVERY_ORDERS, NUMBER_AND_OUTPUT, ONE_SEGMENT, ORDER_FULL,
    ORDER_LONGER, OUTPUT_ONE_LESS, SEVEN_SEGMENTS, Table,
};
use crate::watch::{Case, Checked, Checker, by_document_02, number, same, same_given};
use catkhize::calls;
use deliveries::DELIVER;
use record::list::{Player, Recorder};
use record::octets::{Put, Take};
use record::random::Random;
use record::refusals::{OUTPUT_TOO_SHORT, Refusal};
use std::sync::LazyLock;

/// A call of delivery_order, which RECORDED.md has not: segments u8, number u64, then the octets that the output has before.
pub const ORDER: u8 = 0x12;

const FEWEST: u8 = 2;
pub const MOST: u8 = 6;

const ORDER_NUMBER: Refusal = (28, 0);

/// All rows of so many sequence numbers in lexicographic order; of these the ones that open with the Begin and have every sequence number.
fn listed(segments: u8) -> Vec<Vec<u8>> {
    let mut rows: Vec<Vec<u8>> = vec![Vec::new()];
    for _ in 0..segments {
        let longer = |row: &Vec<u8>| {
            let row = row.clone();
            (0..segments).map(move |next| [&row[..], &[next]].concat())
        };
        rows = rows.iter().flat_map(longer).collect();
    }
    rows.retain(|row| row[0] == 0 && (0..segments).all(|sequence| row.contains(&sequence)));
    rows
}

static ORDERS: LazyLock<Vec<Vec<Vec<u8>>>> =
    LazyLock::new(|| (FEWEST..=MOST).map(listed).collect());

/// The orders of a train of so many segments, by number.
pub fn orders_of(segments: u8) -> &'static [Vec<u8>] {
    let place = segments.checked_sub(FEWEST).map(usize::from);
    let orders = place.and_then(|place| ORDERS.get(place));
    orders.map_or(&[], |orders| orders)
}

pub fn order(segments: u8, number: u64) -> Option<&'static Vec<u8>> {
    orders_of(segments).get(usize::try_from(number).ok()?)
}

/// How many orders there are of all short trains.
pub fn count() -> usize {
    ORDERS.iter().map(Vec::len).sum()
}

/// What delivery_order has to write to an output of so many octets.
fn expected(segments: u8, number: u64, octets: usize) -> Result<&'static Vec<u8>, Refusal> {
    let order = order(segments, number).ok_or(ORDER_NUMBER)?;
    if octets < order.len() {
        return Err(OUTPUT_TOO_SHORT);
    }
    Ok(order)
}

/// The original's side, which answers nothing: there is no such call.
#[derive(Default)]
pub struct NoOriginal;

impl Player for NoOriginal {
    fn play(&mut self, _: u8, _: &[u8]) -> Vec<u8> {
        Vec::new()
    }
}

#[derive(Default)]
pub struct OrderChecker;

impl Checker for OrderChecker {
    type Original = NoOriginal;

    const NAME: &'static str = "orders";

    fn opens(_: u8) -> bool {
        true
    }

    fn check(&mut self, _: &mut NoOriginal, case: &Case, _: &[u8], table: &mut Table) -> Checked {
        if case.op == DELIVER {
            return deliveries::check(table, &case.input);
        }
        let mut take = Take(&case.input);
        let (segments, number) = (take.take8(), take.take64());
        let area = table.area(DELIVERY_ORDERS);
        written(area, segments, number, take.rest()).map_err(by_document_02)
    }

    fn probe(&mut self, _: &mut NoOriginal, _: &Case, _: &mut Table) -> Checked {
        Ok(())
    }

    fn any_probe(&self, _: &mut Random, _: Option<&Case>) -> Option<Case> {
        None
    }
}

/// Calls delivery_order on an output with these octets: what it gives, and every octet.
fn written(area: &mut Area, segments: u8, order_number: u64, before: &[u8]) -> Checked {
    let mut output = before.to_vec();
    let found = calls::delivery_order(segments, order_number, &mut output);
    area.count(found);
    let expected = expected(segments, order_number, before.len());
    same_given(found, expected.map_or_else(number, |_| 0))?;
    let mut left = before.to_vec();
    if let Ok(order) = expected {
        left[..order.len()].copy_from_slice(order);
        area.orders.insert(output[..order.len()].to_vec());
    }
    same("output", &output, &left)?;
    inputs(area, segments, order_number, before.len());
    Ok(())
}

/// What a run has to see of delivery_order.
fn inputs(area: &mut Area, segments: u8, number: u64, octets: usize) {
    let needed = usize::from(segments);
    let is_order = order(segments, number).is_some();
    let count = orders_of(segments).len();
    let cut = order(segments, number & u64::from(u32::MAX)).is_some();
    for (seen, name) in [
        (is_order && octets == needed, ORDER_FULL),
        (is_order && octets > needed, ORDER_LONGER),
        (is_order && octets + 1 == needed, OUTPUT_ONE_LESS),
        (!is_order && octets < needed, NUMBER_AND_OUTPUT),
        (count > 0 && number == count as u64, COUNT_OF_ORDERS),
        (!is_order && cut, CUT_NUMBER),
        (segments == FEWEST - 1, ONE_SEGMENT),
        (segments == MOST + 1, SEVEN_SEGMENTS),
    ] {
        if seen {
            area.input(name);
        }
    }
}

type Record = Recorder<NoOriginal>;

/// Up to so many segments, outputs of every length are tried.
const FEW: u8 = 8;
/// Outputs have up to so many octets more than there are segments.
const MORE: u8 = 3;

pub fn make(record: &mut Record, count: usize) {
    for segments in 0..=FEW {
        for number in numbers(segments) {
            for octets in 0..=segments + MORE {
                call(record, segments, number, &filled(octets.into()));
            }
        }
    }
    for segments in FEW + 1..=u8::MAX {
        for octets in [0, segments - 1, segments] {
            let number = any_number(&mut record.random, segments);
            call(record, segments, number, &filled(octets.into()));
        }
    }
    for _ in 0..count {
        let random = &mut record.random;
        let any = random.octet();
        let segments = match random.below(8) {
            0 => any,
            _ => random.below(usize::from(FEW) + 1) as u8,
        };
        let number = any_number(random, segments);
        let octets = random.within(0, usize::from(segments) + usize::from(MORE));
        let before: Vec<u8> = (0..octets).map(|_| random.octet()).collect();
        call(record, segments, number, &before);
    }
}

fn call(record: &mut Record, segments: u8, number: u64, before: &[u8]) {
    let mut input = Vec::new();
    input.put8(segments);
    input.put64(number);
    input.put_all(before);
    record.call(ORDER, &input);
}

/// Every number of an order, the two behind them, some that are an order's when they are cut to fewer bits, and the last of 32 and 64 bits.
fn numbers(segments: u8) -> impl Iterator<Item = u64> {
    let count = orders_of(segments).len() as u64;
    let last = count.saturating_sub(1);
    let cut = [8, 16, 31, 32, 63].map(|bits| 1 << bits);
    (0..count + 2)
        .chain(cut.into_iter().flat_map(move |more| [more, more + last]))
        .chain([u32::MAX.into(), u64::MAX - 1, u64::MAX])
}

fn any_number(random: &mut Random, segments: u8) -> u64 {
    let count = orders_of(segments).len();
    let order = random.below(count.max(1)) as u64;
    match random.below(10) {
        0 => count as u64 + random.below(3) as u64,
        1 => order + (1 << random.within(7, 63)),
        2 => (1 << 32) - 1 - order,
        3 => u64::MAX - order,
        4 => random.next(),
        5 => random.below(1_000) as u64,
        _ => order,
    }
}
