//! A train through a receiver in some order: what gives the segments, and what has to come of each of them.

use super::rows::*;
use crate::octets::{carried, filled, pattern, stated};
use crate::plan::proposal::Proposal;
use crate::plan::{Heads, Planner, wrong_part};
use crate::sender::bench::marks;
use crate::tally::Group;
use catkhize::AcknowledgmentWindow::{self, Every4, Every8, Every16, Exceptions, Last, Prohibited};
use catkhize::layout;

/// When the first segment arrives; each other one arrives 1 ms after the one before it.
const AT: u64 = 1_000;

/// The message whose segment s has the data that the bench gives to slot s.
pub fn message(heads: Heads) -> Vec<u8> {
    let slots = (0..=u8::MAX).zip(heads);
    slots
        .flat_map(|(s, (_, octets))| pattern(*octets as usize, s))
        .collect()
}

/// A planner cuts the message into the segments that are then received.
pub fn planned(
    g: &mut Group,
    planner: Planner,
    budget: u64,
    asked: AcknowledgmentWindow,
    heads: Heads,
) {
    let mut plan = filled(layout::PLAN);
    let (message, window) = (message(heads), asked as u8);
    let given = planner(&message, budget, TRANSACTION, window, 1, budget, &mut plan);
    g.case((given, wrong_part(&plan, heads)), (0, None));
}

/// The frozen check takes the segments that are then received.
pub fn frozen(g: &mut Group, budget: u64, heads: Heads) {
    let (given, plan) = Proposal::new(heads, &message(heads), budget).freeze();
    g.case((given, wrong_part(&plan, heads)), (0, None));
}

/// The call that brings a segment of a train that asks for a window.
pub fn brings(heads: Heads, asked: AcknowledgmentWindow, index: usize, reading: u64) -> Call {
    let (segment, octets) = heads[index];
    let (sequence, octets) = (index as u8, octets as usize);
    let mut call = match index {
        0 => begin(carried(asked), octets, reading),
        _ if index + 1 == heads.len() => end(sequence, octets, reading),
        _ => later(sequence, octets, reading),
    };
    call.stated = stated(segment);
    call
}

/// With the response to a segment, where the window has one: its sequence ends a period, it is the End, or the message is whole. The map ends at the
/// highest sequence that is held, which is the End's once that is.
fn answered(row: Row, asked: AcknowledgmentWindow, index: usize, closes: bool, held: &[u8]) -> Row {
    let period = match asked {
        Prohibited | Exceptions => return row,
        Every4 => 4,
        Every8 => 8,
        Every16 => 16,
        Last => usize::MAX,
    };
    if !closes && !(index + 1).is_multiple_of(period) {
        return row;
    }
    let held = held.iter().map(|s| usize::from(*s));
    let entries = held.clone().max().map_or(0, |highest| highest + 1);
    row.marks(entries as u16, marks(held))
}

/// A new receiver of just the message's octets, and the segments in an order with the Begin first: the last one hands the message over.
pub fn arrivals(heads: Heads, asked: AcknowledgmentWindow, order: &[u8]) -> Vec<Row> {
    let maximum = heads.iter().map(|(_, octets)| octets).sum();
    let mut rows = vec![Row::Start(1, maximum)];
    for (place, reading) in (0..order.len()).zip(AT..) {
        let index = usize::from(order[place]);
        let whole = place + 1 == order.len();
        let call = brings(heads, asked, index, reading);
        let row = if whole {
            call.hands_over()
        } else {
            call.holds()
        };
        let closes = whole || index + 1 == heads.len();
        rows.push(answered(row, asked, index, closes, &order[..=place]));
    }
    rows
}

/// The same segments again behind those, in the same order.
pub fn repeats(heads: Heads, asked: AcknowledgmentWindow, order: &[u8]) -> Vec<Row> {
    let again = AT + order.len() as u64;
    let segments = order.iter().zip(again..);
    segments
        .map(|(s, reading)| {
            let index = usize::from(*s);
            let row = brings(heads, asked, index, reading).repeats();
            answered(row, asked, index, true, order)
        })
        .collect()
}
