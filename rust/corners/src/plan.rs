//! The corners of the planner and of the frozen check of document 01, of document 02's even planner, of both planners under Exceptions and of the
//! converter, and the boundary of each of their refusals.

mod convert;
mod even;
mod exceptions;
mod frozen;
mod planning;
pub mod proposal;

use crate::octets::{PAST, Segment, at_front, filled, head};
use crate::tally::Tally;
use catkhize::{AcknowledgmentWindow, calls, layout};

/// The entry of a planner.
pub type Planner = fn(&[u8], u64, u8, u8, u8, u64, &mut [u8]) -> u32;

/// Segments, each with the number of its data octets.
pub type Heads<'a> = &'a [(Segment, u64)];

/// The octets of a PLAN that only a planned one has.
const PLANNED: usize = 43;

/// HEAD of each segment.
pub fn heads_octets(heads: Heads) -> Vec<u8> {
    let heads = heads.iter();
    heads
        .flat_map(|(segment, data)| head(*segment, *data))
        .collect()
}

/// The 256 heads that the frozen check is given: these, and the last of them again.
pub fn proposed(heads: Heads) -> Vec<u8> {
    let mut all = heads.to_vec();
    all.resize(256, heads[heads.len() - 1]);
    heads_octets(&all)
}

/// PLAN of an accepted cutting: the heads past its own are empty.
fn frozen_plan(heads: Heads, message: &[u8], budget: u64, window: AcknowledgmentWindow) -> Vec<u8> {
    let mut plan = vec![layout::PLAN_VERSION, 1];
    plan.extend([0; PLANNED]);
    for number in [heads.len() as u64, message.len() as u64, budget] {
        plan.extend(number.to_be_bytes());
    }
    plan.push(window as u8);
    plan.extend(heads_octets(heads));
    plan.resize(layout::PLAN, 0);
    at_front(&plan, layout::PLAN + PAST)
}

/// What segment `index` of a plan gives and answers.
fn part(plan: &[u8], index: usize) -> (u32, Vec<u8>) {
    let mut answer = filled(layout::PART + PAST);
    let given = calls::plan_segment(plan, index as u8, &mut answer);
    (given, answer)
}

/// PART: a segment, its data octets, and where they begin in the message.
fn part_octets(segment: Segment, data: u64, offset: u64) -> Vec<u8> {
    let part = [&head(segment, data)[..], &offset.to_be_bytes()].concat();
    at_front(&part, layout::PART + PAST)
}

/// The first index whose segment is not the head there, with its data after those before it; past the heads there is no segment.
pub fn wrong_part(plan: &[u8], heads: Heads) -> Option<usize> {
    let mut offset = 0;
    (0..256).find(|index| {
        let wanted = match heads.get(*index) {
            None => (1, filled(layout::PART + PAST)),
            Some((segment, data)) => {
                let part = part_octets(*segment, *data, offset);
                offset += data;
                (0, part)
            }
        };
        part(plan, *index) != wanted
    })
}

pub fn corners(tally: &mut Tally) {
    planning::corners(tally);
    even::corners(tally);
    exceptions::corners(tally);
    frozen::corners(tally);
    convert::corners(tally);
}
