//! The planner: document 01's corners and the boundary of each refusal. A plan's record is compared whole; its segments, one after
//! another, have to be the message, each is written and read back, and the frozen check takes them.

use super::proposal::Proposal;
use super::{Heads, Planner, frozen_plan, part, part_octets, wrong_part};
use crate::octets::{
    PAST, Segment, at_front, begin, difference, end, filled, head, later, pattern, refusal, train,
};
use crate::tally::{Group, Tally};
use catkhize::AcknowledgmentWindow::{self, Every4, Every8, Every16, Last, Prohibited};
use catkhize::{MessagePlan, calls, layout, plan_message};

pub const SEED: u8 = 11;

/// Which planner is asked, and what beside the message.
#[derive(Clone, Copy)]
pub struct Asked {
    pub planner: Planner,
    pub budget: u64,
    pub transaction: u8,
    pub window: AcknowledgmentWindow,
    pub version: u8,
    pub ceiling: u64,
}

/// How a message is cut: how many segments, the data octets of the Begin and of a later one, whether the Begin states the length.
#[derive(Clone, Copy)]
pub struct Cut(pub u64, pub u64, pub u64, pub bool);

/// A budget and a window, with transaction 5, version 1 and a high ceiling.
pub fn ask(budget: u64, window: AcknowledgmentWindow) -> Asked {
    Asked {
        planner: calls::plan_message,
        budget,
        transaction: 5,
        window,
        version: 1,
        ceiling: 100_000,
    }
}

impl Asked {
    /// What planning the message gives, and the record.
    pub fn plan(self, message: &[u8]) -> (u32, Vec<u8>) {
        let mut plan = filled(layout::PLAN + PAST);
        let given = (self.planner)(
            message,
            self.budget,
            self.transaction,
            self.window as u8,
            self.version,
            self.ceiling,
            &mut plan,
        );
        (given, plan)
    }

    /// PLAN of a message that is cut so.
    pub fn record(self, octets: usize, cut: Cut) -> Vec<u8> {
        let Cut(count, begin, later, states_length) = cut;
        let mut plan = vec![layout::PLAN_VERSION, 0];
        plan.extend((octets as u64).to_be_bytes());
        plan.extend(self.budget.to_be_bytes());
        plan.extend([self.transaction, self.window as u8]);
        for number in [begin, later, count] {
            plan.extend(number.to_be_bytes());
        }
        plan.push(u8::from(states_length));
        plan.resize(layout::PLAN, 0);
        at_front(&plan, layout::PLAN + PAST)
    }

    /// The segments of a message that is cut so: the last one has the rest.
    pub fn heads(self, octets: usize, cut: Cut) -> Vec<(Segment, u64)> {
        let Cut(count, first, each, states_length) = cut;
        let mut data = vec![each; count as usize];
        data[0] = first;
        data[count as usize - 1] = octets as u64 - first - each * (count - 2);
        let length = states_length.then_some(octets as u16);
        train(self.transaction, length, self.window, &data)
    }
}

/// Whether a segment can be written within the budget, and reads back.
fn travels(segment: Segment, data: &[u8], asked: Asked) -> bool {
    let mut output = [0; layout::ENCODING];
    let mut written = [0; layout::WRITTEN];
    let given = calls::encode(&segment, data, asked.version, &mut output, &mut written);
    let written = u64::from_be_bytes(written);
    if given != 0 || written > asked.budget {
        return false;
    }
    let mut decoded = [0; layout::DECODED];
    let given = calls::decode(&output[..written as usize], asked.version, &mut decoded);
    let whole = [&head(segment, data.len() as u64)[..], &[0; 8]].concat();
    given == 0 && decoded[..] == whole && output[3..].starts_with(data)
}

/// The first segment that does not travel with its part of the message.
pub fn stuck(heads: Heads, message: &[u8], asked: Asked) -> Option<usize> {
    let mut rest = message;
    heads.iter().position(|(segment, octets)| {
        let (data, after) = rest.split_at(*octets as usize);
        rest = after;
        !travels(*segment, data, asked)
    })
}

/// The frozen check on segments, with the budget for a ceiling.
pub fn freeze(heads: Heads, message: &[u8], asked: Asked) -> (u32, Vec<u8>) {
    let mut proposal = Proposal::new(heads, message, asked.budget);
    proposal.terms.version = asked.version;
    proposal.freeze()
}

/// A message of so many octets is cut so.
pub fn plans(g: &mut Group, octets: usize, asked: Asked, cut: Cut) {
    comes_out(g, octets, asked, cut, &asked.heads(octets, cut));
}

/// A message of so many octets has this cut for its record and is cut into these segments.
pub fn comes_out(g: &mut Group, octets: usize, asked: Asked, cut: Cut, heads: Heads) {
    let message = pattern(octets, SEED);
    let (planned, plan) = asked.plan(&message);
    let (accepted, frozen) = freeze(heads, &message, asked);
    let wanted_frozen = frozen_plan(heads, &message, asked.budget, asked.window);
    g.case(
        (
            (planned, difference(&plan, &asked.record(octets, cut))),
            wrong_part(&plan, heads),
            stuck(heads, &message, asked),
            (accepted, difference(&frozen, &wanted_frozen)),
        ),
        ((0, None), None, None, (0, None)),
    );
}

/// Planning a message of so many octets gives the number and leaves no plan.
fn leaves(g: &mut Group, octets: usize, asked: Asked, number: u32) {
    let (given, plan) = asked.plan(&pattern(octets, SEED));
    let untouched = filled(plan.len());
    g.case((given, difference(&plan, &untouched)), (number, None));
}

/// A message of so many octets stays whole.
pub fn unsegmented(g: &mut Group, octets: usize, asked: Asked) {
    leaves(g, octets, asked, 1);
}

/// Planning a message of so many octets gives refusal n/m.
pub fn refuses(g: &mut Group, octets: usize, asked: Asked, n: u32, m: u32) {
    leaves(g, octets, asked, refusal(n, m));
}

fn marked(g: &mut Group) {
    let p10 = Asked {
        transaction: 0,
        ..ask(6, Prohibited)
    };
    plans(g, 7, p10, Cut(3, 1, 3, true));
    plans(g, 256, ask(4, Prohibited), Cut(256, 1, 1, false));
    refuses(g, 257, ask(4, Prohibited), 22, 0);
}

/// P10: the Begin of 7 octets is 00 00 01 d 10 07, d being the first of them.
fn every_begin(g: &mut Group) {
    for d in 0..=255 {
        let message = [d, 0x42, 0x43, 0x44, 0x45, 0x46, 0x47];
        let mut output = filled(16);
        let begin = match plan_message(&message, 6, 0, Prohibited, 1, 6) {
            Ok(MessagePlan::Segmented(plan)) => plan.segment(0),
            _ => None,
        };
        let written = begin.map(|begin| begin.encode(1, &mut output));
        let wanted = at_front(&[0, 0, 1, d, 0x10, 7], 16);
        g.case((written, output), (Some(Ok(6)), wanted));
    }
}

fn unmarked(g: &mut Group) {
    let old = Asked {
        version: 0,
        ..ask(0, Prohibited)
    };
    unsegmented(g, 3, ask(3, Prohibited));
    refuses(g, 4, ask(3, Prohibited), 21, 0);
    plans(g, 510, ask(5, Every4), Cut(256, 0, 2, false));
    refuses(g, 511, ask(5, Every4), 22, 0);
    refuses(g, 5, ask(4, Every4), 21, 0);
    unsegmented(g, 0, old);
}

/// A budget at the ceiling and one past it, for a message that fits and one that doesn't.
fn ceilings(g: &mut Group) {
    let under = |ceiling, budget| Asked {
        ceiling,
        ..ask(budget, Prohibited)
    };
    unsegmented(g, 6, under(6, 6));
    plans(g, 7, under(6, 6), Cut(3, 1, 3, true));
    refuses(g, 6, under(5, 6), 20, 0);
    refuses(g, 7, under(5, 6), 20, 0);
    refuses(g, 0, under(0, 1), 20, 0);
    unsegmented(g, 66_000, under(u64::MAX, u64::MAX));
}

/// Both are read only where the message doesn't fit.
fn transactions_and_versions(g: &mut Group) {
    let with = |transaction, version| Asked {
        transaction,
        version,
        ..ask(6, Prohibited)
    };
    plans(g, 7, with(7, 1), Cut(3, 1, 3, true));
    refuses(g, 7, with(8, 1), 6, 1);
    unsegmented(g, 6, with(8, 1));
    refuses(g, 7, with(5, 0), 1, 0);
    unsegmented(g, 6, with(5, 0));
    plans(g, 7, with(5, 255), Cut(3, 1, 3, true));
}

/// 20, Unsegmented, version, transaction, 21, 22.
pub fn order(g: &mut Group, ask: fn(u64, AcknowledgmentWindow) -> Asked) {
    let worst = Asked {
        transaction: 8,
        version: 0,
        ceiling: 3,
        ..ask(4, Every4)
    };
    let within = Asked {
        ceiling: 4,
        ..worst
    };
    let current = Asked {
        version: 1,
        ..within
    };
    let narrow = Asked {
        transaction: 7,
        ..current
    };
    refuses(g, 4, worst, 20, 0);
    unsegmented(g, 4, within);
    refuses(g, 66_000, within, 1, 0);
    refuses(g, 66_000, current, 6, 1);
    refuses(g, 66_000, narrow, 21, 0);
    refuses(g, 66_000, ask(3, Prohibited), 21, 0);
    refuses(g, 66_000, ask(5, Every4), 22, 0);
}

/// The budget past the bare header: by 2 no length is stated, by 3 it is. Below the bare header, and for 3 octets, 21.
fn bare_headers(g: &mut Group) {
    refuses(g, 7, ask(0, Prohibited), 21, 0);
    refuses(g, 7, ask(3, Prohibited), 21, 0);
    plans(g, 7, ask(4, Prohibited), Cut(7, 1, 1, false));
    plans(g, 7, ask(5, Prohibited), Cut(4, 2, 2, false));
    plans(g, 7, ask(6, Prohibited), Cut(3, 1, 3, true));
    for window in [Every4, Every8, Every16, Last] {
        refuses(g, 9, ask(4, window), 21, 0);
        plans(g, 9, ask(5, window), Cut(6, 0, 2, false));
        plans(g, 9, ask(7, window), Cut(3, 2, 4, false));
        plans(g, 9, ask(8, window), Cut(3, 1, 5, true));
    }
}

/// A length is stated up to 4,095 octets.
fn stated_lengths(g: &mut Group) {
    plans(g, 4_095, ask(103, Prohibited), Cut(41, 98, 100, true));
    plans(g, 4_096, ask(103, Prohibited), Cut(41, 100, 100, false));
    plans(g, 4_095, ask(4_094, Prohibited), Cut(17, 255, 255, true));
    plans(g, 4_096, ask(4_095, Prohibited), Cut(17, 255, 255, false));
}

fn largest(g: &mut Group) {
    plans(g, 1_000, ask(257, Prohibited), Cut(4, 252, 254, true));
    plans(g, 1_000, ask(258, Prohibited), Cut(4, 253, 255, true));
    plans(g, 1_000, ask(260, Prohibited), Cut(4, 255, 255, true));
    plans(g, 1_000, ask(261, Last), Cut(4, 254, 255, true));
    plans(g, 1_000, ask(262, Last), Cut(4, 255, 255, true));
    plans(g, 65_280, ask(258, Prohibited), Cut(256, 255, 255, false));
    refuses(g, 65_281, ask(258, Prohibited), 22, 0);
    plans(g, 65_278, ask(258, Last), Cut(256, 253, 255, false));
}

/// A segment, its data octets, and where they begin in the message.
struct Part(Segment, u64, u64);

/// Segment `index` of a plan that is cut so and said to be of so many octets: the segment, its data octets and where they begin, or none.
fn hand_made(g: &mut Group, octets: usize, cut: Cut, index: u8, wanted: Option<Part>) {
    let asked = ask(258, Prohibited);
    let plan = asked.record(octets, cut);
    let wanted = match wanted {
        None => (1, filled(layout::PART + PAST)),
        Some(Part(segment, data, offset)) => (0, part_octets(segment, data, offset)),
    };
    g.case(part(&plan, usize::from(index)), wanted);
}

/// A record that no planner gives has segment i where i is below its count, its count is at most 256, no capacity passes 255, and the
/// segment begins within the message: at its end still, with no data.
fn hand_made_segments(g: &mut Group) {
    let full = Cut(256, 255, 255, false);
    let last = |data, offset| Some(Part(end(5, 255, None, None), data, offset));
    hand_made(g, 0, full, 255, None);
    hand_made(g, 65_024, full, 255, None);
    hand_made(g, 65_025, full, 255, last(0, 65_025));
    hand_made(g, 65_026, full, 255, last(1, 65_025));
    hand_made(g, 65_280, full, 255, last(255, 65_025));

    let first = |data| Some(Part(begin(5, None, None), data, 0));
    hand_made(g, 0, full, 0, first(0));
    hand_made(g, 1, full, 0, first(1));
    hand_made(g, 0, full, 1, None);
    hand_made(g, 0, Cut(256, 0, 0, false), 255, last(0, 0));

    let three = Cut(3, 2, 3, false);
    let second = |data, offset| Some(Part(later(5, 1, None), data, offset));
    let third = |data, offset| Some(Part(end(5, 2, None, None), data, offset));
    hand_made(g, 1, three, 1, None);
    hand_made(g, 2, three, 1, second(0, 2));
    hand_made(g, 3, three, 1, second(1, 2));
    hand_made(g, 4, three, 2, None);
    hand_made(g, 5, three, 2, third(0, 5));
    hand_made(g, 6, three, 2, third(1, 5));
    hand_made(g, 8, three, 2, third(3, 5));
    hand_made(g, 8, three, 3, None);

    hand_made(g, 8, Cut(3, 256, 3, false), 0, None);
    hand_made(g, 8, Cut(3, 2, 256, false), 0, None);
    hand_made(g, 765, Cut(3, 255, 255, false), 2, third(255, 510));
    hand_made(g, 8, Cut(0, 2, 3, false), 0, None);
    for index in [0, 1, 255] {
        hand_made(g, 65_025, Cut(257, 255, 255, false), index, None);
        hand_made(g, 257, Cut(257, 1, 1, false), index, None);
        hand_made(g, 0, Cut(u64::MAX, 0, 0, false), index, None);
    }
}

/// Where the capacities leave octets of the message, the first later segments have one octet more, as many as there are octets left; where
/// that would be 256 octets, there is no segment.
fn left_over_segments(g: &mut Group) {
    let first = |data| Some(Part(begin(5, None, None), data, 0));
    let second = |data, offset| Some(Part(later(5, 1, None), data, offset));
    let third = |data, offset| Some(Part(end(5, 2, None, None), data, offset));
    let three = Cut(3, 2, 3, false);
    for octets in [9, 10, 11, 100, usize::MAX] {
        hand_made(g, octets, three, 0, first(2));
        hand_made(g, octets, three, 1, second(4, 2));
        hand_made(g, octets, three, 3, None);
    }
    hand_made(g, 9, three, 2, third(3, 6));
    for octets in [10, 11, 100, usize::MAX] {
        hand_made(g, octets, three, 2, third(4, 6));
    }

    let last = |data, offset| Some(Part(end(5, 255, None, None), data, offset));
    let bare = Cut(256, 0, 0, false);
    hand_made(g, 1, bare, 1, second(1, 0));
    hand_made(g, 1, bare, 255, last(0, 1));
    hand_made(g, 254, bare, 255, last(0, 254));
    hand_made(g, 255, bare, 255, last(1, 254));
    hand_made(g, 256, bare, 255, last(1, 254));

    let full = Cut(256, 255, 255, false);
    hand_made(g, 65_281, full, 0, None);
    hand_made(g, 65_281, full, 255, None);
    hand_made(g, 1_000, Cut(3, 255, 255, false), 2, None);
    hand_made(g, 1_000, Cut(3, 255, 254, false), 2, third(255, 510));
    hand_made(g, 10, Cut(1, 2, 254, false), 0, first(2));
    hand_made(g, 10, Cut(1, 2, 255, false), 0, None);
    hand_made(g, 2, Cut(1, 2, 255, false), 0, first(2));
}

pub fn corners(tally: &mut Tally) {
    tally.group("planning: P10 to P12", marked);
    tally.group("planning: P10's Begin, for each first octet", every_begin);
    tally.group("planning: the corners without a mark", unmarked);
    tally.group("planning: ceilings", ceilings);
    tally.group(
        "planning: transactions and versions",
        transactions_and_versions,
    );
    tally.group("planning: each test against the next", |g| order(g, ask));
    tally.group(
        "planning: each window, around the bare header",
        bare_headers,
    );
    tally.group("planning: lengths that are stated", stated_lengths);
    tally.group("planning: 255 octets and 256 segments", largest);
    tally.group(
        "planning: segments of plans made by hand",
        hand_made_segments,
    );
    tally.group(
        "planning: plans made by hand that leave octets over",
        left_over_segments,
    );
}
