//! Trains of either planner, proposed as its plan gives the segments. Where the Begin states the length they are in the dialect of Begin only; where
//! it does not, in neither.

use super::{SEED, converts, refuses, refuses_both};
use crate::dialects::{ROOM, stating_at};
use crate::even::{self, EIGHT, ELEVEN, Even, NINE, SPLIT, STATED};
use crate::octets::{Segment, pattern};
use crate::plan::even::evenly;
use crate::plan::planning::{Asked, Cut, ask};
use crate::plan::proposal::Proposal;
use crate::plan::{part, wrong_part};
use crate::tally::{Group, Tally};
use catkhize::AcknowledgmentWindow::{self, Every4, Last, Prohibited};
use catkhize::Dialect::{BeginOnly, Every};
use catkhize::layout;

/// A message, what its planner is asked beside it, and the segments that it gives.
struct Planned {
    octets: usize,
    asked: Asked,
    heads: Vec<(Segment, u64)>,
}

/// A message of so many octets at a budget under a window, as plan_message cuts it.
fn full(octets: usize, budget: u64, window: AcknowledgmentWindow, cut: Cut) -> Planned {
    let asked = ask(budget, window);
    Planned {
        octets,
        asked,
        heads: asked.heads(octets, cut),
    }
}

/// A message that plan_even cuts.
fn spread(even: Even) -> Planned {
    let asked = evenly(even.budget, even.window);
    Planned {
        octets: even.octets,
        asked,
        heads: even.heads(asked.transaction),
    }
}

/// Those whose Begin states the length, each with the octets of the longest segment where every segment states it.
fn stating() -> [(Planned, u64); 14] {
    [
        (full(7, 6, Prohibited, Cut(3, 1, 3, true)), 8),
        (full(14, 9, Prohibited, Cut(3, 4, 6, true)), 11),
        (full(14, 9, Last, Cut(3, 2, 6, true)), 11),
        (full(9, 8, Every4, Cut(3, 1, 5, true)), 10),
        (full(1_000, 258, Prohibited, Cut(4, 253, 255, true)), 260),
        (full(1_000, 260, Prohibited, Cut(4, 255, 255, true)), 260),
        (full(4_095, 103, Prohibited, Cut(41, 98, 100, true)), 105),
        (full(4_095, 4_094, Prohibited, Cut(17, 255, 255, true)), 260),
        (spread(EIGHT), 8),
        (spread(ELEVEN), 11),
        (spread(SPLIT), 103),
        (spread(NINE), 9),
        (spread(STATED[0]), 105),
        (spread(STATED[2]), 260),
    ]
}

/// Those of which no segment does: too long, or no room.
fn silent() -> Vec<Planned> {
    let even = even::all().into_iter().filter(|even| !even.states_length);
    let mut planned: Vec<Planned> = even.map(spread).collect();
    planned.extend([
        full(7, 5, Prohibited, Cut(4, 2, 2, false)),
        full(9, 7, Last, Cut(3, 2, 4, false)),
        full(4_096, 103, Prohibited, Cut(41, 100, 100, false)),
        full(65_280, 258, Prohibited, Cut(256, 255, 255, false)),
    ]);
    planned
}

impl Planned {
    /// What the planner gives, as a proposal at a budget; the heads past it are empty.
    fn proposal(&self, g: &mut Group, budget: u64) -> Proposal {
        let message = pattern(self.octets, SEED);
        let (given, plan) = self.asked.plan(&message);
        g.case((given, wrong_part(&plan, &self.heads)), (0, None));
        let parts = (0..self.heads.len()).map(|index| part(&plan, index).1);
        let mut heads: Vec<u8> = parts
            .flat_map(|part| part[..layout::HEAD].to_vec())
            .collect();
        heads.resize(layout::HEADS, 0);
        Proposal {
            heads,
            ..Proposal::new(&self.heads, &message, budget)
        }
    }
}

/// They are converted where the budget has room for the longest segment, and below that, the planner's own budget too, give 20.
fn converted(g: &mut Group) {
    for (planned, longest) in stating() {
        let budget = planned.asked.budget;
        let written = stating_at(&planned.heads, planned.octets, |_| true);
        let least = planned.proposal(g, longest.max(budget));
        converts(g, &least, BeginOnly, &written, planned.asked.window);
        refuses(g, &least, Every, 26, 0);
        if longest > budget {
            for budget in [budget, longest - 1] {
                let first = planned.proposal(g, budget);
                refuses(g, &first, BeginOnly, 20, 0);
                refuses(g, &first, Every, 26, 0);
            }
        }
    }
}

fn not_converted(g: &mut Group) {
    for planned in silent() {
        for budget in [planned.asked.budget, ROOM] {
            let first = planned.proposal(g, budget);
            refuses_both(g, &first, 26, 0);
        }
    }
}

pub fn corners(tally: &mut Tally) {
    tally.group("convert: planned trains", converted);
    let title = "convert: planned trains that state no length";
    tally.group(title, not_converted);
}
