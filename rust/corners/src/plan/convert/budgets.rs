//! 20, behind the frozen check: a segment that is written passes the budget.

use super::{SEED, TRANSACTION, proposed_in};
use crate::dialects::{ALL, BOTH, Cutting, stating_at};
use crate::octets::{difference, filled, pattern, refusal, train};
use crate::plan::proposal::Proposal;
use crate::plan::{Heads, frozen_plan};
use crate::tally::{Group, Tally};
use catkhize::AcknowledgmentWindow::{self, Prohibited};
use catkhize::Dialect::{self, BeginOnly, Every};

/// What the frozen check and the converter give for a train: 20 each, or not. Where the converter does not, PLAN is that of these segments.
fn gives(
    g: &mut Group,
    first: &Proposal,
    read: Dialect,
    [passes, passes_then]: [bool; 2],
    (heads, window): (Heads, AcknowledgmentWindow),
) {
    let number = |passes| if passes { refusal(20, 0) } else { 0 };
    let (given, plan) = first.convert(read as u8);
    let wanted = if passes_then {
        filled(plan.len())
    } else {
        frozen_plan(heads, &first.message, first.terms.budget, window)
    };
    g.case(
        (first.freeze().0, given, difference(&plan, &wanted)),
        (number(passes), number(passes_then), None),
    );
}

/// Budgets around the octets of the longest segment as it comes and as it is written, under a ceiling that is the budget and one that is not. Where
/// every segment states the length none gets longer, so that the converter gives 20 where the frozen check does; and the Begin stays as it is.
fn around(g: &mut Group, cutting: Cutting) {
    let [shorter, longer] = cutting.longest;
    for budget in shorter - 2..=longer + 2 {
        for (read, written) in BOTH {
            let heads = cutting.heads(TRANSACTION, written);
            let passes = match read {
                BeginOnly => [budget < shorter, budget < longer],
                Every => [budget < longer; 2],
            };
            let mut first = proposed_in(cutting, read, budget);
            gives(g, &first, read, passes, (&heads, cutting.window));
            first.terms.ceiling = u64::MAX;
            gives(g, &first, read, passes, (&heads, cutting.window));
        }
    }
}

/// 256 segments of an octet each, but for one with 5, which is the only one to pass 9 octets where it states the length. The Begin does so as it
/// comes.
fn alone(g: &mut Group) {
    const COUNT: usize = 256;
    const OCTETS: usize = 260;
    for long in 0..COUNT {
        let data: Vec<u64> = (0..COUNT).map(|i| if i == long { 5 } else { 1 }).collect();
        let bare = train(TRANSACTION, None, Prohibited, &data);
        let begin_only = stating_at(&bare, OCTETS, |index| index == 0);
        let every = stating_at(&bare, OCTETS, |_| true);
        let message = pattern(OCTETS, SEED);
        for budget in [9, 10] {
            let first = Proposal::new(&begin_only, &message, budget);
            let passes = [budget < 10 && long == 0, budget < 10];
            gives(g, &first, BeginOnly, passes, (&every, Prohibited));
            let first = Proposal::new(&every, &message, budget);
            let passes = [budget < 10; 2];
            gives(g, &first, Every, passes, (&begin_only, Prohibited));
        }
    }
}

pub fn corners(tally: &mut Tally) {
    tally.group("convert: budgets around the longest segment", |g| {
        for cutting in ALL {
            around(g, cutting);
        }
    });
    let title = "convert: each of 256 segments the longest alone";
    tally.group(title, alone);
}
