//! The converter of document 02 between the two dialects of a frozen plan: the number that each question gives, and PLAN whole, which stays as it
//! was where the converter refuses.

mod budgets;
mod order;
mod patterns;
mod planned;
mod trains;

use super::proposal::Proposal;
use super::{Heads, frozen_plan, wrong_part};
use crate::dialects::Cutting;
use crate::octets::{difference, filled, pattern, refusal};
use crate::tally::{Group, Tally};
use catkhize::AcknowledgmentWindow;
use catkhize::Dialect::{self, BeginOnly, Every};

const SEED: u8 = 23;

const TRANSACTION: u8 = 5;

/// These segments of the message at a budget.
fn proposes(cutting: Cutting, heads: Heads, budget: u64) -> Proposal {
    Proposal::new(heads, &pattern(cutting.octets, SEED), budget)
}

/// The message's train in a dialect at a budget.
fn proposed_in(cutting: Cutting, dialect: Dialect, budget: u64) -> Proposal {
    proposes(cutting, &cutting.heads(TRANSACTION, dialect), budget)
}

/// Reading a train in this dialect gives the segments under a window.
fn converts(
    g: &mut Group,
    asked: &Proposal,
    read: Dialect,
    heads: Heads,
    window: AcknowledgmentWindow,
) {
    let (given, plan) = asked.convert(read as u8);
    let wanted = frozen_plan(heads, &asked.message, asked.terms.budget, window);
    g.case(
        (given, difference(&plan, &wanted), wrong_part(&plan, heads)),
        (0, None, None),
    );
}

/// Reading a train in this dialect gives refusal n/m.
fn refuses(g: &mut Group, asked: &Proposal, read: Dialect, n: u32, m: u32) {
    let (given, plan) = asked.convert(read as u8);
    let untouched = filled(plan.len());
    let wanted = (refusal(n, m), None);
    g.case((given, difference(&plan, &untouched)), wanted);
}

/// So does reading it in either.
fn refuses_both(g: &mut Group, asked: &Proposal, n: u32, m: u32) {
    refuses(g, asked, BeginOnly, n, m);
    refuses(g, asked, Every, n, m);
}

pub fn corners(tally: &mut Tally) {
    trains::corners(tally);
    planned::corners(tally);
    budgets::corners(tally);
    patterns::corners(tally);
    order::corners(tally);
}
