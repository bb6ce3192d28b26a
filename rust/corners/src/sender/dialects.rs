//! Converted plans: senders made from them and driven to their end, and 40 for what the frozen check does not give.

use super::bench::*;
use super::making::made;
use super::plan::{Plan, converted_of, frozen};
use crate::dialects::{BOTH, Cutting, EMPTY, MOST, ROOM, THREE, TWO, WINDOWS};
use crate::octets::{begin, end, later, pattern};
use catkhize::Dialect::{self, BeginOnly, Every};

const SEED: u8 = 53;

fn message(cutting: Cutting) -> Vec<u8> {
    pattern(cutting.octets, SEED)
}

/// The plan that reading the train as this dialect gives.
fn plan(cutting: Cutting, read: Dialect, budget: u64) -> Plan {
    let heads = cutting.heads(TRANSACTION, read);
    converted_of(&heads, &message(cutting), budget, read)
}

fn to_the_end(g: &mut Group, cutting: Cutting, windows: &[AcknowledgmentWindow]) {
    for window in windows {
        let cutting = cutting.under(*window);
        for (read, written) in BOTH {
            let made = try_new(&plan(cutting, read, ROOM), &message(cutting), MADE);
            drive(g, made, &cutting.heads(TRANSACTION, written), *window);
        }
    }
}

/// A converted plan is a frozen one, and so it is with other lengths stated, as long as they are the message's and keep the budget.
fn plans(g: &mut Group) {
    let octets = message(THREE);
    let new = |plan: Plan| try_new(&plan, &octets, 0);
    let every = plan(THREE, BeginOnly, 11);
    let begin_only = plan(THREE, Every, 11);
    let first = |length| every.with_head(0, begin(TRANSACTION, length, None), 4);
    let second = |length| every.with_head(1, later(TRANSACTION, 1, length), 6);
    let third = |length| begin_only.with_head(2, end(TRANSACTION, 2, length, None), 4);
    let rows = [
        (new(every), made()),
        (new(begin_only), made()),
        (new(every.with64(frozen::BUDGET, 10)), refuses(40)),
        (new(every.with64(frozen::BUDGET, MAX)), made()),
        (new(begin_only.with64(frozen::BUDGET, 9)), made()),
        (new(begin_only.with64(frozen::BUDGET, 8)), refuses(40)),
        (new(first(None)), made()),
        (new(first(Some(15))), refuses(40)),
        (new(second(None)), made()),
        (new(second(Some(13))), refuses(40)),
        (new(third(Some(14))), made()),
        (new(third(Some(0))), refuses(40)),
        (try_new(&every, &octets[1..], 0), refuses(40)),
        (try_new(&begin_only, &octets[1..], 0), refuses(40)),
    ];
    cases(g, rows);
}

pub fn corners(tally: &mut Tally) {
    tally.group("sender: converted plans", plans);
    tally.group("sender: converted plans, to their end", |g| {
        for cutting in [EMPTY, TWO, THREE] {
            to_the_end(g, cutting, &WINDOWS);
        }
        to_the_end(g, MOST, &[Prohibited, Exceptions]);
    });
}
