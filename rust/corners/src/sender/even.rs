//! Even plans: senders made from them and driven to their end, and 40 for records that neither planner gives.

use super::bench::*;
use super::making::made;
use super::plan::{Plan, even_at, frozen, plan_at, planned};
use crate::even::{EIGHT, ELEVEN, EMPTY_BEGIN, Even, NINE, SHORT_END, SPLIT, TEN, all};
use crate::octets::pattern;

const SEED: u8 = 31;

fn message(even: Even) -> Vec<u8> {
    pattern(even.octets, SEED)
}

/// The plan of plan_even.
fn plan(even: Even) -> Plan {
    even_at(&message(even), even.budget, even.window)
}

/// plan_message's record is the even one once its later capacity is the share.
fn shares(g: &mut Group) {
    for even in all() {
        let other = plan_at(&message(even), even.budget, even.window);
        let spread = other.with64(planned::LATER_CAPACITY, even.share);
        g.case(spread == plan(even), true);
    }
}

fn new(even: Even, plan: Plan) -> Sent {
    try_new(&plan, &message(even), 0)
}

/// One field of the plan of 8 octets changed, but for the later capacity.
fn changed(g: &mut Group) {
    case(g, new(EIGHT, plan(EIGHT)), made());
    let rows = [
        (planned::MESSAGE_OCTETS, 7),
        (planned::MESSAGE_OCTETS, 9),
        (planned::BUDGET, 5),
        (planned::BUDGET, 7),
        (planned::BUDGET, MAX),
        (planned::BEGIN_OCTETS, 0),
        (planned::BEGIN_OCTETS, 2),
        (planned::COUNT, 0),
        (planned::COUNT, 1),
        (planned::COUNT, 3),
        (planned::COUNT, 5),
        (planned::COUNT, 257),
        (planned::COUNT, MAX),
        (frozen::COUNT, 257),
    ];
    for (at, value) in rows {
        let plan = plan(EIGHT).with64(at, value);
        case(g, new(EIGHT, plan), refuses(40));
    }
    let unstated = plan(EIGHT).with(planned::STATES_LENGTH, &[0]);
    case(g, new(EIGHT, unstated), refuses(40));
}

/// With another transaction, or another window that has services, it is the even plan of another transaction or window; no planner gives one
/// under Exceptions.
fn others(g: &mut Group) {
    let rows = [
        (EIGHT, planned::TRANSACTION, 0, made()),
        (EIGHT, planned::TRANSACTION, 7, made()),
        (EIGHT, planned::TRANSACTION, 8, refuses(40)),
        (EIGHT, planned::WINDOW, Every4 as u8, refuses(40)),
        (EIGHT, planned::WINDOW, Exceptions as u8, refuses(40)),
        (NINE, planned::WINDOW, Every4 as u8, made()),
        (NINE, planned::WINDOW, Every8 as u8, made()),
        (NINE, planned::WINDOW, Every16 as u8, made()),
        (NINE, planned::WINDOW, Last as u8, made()),
        (NINE, planned::WINDOW, Exceptions as u8, refuses(40)),
        (NINE, planned::WINDOW, Prohibited as u8, refuses(40)),
    ];
    for (even, at, value, want) in rows {
        case(g, new(even, plan(even).with(at, &[value])), want);
    }
}

/// A message of another length, and one of other octets.
fn messages(g: &mut Group) {
    let rows = [
        (try_new(&plan(EIGHT), b"0123456", 0), refuses(40)),
        (try_new(&plan(EIGHT), b"012345678", 0), refuses(40)),
        (try_new(&plan(EIGHT), b"", 0), refuses(40)),
        (try_new(&plan(EIGHT), b"01234567", 0), made()),
    ];
    cases(g, rows);
}

/// The later capacity: plan_message's and the share are made, what lies next to them is not.
fn capacities(g: &mut Group) {
    let rows: [(Even, &[u64], &[u64]); 6] = [
        (EIGHT, &[2, 3], &[0, 1, 4, MAX]),
        (SPLIT, &[50, 100], &[49, 51, 99, 101]),
        (TEN, &[6], &[5, 7]),
        (ELEVEN, &[6, 7], &[5, 8]),
        (EMPTY_BEGIN, &[2], &[1, 3]),
        (SHORT_END, &[254, 255], &[253, 256]),
    ];
    for (even, takes, declines) in rows {
        let with = |capacity| new(even, plan(even).with64(planned::LATER_CAPACITY, capacity));
        for capacity in takes {
            case(g, with(*capacity), made());
        }
        for capacity in declines {
            case(g, with(*capacity), refuses(40));
        }
    }
}

pub fn corners(tally: &mut Tally) {
    tally.group("sender: even plans, to their end", |g| {
        for even in all() {
            let made = try_new(&plan(even), &message(even), MADE);
            drive(g, made, &even.heads(TRANSACTION), even.window);
        }
    });
    tally.group("sender: shares in plan_message's records", shares);
    tally.group("sender: even plans with a field changed", changed);
    let title = "sender: even plans with transaction or window changed";
    tally.group(title, others);
    tally.group("sender: even plans, messages of another length", messages);
    tally.group("sender: later capacities of either planner", capacities);
}
