//! Exceptions: a frozen plan under it is taken and sent to its end, a planned one is 40, and a sender that has a planned one in its record goes on
//! in every call.

use super::bench::*;
use super::making::made;
use super::plan::{Plan, even_at, frozen, frozen_of, frozen_plan, plan_at, plan_under, planned};
use super::record::try_new_with;
use crate::even;
use crate::exceptions::{ALL, EVEN, THREE};
use crate::octets::{begin, difference, pattern, window};
use crate::plan::wrong_part;
use crate::profiles::ONE;
use catkhize::calls::Origin;

const SEED: u8 = 47;

const EXCEPTIONS: [u8; 1] = [Exceptions as u8];

fn new(plan: Plan) -> Sent {
    try_new(&plan, &MESSAGE, 0)
}

/// Other frozen plans, and records that no frozen check gives. The plan that the other cases have is plan_message's of Every4 but for the window.
fn frozen_plans(g: &mut Group) {
    let heads = THREE.heads(TRANSACTION);
    let every4 = THREE.heads_under(TRANSACTION, Every4);
    let plan = plan_under(Exceptions);
    g.case(wrong_part(&plan.0, &heads), None);
    g.case(wrong_part(&plan_under(Every4).0, &every4), None);

    let asking = begin(TRANSACTION, None, window(Exceptions));
    let other = frozen_plan().with(frozen::WINDOW, &EXCEPTIONS);
    let rows = [
        (new(plan), made()),
        (new(plan.with64(frozen::BUDGET, BUDGET - 1)), refuses(40)),
        (new(plan.with64(frozen::BUDGET, MAX)), made()),
        (new(plan.with64(frozen::COUNT, 2)), refuses(40)),
        (new(plan.with(frozen::WINDOW, &[Last as u8])), refuses(40)),
        (
            new(plan.with(frozen::WINDOW, &[Prohibited as u8])),
            refuses(40),
        ),
        (new(plan.with_head(0, every4[0].0, 2)), refuses(40)),
        (new(other), refuses(40)),
        (new(frozen_plan().with_head(0, asking, 4)), refuses(40)),
        (new(other.with_head(0, asking, 4)), made()),
        (try_new(&plan, &MESSAGE[1..], 0), refuses(40)),
        (try_new(&plan, b"another octets", 0), made()),
    ];
    cases(g, rows);
}

/// A plan of either planner is made, and with Exceptions for its window it is 40: behind 30 and 31, before 1.
fn planned_plans(g: &mut Group) {
    let served = even::all().into_iter().filter(|e| e.window != Prohibited);
    for even in served {
        let message = pattern(even.octets, SEED);
        for given in [plan_at, even_at] {
            let plan = given(&message, even.budget, even.window);
            case(g, try_new(&plan, &message, 0), made());
            let plan = plan.with(planned::WINDOW, &EXCEPTIONS);
            case(g, try_new(&plan, &message, 0), refuses(40));
        }
    }
    let plan = plan_under(Every4).with(planned::WINDOW, &EXCEPTIONS);
    let nobody = Origin { value: 0, ..ORIGIN };
    let unserved = Origin {
        protocol: 2,
        ..ORIGIN
    };
    for (from, n) in [(nobody, 30), (unserved, 31), (ORIGIN, 40)] {
        let sent = try_new_with(from, &plan, &MESSAGE, 0, ONE.number, 0);
        case(g, sent, refuses(n));
    }
}

/// Frozen trains, to each end.
fn to_the_end(g: &mut Group) {
    for cutting in ALL {
        let message = pattern(cutting.octets, SEED);
        let heads = cutting.heads(TRANSACTION);
        let plan = frozen_of(&heads, &message, cutting.budget);
        drive(g, try_new(&plan, &message, MADE), &heads, Exceptions);
    }
}

/// Every call, of a sender that offers the first of three segments and waits for an interval.
pub fn calls(first: Sender, interval: u64) -> [(Sent, Outcome); 33] {
    let [d1, d2, d3] = [Q1, Q2, Q3].map(|queued| queued + interval);
    let awaited = first.handed(0, Q1);
    let second = first.taken(0, Q1);
    let third = second.taken(1, Q2);
    let last = third.handed(2, Q3);
    let all = third.taken(2, Q3);
    let done = ended(PEER_RECEIVED, 3);
    let elapsed = ended(EXCEPTION_INTERVAL_ELAPSED, 3);
    let lost = ended(lower_layer_failed(TIMED_OUT), 1);
    let again = prepared(1, 0, None, 1);
    [
        (first.advance(MAX), prepared(0, 0, None, 0)),
        (first.cancel(MADE), ended(CANCELLED, 0)),
        (
            first.submitted(OWN, 0, Q1, Q1),
            awaiting_accept(Some(d1), 1),
        ),
        (first.submitted(OWN, 1, Q1, Q1), refuses(42)),
        (first.submitted(OWN, 0, MADE - 1, Q1), refuses(44)),
        (first.accepted(OWN, 0, Q1), refuses(42)),
        (first.arrives(Continuing, 0b1, 1, Q1), refuses(43)),
        (awaited.advance(d1), again),
        (awaited.cancel(Q1), ended(CANCELLED, 1)),
        (awaited.accepted(OWN, 0, Q1), prepared(1, 1, Some(d1), 1)),
        (awaited.accepted(OWN, 0, d1), again.refused(42)),
        (awaited.lower_failed(OWN, 0, TIMED_OUT, Q1), lost),
        (
            awaited.lower_failed(OWN, 0, TIMED_OUT, d1),
            again.refused(42),
        ),
        (
            awaited.arrives(Aborted, 0b1, 1, Q1),
            ended(peer_failed(Aborted), 1),
        ),
        (awaited.with_last_ticket(MAX).advance(d1), refuses(63)),
        (second.advance(d1), prepared(1, 1, None, 1)),
        (second.submitted(OWN, 1, Q2, d2), prepared(2, 1, None, 2)),
        (
            second.arrives(InterSegmentTimeout, 0b0, 1, Q1),
            prepared(2, 0, Some(d1), 1),
        ),
        (
            last.accepted(OWN, 2, d3 - 1),
            awaiting_response(Some(d3), 3),
        ),
        (last.arrives(Received, 0b111, 3, d3 + 1), done),
        (all.advance(d3 - 1), awaiting_response(Some(d3), 3)),
        (all.advance(d3), elapsed),
        (all.cancel(d3 - 1), ended(CANCELLED, 3)),
        (all.cancel(d3), elapsed),
        (all.arrives(Received, 0b111, 3, d3), done),
        (all.arrives(Received, 0b111, 3, d3 + 1), elapsed.refused(38)),
        (all.arrives(Continuing, 0b111, 3, d3), elapsed),
        (
            all.arrives(InterSegmentTimeout, 0b101, 3, R4),
            prepared(3, 1, Some(d3), 3),
        ),
        (
            all.arrives(CrcError, 0b111, 3, R4),
            prepared(3, 0, Some(d3), 3),
        ),
        (all.arrives(Received, 0b011, 3, R4), refuses(49)),
        (all.submitted(OWN, 2, Q3, Q3), refuses(42)),
        (all.advance(Q3 - 1), refuses(33)),
        (all.with_received(marks([3])).advance(d3), refuses(62)),
    ]
}

/// The same of a record with a planned plan. It is left as that of a frozen one, but for the plan, which stays.
fn goes_on(g: &mut Group) {
    let frozen = calls(first_offered(Exceptions), INTERVAL);
    let planned = calls(first_offered(Every4).with_window(Exceptions), INTERVAL);
    for ((sent, want), (of_frozen, _)) in planned.into_iter().zip(frozen) {
        case(g, sent, want);
        let (machine, plan) = sent.sender.halves();
        let kept = difference(plan, sent.before.halves().1);
        let machine = difference(machine, of_frozen.sender.halves().0);
        g.case((machine, kept), (None, None));
    }
}

/// Records with a plan of either planner, to each end.
fn planned_to_the_end(g: &mut Group) {
    let message = pattern(EVEN.octets, SEED);
    let even = even_at(&message, EVEN.budget, Every4);
    for (plan, message, cutting) in [
        (plan_under(Every4), &MESSAGE[..], THREE),
        (even, &message, EVEN),
    ] {
        let mut made = try_new(&plan, message, MADE);
        made.sender = made.sender.with_window(Exceptions);
        drive(g, made, &cutting.heads(TRANSACTION), Exceptions);
    }
}

pub fn corners(tally: &mut Tally) {
    tally.group("sender: frozen plans under Exceptions", frozen_plans);
    tally.group("sender: planned plans under Exceptions", planned_plans);
    let title = "sender: frozen plans under Exceptions, to their end";
    tally.group(title, to_the_end);
    tally.group("sender: each call under Exceptions", |g| {
        cases(g, calls(first_offered(Exceptions), INTERVAL))
    });
    let title = "sender: each call on a record with a planned plan under Exceptions";
    tally.group(title, goes_on);
    let title = "sender: records with a planned plan under Exceptions, to their end";
    tally.group(title, planned_to_the_end);
}
