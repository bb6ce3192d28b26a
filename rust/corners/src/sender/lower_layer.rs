//! The lower layer's word: accepted and lower_failed, tickets and sender numbers.

use super::bench::*;

impl Sender {
    fn times_out(&self, ticket: u64, monotonic_ms: u64) -> Sent {
        self.lower_failed(OWN, ticket, TIMED_OUT, monotonic_ms)
    }
}

/// accepted before the deadline offers the next segment; at it and after it advance acts first, then 42.
fn accepted(g: &mut Group) {
    let s = first_awaited(Every4);
    let e = third_awaited(Exceptions);
    let p = first_awaited(Prohibited);
    let late = prepared(1, 0, None, 1).refused(42);
    let failed = ended(SEGMENT_INTERVAL, 1).refused(42);
    let rows = [
        (s.accepted(OWN, 0, D1 - 1), prepared(1, 1, Some(D1), 1)),
        (s.accepted(OWN, 0, D1), late),
        (s.accepted(OWN, 0, D1 + 1), late),
        (e.accepted(OWN, 2, D3 - 1), awaiting_response(Some(D3), 3)),
        (e.accepted(OWN, 2, D3), prepared(3, 2, None, 3).refused(42)),
        (p.accepted(OWN, 0, D1), failed),
        (p.accepted(OWN, 0, D1 + 1), failed),
    ];
    cases(g, rows);
}

/// The same for lower_failed.
fn lower_failed(g: &mut Group) {
    let s = first_awaited(Every4);
    let p = first_awaited(Prohibited);
    let lost = ended(lower_layer_failed(TIMED_OUT), 1);
    let late = prepared(1, 0, None, 1).refused(42);
    let failed = ended(SEGMENT_INTERVAL, 1).refused(42);
    let rows = [
        (s.times_out(0, D1 - 1), lost),
        (s.times_out(0, D1), late),
        (s.times_out(0, D1 + 1), late),
        (p.times_out(0, D1 - 1), lost),
        (p.times_out(0, D1), failed),
        (p.times_out(0, D1 + 1), failed),
    ];
    cases(g, rows);
}

/// Each failure, with its cause: Rejected, TimedOut, Cancelled.
fn failures(g: &mut Group) {
    for failure in [(0, 0), (0, 255), (1, 0), (2, 0)] {
        let sent = first_awaited(Every4).lower_failed(OWN, 0, failure, Q1);
        case(g, sent, ended(lower_layer_failed(failure), 1));
    }
}

/// The last segment: under Prohibited the sender is complete, else a response is awaited.
fn last(g: &mut Group) {
    let s = third_awaited(Every4);
    let p = third_awaited(Prohibited);
    let done = ended(LOWER_LAYER_ACCEPTED, 3);
    let rows = [
        (p.advance(MAX), awaiting_accept(None, 3)),
        (p.accepted(OWN, 2, Q3), done),
        (p.accepted(OWN, 2, MAX), done),
        (s.accepted(OWN, 2, Q3), awaiting_response(Some(D3), 3)),
    ];
    cases(g, rows);
}

/// A submission that is not this one: another ticket, another sender's number. At the deadline too it is a plain 42.
fn stale_words(g: &mut Group) {
    let s = first_awaited(Every4);
    let second = second_awaited(Every4);
    let calls = [
        s.accepted(OWN, 1, Q1),
        s.accepted(FOREIGN, 0, Q1),
        s.accepted(OWN, 1, D1),
        s.accepted(FOREIGN, 0, D1),
        s.times_out(1, Q1),
        s.times_out(MAX, D1),
        s.lower_failed(FOREIGN, 0, TIMED_OUT, D1),
        second.accepted(OWN, 0, Q2),
        second.times_out(0, Q2),
    ];
    all_refuse(g, 42, calls);
}

/// accepted and lower_failed while a submission is offered or a response awaited.
fn early_words(g: &mut Group) {
    let first = first_offered(Every4);
    let second = second_offered(Prohibited);
    let all = all_accepted(Every4);
    let calls = [
        first.accepted(OWN, 0, Q1),
        first.times_out(0, Q1),
        second.accepted(OWN, 1, D1),
        second.times_out(1, D1),
        all.accepted(OWN, 2, D3),
        all.times_out(2, D3),
    ];
    all_refuse(g, 42, calls);
}

/// submitted with a submission that is not the one offered.
fn stale_offers(g: &mut Group) {
    let first = first_offered(Every4);
    let second = second_offered(Every4);
    let calls = [
        first.submitted(OWN, 1, Q1, Q1),
        first.submitted(FOREIGN, 0, Q1, Q1),
        first_awaited(Every4).submitted(OWN, 0, Q1, Q1),
        second.submitted(OWN, 0, Q1, Q1),
        second.submitted(FOREIGN, 1, D1, D1),
        all_accepted(Every4).submitted(OWN, 2, Q3, Q3),
    ];
    all_refuse(g, 42, calls);
}

/// An offer that a due deadline replaced: the old ticket is stale, the new one is taken.
fn replaced(g: &mut Group) {
    let s = first_awaited(Every4).advance(D1).sender;
    let again = s.submitted(OWN, 1, D1, D1);
    let next = again.sender;
    let deadline = Some(D1 + INTERVAL);
    let rows = [
        (s.submitted(OWN, 0, D1, D1), refuses(42)),
        (s.accepted(OWN, 0, D1), refuses(42)),
        (again, awaiting_accept(deadline, 2)),
        (next.accepted(OWN, 0, D1), refuses(42)),
        (next.accepted(OWN, 1, D1), prepared(2, 1, deadline, 2)),
    ];
    cases(g, rows);
}

pub fn corners(tally: &mut Tally) {
    tally.group("sender: accepted at the deadline", accepted);
    tally.group("sender: lower_failed at the deadline", lower_failed);
    tally.group("sender: each failure of the lower layer", failures);
    tally.group("sender: the last segment accepted", last);
    tally.group("sender: word on another submission", stale_words);
    tally.group("sender: word in another state", early_words);
    tally.group("sender: submitted with another submission", stale_offers);
    tally.group("sender: a replaced offer", replaced);
}
