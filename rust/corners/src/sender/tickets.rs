//! 63: a new submission would need ticket 2^64. It replaces the call's outcome and changes nothing.

use super::bench::*;

/// The last ticket has been given.
fn used_up(s: Sender) -> Sender {
    s.with_last_ticket(MAX)
}

/// Calls that need a new submission, but for responses.
fn refused(g: &mut Group) {
    let all = used_up(all_accepted(Every4));
    let first = used_up(first_awaited(Every4));
    let second = used_up(second_offered(Every4));
    let calls = [
        all.advance(D3),
        all.cancel(D3),
        first.advance(D1),
        first.cancel(D1),
        first.accepted(OWN, 0, Q1),
        first.accepted(OWN, 0, D1),
        first.lower_failed(OWN, 0, TIMED_OUT, D1),
        second.submitted(OWN, 1, Q2, D2),
    ];
    all_refuse(g, 63, calls);
}

/// Responses that need one: to offer, by the closing advance, by a late advance.
fn responses(g: &mut Group) {
    let s = used_up(all_accepted(Every4));
    let awaited = used_up(third_awaited(Every4));
    let calls = [
        s.arrives(Continuing, 0b011, 3, R4),
        s.arrives(InterSegmentTimeout, 0b111, 3, R4),
        s.arrives(CrcError, 0b111, 3, R4),
        s.arrives(Continuing, 0b111, 3, D3),
        s.arrives(Received, 0b111, 3, D3 + 1),
        awaited.arrives(Continuing, 0b111, 3, D3),
    ];
    all_refuse(g, 63, calls);
}

/// Calls that need none go on.
fn not_needed(g: &mut Group) {
    let s = used_up(second_offered(Every4));
    let first = used_up(first_awaited(Every4));
    let p = used_up(first_awaited(Prohibited));
    let last = used_up(third_awaited(Every4));
    let e = used_up(all_accepted(Exceptions));
    let lost = ended(lower_layer_failed(TIMED_OUT), 1);
    let late = ended(SEGMENT_INTERVAL, 1);
    let rows = [
        (s.advance(D1), prepared(1, 1, None, 1)),
        (s.submitted(OWN, 1, Q2, Q2), awaiting_accept(Some(D2), 2)),
        (first.lower_failed(OWN, 0, TIMED_OUT, D1 - 1), lost),
        (p.advance(D1), late),
        (p.lower_failed(OWN, 0, TIMED_OUT, D1), late.refused(42)),
        (last.accepted(OWN, 2, Q3), awaiting_response(Some(D3), 3)),
        (e.cancel(D3), ended(EXCEPTION_INTERVAL_ELAPSED, 3)),
    ];
    cases(g, rows);
}

/// The same, for responses and a cancel before the deadline.
fn not_needed_by_responses(g: &mut Group) {
    let s = used_up(all_accepted(Every4));
    let awaited = used_up(third_awaited(Every4));
    let aborted = ended(peer_failed(Aborted), 3);
    let waits = awaiting_response(Some(D3), 3);
    let marked = awaiting_accept(Some(D3), 3);
    let rows = [
        (s.cancel(D3 - 1), ended(CANCELLED, 3)),
        (s.arrives(Received, 0b111, 3, D3), ended(PEER_RECEIVED, 3)),
        (s.arrives(Aborted, 0b111, 3, D3), aborted),
        (s.arrives(Continuing, 0b111, 3, R4), waits),
        (awaited.arrives(CrcError, 0b111, 3, R4), marked),
    ];
    cases(g, rows);
}

/// The last ticket but one; and a call that makes two submissions, of which the answer shows the second.
fn last_ones(g: &mut Group) {
    let offered = first_awaited(Every4)
        .with_last_ticket(MAX - 1)
        .accepted(OWN, 0, Q1);
    let next = offered.sender.submitted(OWN, MAX, Q1, Q1);
    let late = |last_ticket| {
        let s = all_accepted(Every4).with_last_ticket(last_ticket);
        s.arrives(Continuing, 0b111, 3, D3 + 1)
    };
    let rows = [
        (offered, prepared(MAX, 1, Some(D1), 1)),
        (next, awaiting_accept(Some(D1), 2)),
        (late(MAX - 2), prepared(MAX, 2, None, 3)),
        (late(MAX - 1), refuses(63)),
    ];
    cases(g, rows);
}

/// 33 and the other refusals come before it.
fn order(g: &mut Group) {
    let all = used_up(all_accepted(Every4));
    let first = used_up(first_awaited(Every4));
    let rows = [
        (all.advance(Q3 - 1), refuses(33)),
        (all.arrives(Received, 0b011, 3, D3 + 1), refuses(49)),
        (first.accepted(OWN, 1, D1), refuses(42)),
        (first.submitted(OWN, 0, D1, D1), refuses(42)),
    ];
    cases(g, rows);
}

pub fn corners(tally: &mut Tally) {
    tally.group("sender: tickets used up", refused);
    tally.group("sender: tickets used up, responses", responses);
    tally.group("sender: tickets used up, none needed", not_needed);
    tally.group(
        "sender: tickets used up, none needed by a response",
        not_needed_by_responses,
    );
    tally.group("sender: the last tickets", last_ones);
    tally.group("sender: refusals before the tickets'", order);
}
