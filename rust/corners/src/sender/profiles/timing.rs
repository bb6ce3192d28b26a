//! The deadline D under each profile, queued + own interval, and what comes at it and around it.

use super::*;
use crate::dialects::WINDOWS;
use crate::profiles::{ONE, TWO};

/// Queued + own interval, whatever is observed; it stays until the next submission. Under Prohibited the last one sets none.
fn deadlines(g: &mut Group) {
    for u in each(WINDOWS) {
        let Under(_, window) = u;
        let [d1, d2, d3] = [Q1, Q2, Q3].map(|queued| u.after(queued));
        let first = u.first_offered();
        let second = u.second_offered();
        let third = u.third_offered();
        let last = (window != Prohibited).then_some(d3);
        let accepted = match window {
            Prohibited => ended(LOWER_LAYER_ACCEPTED, 3),
            _ => awaiting_response(last, 3),
        };
        let made = Some(u.after(MADE));
        let rows = [
            (first.submitted(OWN, 0, MADE, Q1), awaiting_accept(made, 1)),
            (
                first.submitted(OWN, 0, Q1, Q1),
                awaiting_accept(Some(d1), 1),
            ),
            (
                first.submitted(OWN, 0, Q1, Q3),
                awaiting_accept(Some(d1), 1),
            ),
            (
                u.first_awaited().accepted(OWN, 0, Q3),
                prepared(1, 1, Some(d1), 1),
            ),
            (
                second.submitted(OWN, 1, Q1, Q2),
                awaiting_accept(Some(d1), 2),
            ),
            (
                second.submitted(OWN, 1, Q2, Q3),
                awaiting_accept(Some(d2), 2),
            ),
            (third.advance(Q2), prepared(2, 2, Some(d2), 2)),
            (third.submitted(OWN, 2, Q3, Q3), awaiting_accept(last, 3)),
            (u.third_awaited().accepted(OWN, 2, Q3), accepted),
        ];
        cases(g, rows);
    }
}

/// Advance at D - 1, D and D + 1: with a submission at Layer 3, with one that is offered, and with none.
fn advancing(g: &mut Group) {
    for u in each(WINDOWS) {
        let Under(_, window) = u;
        let d1 = u.after(Q1);
        let awaited = u.first_awaited();
        let offered = u.second_offered();
        let again = due(window, 1, prepared(1, 0, None, 1));
        let kept = due(window, 1, prepared(1, 1, None, 1));
        let rows = [
            (awaited.advance(d1 - 1), awaiting_accept(Some(d1), 1)),
            (awaited.advance(d1), again),
            (awaited.advance(d1 + 1), again),
            (offered.advance(d1 - 1), prepared(1, 1, Some(d1), 1)),
            (offered.advance(d1), kept),
            (offered.advance(d1 + 1), kept),
        ];
        cases(g, rows);
    }
    for u in each([Every4, Every8, Every16, Last, Exceptions]) {
        let Under(_, window) = u;
        let d3 = u.after(Q3);
        let s = u.all_accepted();
        let over = match window {
            Exceptions => ended(EXCEPTION_INTERVAL_ELAPSED, 3),
            _ => prepared(3, 0, None, 3),
        };
        let rows = [
            (s.advance(d3 - 1), awaiting_response(Some(d3), 3)),
            (s.advance(d3), over),
            (s.advance(d3 + 1), over),
        ];
        cases(g, rows);
    }
}

/// Responses at D - 1, D and D + 1.
fn responses(g: &mut Group) {
    let done = ended(PEER_RECEIVED, 3);
    for u in each(ANSWERED) {
        let d = u.after(Q3);
        let s = u.all_accepted();
        let awaited = u.third_awaited();
        let again = prepared(3, 2, None, 3);
        let waits = awaiting_response(Some(d), 3);
        let received = |s: Sender, at| s.arrives(Received, 0b111, 3, at);
        let continuing = |s: Sender, at| s.arrives(Continuing, 0b111, 3, at);
        let rows = [
            (received(s, d - 1), done),
            (received(s, d), done),
            (received(s, d + 1), done),
            (received(awaited, d), done),
            (received(awaited, d + 1), done),
            (continuing(s, d - 1), waits),
            (continuing(s, d), again),
            (continuing(s, d + 1), prepared(4, 2, None, 3)),
            (continuing(awaited, d - 1), awaiting_accept(Some(d), 3)),
            (continuing(awaited, d), again),
            (continuing(awaited, d + 1), again),
            (s.arrives(InterSegmentTimeout, 0b111, 3, d), again),
            (
                s.arrives(Continuing, 0b011, 3, d - 1),
                prepared(3, 2, Some(d), 3),
            ),
            (s.arrives(Continuing, 0b011, 3, d), prepared(3, 2, None, 3)),
        ];
        cases(g, rows);
    }
}

/// Under Exceptions the sender completes at D, and a later response is refused.
fn exceptions(g: &mut Group) {
    let done = ended(PEER_RECEIVED, 3);
    let elapsed = ended(EXCEPTION_INTERVAL_ELAPSED, 3);
    for u in each([Exceptions]) {
        let d = u.after(Q3);
        let s = u.all_accepted();
        let awaited = u.third_awaited();
        let rows = [
            (s.arrives(Received, 0b111, 3, d - 1), done),
            (s.arrives(Received, 0b111, 3, d), done),
            (s.arrives(Received, 0b111, 3, d + 1), elapsed.refused(38)),
            (
                s.arrives(Continuing, 0b111, 3, d - 1),
                awaiting_response(Some(d), 3),
            ),
            (s.arrives(Continuing, 0b111, 3, d), elapsed),
            (s.arrives(Continuing, 0b111, 3, d + 1), elapsed.refused(38)),
            (awaited.arrives(Received, 0b111, 3, d + 1), done),
            (
                awaited.arrives(Continuing, 0b111, 3, d),
                prepared(3, 2, None, 3),
            ),
        ];
        cases(g, rows);
    }
}

/// accepted and lower_failed at D - 1 act; at D and D + 1 advance acts first, then 42.
fn lower_layer(g: &mut Group) {
    let lost = ended(lower_layer_failed(TIMED_OUT), 1);
    for u in each(WINDOWS) {
        let Under(_, window) = u;
        let d = u.after(Q1);
        let s = u.first_awaited();
        let late = due(window, 1, prepared(1, 0, None, 1)).refused(42);
        let rows = [
            (s.accepted(OWN, 0, d - 1), prepared(1, 1, Some(d), 1)),
            (s.accepted(OWN, 0, d), late),
            (s.accepted(OWN, 0, d + 1), late),
            (s.accepted(OWN, 1, d), refuses(42)),
            (s.lower_failed(OWN, 0, TIMED_OUT, d - 1), lost),
            (s.lower_failed(OWN, 0, TIMED_OUT, d), late),
            (s.lower_failed(OWN, 0, TIMED_OUT, d + 1), late),
        ];
        cases(g, rows);
    }
}

/// Queued at D or past it: under Prohibited Failed(SegmentInterval), then 44, of the last segment too; under another window it is counted.
fn queued(g: &mut Group) {
    for u in each(WINDOWS) {
        let Under(_, window) = u;
        let [d1, d2] = [Q1, Q2].map(|queued| u.after(queued));
        let late = |submissions, next| match window {
            Prohibited => ended(SEGMENT_INTERVAL, submissions).refused(44),
            _ => awaiting_accept(next, submissions + 1),
        };
        let last = |queued| (window != Prohibited).then_some(u.after(queued));
        let in_time = awaiting_accept(Some(u.after(d1 - 1)), 2);
        let s = u.second_offered();
        let third = u.third_offered();
        let rows = [
            (s.submitted(OWN, 1, d1 - 1, d1 - 1), in_time),
            (s.submitted(OWN, 1, d1 - 1, d1 + 7), in_time),
            (s.submitted(OWN, 1, d1, d1), late(1, Some(u.after(d1)))),
            (s.submitted(OWN, 1, d1, d1 + 7), late(1, Some(u.after(d1)))),
            (
                s.submitted(OWN, 1, d1 + 1, d1 + 7),
                late(1, Some(u.after(d1 + 1))),
            ),
            (s.submitted(OWN, 1, d1 + 8, d1 + 7), refuses(44)),
            (s.submitted(OWN, 0, d1, d1), refuses(42)),
            (
                third.submitted(OWN, 2, d2 - 1, d2),
                awaiting_accept(last(d2 - 1), 3),
            ),
            (third.submitted(OWN, 2, d2, d2), late(2, last(d2))),
        ];
        cases(g, rows);
    }
}

/// The closing advance of submitted, where the new deadline is at most what is observed.
fn closing(g: &mut Group) {
    for u in each(WINDOWS) {
        let Under(_, window) = u;
        let [d1, d2] = [Q1, Q2].map(|queued| u.after(queued));
        let first = u.first_offered();
        let second = u.second_offered();
        let again = due(window, 1, prepared(1, 0, None, 1));
        let once_more = due(window, 2, prepared(2, 1, None, 2));
        let rows = [
            (
                first.submitted(OWN, 0, Q1, d1 - 1),
                awaiting_accept(Some(d1), 1),
            ),
            (first.submitted(OWN, 0, Q1, d1), again),
            (first.submitted(OWN, 0, Q1, MAX), again),
            (
                second.submitted(OWN, 1, Q2, d2 - 1),
                awaiting_accept(Some(d2), 2),
            ),
            (second.submitted(OWN, 1, Q2, d2), once_more),
        ];
        cases(g, rows);
    }
}

/// cancel lets a due deadline act first: what that closes stays so.
fn canceling(g: &mut Group) {
    for u in each(WINDOWS) {
        let Under(_, window) = u;
        let [d1, d3] = [Q1, Q3].map(|queued| u.after(queued));
        let s = u.second_offered();
        let cancelled = due(window, 1, ended(CANCELLED, 1));
        let all = u.all_accepted();
        let (before, at) = match window {
            Prohibited => (LOWER_LAYER_ACCEPTED, LOWER_LAYER_ACCEPTED),
            Exceptions => (CANCELLED, EXCEPTION_INTERVAL_ELAPSED),
            _ => (CANCELLED, CANCELLED),
        };
        let rows = [
            (s.cancel(d1 - 1), ended(CANCELLED, 1)),
            (s.cancel(d1), cancelled),
            (all.cancel(d3 - 1), ended(before, 3)),
            (all.cancel(d3), ended(at, 3)),
        ];
        cases(g, rows);
    }
}

/// Every interval there is, after the queued reading and around it: those of the other profile and of receivers are none of the sender's.
fn of_others(g: &mut Group) {
    let elapsed = ended(EXCEPTION_INTERVAL_ELAPSED, 3);
    for profile in BOTH {
        let asks = Under(profile, Every4);
        let fails = Under(profile, Prohibited);
        let completes = Under(profile, Exceptions);
        for interval in [ONE.receiver, ONE.sender, TWO.receiver, TWO.sender] {
            for after in [interval - 1, interval, interval + 1] {
                let is_due = after >= profile.sender;
                let is_late = after > profile.sender;
                let pick = |due, otherwise| if is_due { due } else { otherwise };
                let d1 = Some(asks.after(Q1));
                let d3 = Some(asks.after(Q3));
                let next = Some(asks.after(Q1 + after));
                let failed = ended(SEGMENT_INTERVAL, 1);
                let heard = if is_late {
                    elapsed.refused(38)
                } else {
                    ended(PEER_RECEIVED, 3)
                };
                let rows = [
                    (
                        asks.all_accepted().advance(Q3 + after),
                        pick(prepared(3, 0, None, 3), awaiting_response(d3, 3)),
                    ),
                    (
                        asks.first_awaited().accepted(OWN, 0, Q1 + after),
                        pick(prepared(1, 0, None, 1).refused(42), prepared(1, 1, d1, 1)),
                    ),
                    (
                        fails.second_offered().advance(Q1 + after),
                        pick(failed, prepared(1, 1, d1, 1)),
                    ),
                    (
                        fails
                            .second_offered()
                            .submitted(OWN, 1, Q1 + after, Q1 + after),
                        pick(failed.refused(44), awaiting_accept(next, 2)),
                    ),
                    (
                        completes.all_accepted().advance(Q3 + after),
                        pick(elapsed, awaiting_response(d3, 3)),
                    ),
                    (
                        completes
                            .all_accepted()
                            .arrives(Received, 0b111, 3, Q3 + after),
                        heard,
                    ),
                ];
                cases(g, rows);
            }
        }
    }
}

pub fn corners(tally: &mut Tally) {
    tally.group("profiles: senders, deadlines", deadlines);
    let title = "profiles: senders, advance before, at and past the deadline";
    tally.group(title, advancing);
    tally.group("profiles: senders, responses at the deadline", responses);
    let title = "profiles: senders, the same under Exceptions";
    tally.group(title, exceptions);
    let title = "profiles: senders, accepted and lower_failed at the deadline";
    tally.group(title, lower_layer);
    tally.group("profiles: senders, queued at the deadline", queued);
    let title = "profiles: senders, submitted and its closing advance";
    tally.group(title, closing);
    tally.group("profiles: senders, cancel at the deadline", canceling);
    tally.group("profiles: senders, the intervals of others", of_others);
}
