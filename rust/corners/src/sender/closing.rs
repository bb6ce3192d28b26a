//! cancel, and calls on closed senders.

use super::bench::*;

/// cancel on an open sender: advance acts first, and what it closes stays so.
fn open(g: &mut Group) {
    let s = first_offered(Every4);
    let e = all_accepted(Exceptions);
    let p = second_offered(Prohibited);
    let rows = [
        (s.cancel(MADE - 1), refuses(33)),
        (s.cancel(MADE), ended(CANCELLED, 0)),
        (first_awaited(Every4).cancel(Q1), ended(CANCELLED, 1)),
        (all_accepted(Every4).cancel(D3 - 1), ended(CANCELLED, 3)),
        (all_accepted(Every4).cancel(D3), ended(CANCELLED, 3)),
        (e.cancel(D3 - 1), ended(CANCELLED, 3)),
        (e.cancel(D3), ended(EXCEPTION_INTERVAL_ELAPSED, 3)),
        (p.cancel(D1 - 1), ended(CANCELLED, 1)),
        (p.cancel(D1), ended(SEGMENT_INTERVAL, 1)),
    ];
    cases(g, rows);
}

/// A closed sender: cancel and advance answer its state and take the reading; the other calls are refused.
fn closed_states(g: &mut Group) {
    let states = [
        LOWER_LAYER_ACCEPTED,
        PEER_RECEIVED,
        EXCEPTION_INTERVAL_ELAPSED,
        SEGMENT_INTERVAL,
        lower_layer_failed((0, 9)),
        peer_failed(Aborted),
        CANCELLED,
    ];
    for state in states {
        let s = all_accepted(Every4).closed(state);
        let rows = [
            (s.cancel(Q3), ended(state, 3)),
            (s.cancel(MAX), ended(state, 3)),
            (s.advance(MAX), ended(state, 3)),
            (s.submitted(OWN, 2, Q3, Q3), refuses(38)),
            (s.accepted(OWN, 2, D3), refuses(38)),
            (s.lower_failed(OWN, 2, TIMED_OUT, Q3), refuses(38)),
            (s.arrives(Received, 0b111, 3, Q3), refuses(38)),
        ];
        cases(g, rows);
    }
}

/// 33 before 38, and the reading that advance and cancel took.
fn readings(g: &mut Group) {
    let s = all_accepted(Every4).closed(CANCELLED);
    let advanced = s.advance(D3).sender;
    let twice = advanced.cancel(D3 + 1).sender;
    let rows = [
        (s.submitted(OWN, 2, Q3 - 1, Q3 - 1), refuses(33)),
        (s.accepted(OWN, 2, Q3 - 1), refuses(33)),
        (s.arrives(Received, 0b111, 3, Q3 - 1), refuses(33)),
        (advanced.cancel(D3 - 1), refuses(33)),
        (twice.advance(D3), refuses(33)),
        (twice.advance(D3 + 1), ended(CANCELLED, 3)),
    ];
    cases(g, rows);
}

pub fn corners(tally: &mut Tally) {
    tally.group("sender: cancel", open);
    tally.group("sender: calls on a closed sender", closed_states);
    tally.group("sender: readings of a closed sender", readings);
}
