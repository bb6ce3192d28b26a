//! 62: records that no call leaves, with one clause broken at a time, in each call.

use super::bench::*;

/// Every call, at a reading that the clock allows and at one that it doesn't: 62 comes before 33.
pub fn each_call<const N: usize>(g: &mut Group, records: [Sender; N]) {
    for s in records {
        for reading in [D1, 0] {
            let calls = [
                s.advance(reading),
                s.cancel(reading),
                s.submitted(OWN, 0, reading, reading),
                s.accepted(OWN, 0, reading),
                s.lower_failed(OWN, 0, TIMED_OUT, reading),
                s.arrives(Continuing, 0b1, 1, reading),
            ];
            all_refuse(g, 62, calls);
        }
    }
}

/// The count is not 2 to 256, in a planned and in a frozen record.
fn counts(g: &mut Group) {
    let planned = first_offered(Every4);
    each_call(g, [0, 1, 257, MAX].map(|count| planned.with_count(count)));
    each_call(g, [1, 257].map(|count| frozen_offered().with_count(count)));
}

/// A submission is missing in Prepared and AwaitingAccept, or present in another state.
fn submissions(g: &mut Group) {
    let s = first_awaited(Every4).with_deadline(None);
    let records = [
        first_offered(Every4).without_submission(),
        first_awaited(Every4).without_submission(),
        all_accepted(Every4).with_index(0),
        s.with_state(PEER_RECEIVED),
        s.with_state(SEGMENT_INTERVAL),
        s.with_state(CANCELLED),
    ];
    each_call(g, records);
}

/// A submission's index is not below the count.
fn indices(g: &mut Group) {
    for s in [first_offered(Every4), first_awaited(Every4)] {
        each_call(g, [3, 255].map(|index| s.with_index(index)));
    }
}

/// A mark at or past the count, in each of the three maps.
fn past_count(g: &mut Group) {
    let s = first_awaited(Every4);
    let records = [
        s.with_submitted(marks([0, 3])),
        s.with_submitted(marks([0, 255])),
        s.with_retry(marks([3])),
        s.with_retry(marks([255])),
        s.with_received(marks([3])),
        s.with_received(marks([255])),
        s.with_received(marks(0..256)),
    ];
    each_call(g, records);
}

/// A deadline when closed.
fn deadlines(g: &mut Group) {
    let rows = [
        (PEER_RECEIVED, D3),
        (peer_failed(Aborted), 0),
        (CANCELLED, MAX),
    ];
    let closed = |(state, at)| {
        let s = all_accepted(Every4).closed(state);
        s.with_deadline(Some(at))
    };
    each_call(g, rows.map(closed));
}

/// Next to each clause: records that a call takes.
fn possible(g: &mut Group) {
    let s = first_offered(Every4);
    let offered = prepared(0, 0, None, 0);
    let all = marks(0..3);
    let marked = third_awaited(Every4).with_received(all).with_retry(all);
    let ahead = second_offered(Every4).with_received(marks([2]));
    let timeless = all_accepted(Every4).with_deadline(None);
    let rows = [
        (s.with_count(2).advance(MADE), offered),
        (s.with_count(256).advance(MADE), offered),
        (frozen_offered().advance(MADE), offered),
        (s.with_index(2).advance(MADE), prepared(0, 2, None, 0)),
        (marked.advance(D1), awaiting_accept(Some(D3), 3)),
        (ahead.advance(Q1), prepared(1, 1, Some(D1), 1)),
        (timeless.advance(MAX), awaiting_response(None, 3)),
    ];
    cases(g, rows);
}

pub fn corners(tally: &mut Tally) {
    tally.group("sender: impossible counts", counts);
    tally.group("sender: submissions missing or present", submissions);
    tally.group("sender: indices past the count", indices);
    tally.group("sender: marks past the count", past_count);
    tally.group("sender: deadlines when closed", deadlines);
    tally.group("sender: records next to the impossible", possible);
}
