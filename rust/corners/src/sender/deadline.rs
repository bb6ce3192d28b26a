//! What a deadline does before its reading, at it and after it.

use super::bench::*;

/// Responses that acknowledge all three segments.
impl Sender {
    fn all_received(&self, monotonic_ms: u64) -> Sent {
        self.arrives(Received, 0b111, 3, monotonic_ms)
    }

    fn all_continuing(&self, monotonic_ms: u64) -> Sent {
        self.arrives(Continuing, 0b111, 3, monotonic_ms)
    }
}

fn elapsed() -> Outcome {
    ended(EXCEPTION_INTERVAL_ELAPSED, 3)
}

/// At exactly the deadline a Received response completes, and so does a late one, unless advance has closed the sender.
fn received(g: &mut Group) {
    let s = all_accepted(Every4);
    let e = all_accepted(Exceptions);
    let done = ended(PEER_RECEIVED, 3);
    let rows = [
        (s.all_received(D3 - 1), done),
        (s.all_received(D3), done),
        (s.all_received(D3 + 1), done),
        (e.all_received(D3), done),
        (e.all_received(D3 + 1), elapsed().refused(38)),
        (third_awaited(Every4).all_received(D3), done),
        (third_awaited(Every4).all_received(D3 + 1), done),
        (third_awaited(Exceptions).all_received(D3 + 1), done),
    ];
    cases(g, rows);
}

/// At the deadline, in AwaitingResponse, a Continuing response that acknowledges everything is processed, then the closing advance
/// prepares the last segment again. Late, advance comes first, and with no deadline left the last segment is asked for once more.
fn continuing(g: &mut Group) {
    let s = all_accepted(Every4);
    let again = prepared(3, 2, None, 3);
    let rows = [
        (s.all_continuing(D3 - 1), awaiting_response(Some(D3), 3)),
        (s.all_continuing(D3), again),
        (s.all_continuing(D3 + 1), prepared(4, 2, None, 3)),
        (third_awaited(Every4).all_continuing(D3), again),
        (third_awaited(Every4).all_continuing(D3 + 1), again),
        (s.arrives(InterSegmentTimeout, 0b111, 3, D3), again),
    ];
    cases(g, rows);
}

/// Under Exceptions the closing advance completes instead, also where the response took an offer back; not in AwaitingAccept.
fn exceptions(g: &mut Group) {
    let s = all_accepted(Exceptions);
    let awaited = third_awaited(Exceptions);
    let missing = s.arrives(Continuing, 0b011, 3, R4);
    let awaits = awaiting_response(Some(D3), 3);
    let rows = [
        (s.all_continuing(D3 - 1), awaits),
        (s.all_continuing(D3), elapsed()),
        (s.all_continuing(D3 + 1), elapsed().refused(38)),
        (missing, prepared(3, 2, Some(D3), 3)),
        (missing.sender.all_continuing(D3 - 1), awaits),
        (missing.sender.all_continuing(D3), elapsed()),
        (awaited.all_continuing(D3), prepared(3, 2, None, 3)),
    ];
    cases(g, rows);
}

/// advance with no submission: all that are not acknowledged, or the last; under Exceptions the sender completes.
fn advance_without(g: &mut Group) {
    let s = all_accepted(Every4);
    let first = s.arrives(Continuing, 0b1, 1, R4).sender;
    let all = s.all_continuing(R4).sender;
    let e = all_accepted(Exceptions);
    let awaits = awaiting_response(Some(D3), 3);
    let rows = [
        (s.advance(D3 - 1), awaits),
        (s.advance(D3), prepared(3, 0, None, 3)),
        (s.advance(D3 + 1), prepared(3, 0, None, 3)),
        (first.advance(D3), prepared(3, 1, None, 3)),
        (all.advance(D3), prepared(3, 2, None, 3)),
        (e.advance(D3 - 1), awaits),
        (e.advance(D3), elapsed()),
    ];
    cases(g, rows);
}

/// Under Exceptions something pending decides only in a record made by hand: then all are asked for again.
fn pending(g: &mut Group) {
    let s = all_accepted(Exceptions).with_retry(marks([1]));
    let rows = [
        (s.advance(D3 - 1), awaiting_response(Some(D3), 3)),
        (s.advance(D3), prepared(3, 0, None, 3)),
    ];
    cases(g, rows);
}

/// advance with a submission: that segment alone is asked for again, and an offer of it is retained.
fn advance_with(g: &mut Group) {
    let kept = second_offered(Every4).advance(D1);
    let next = kept.sender.taken(1, D1);
    let e = second_offered(Exceptions);
    let rows = [
        (first_awaited(Every4).advance(D1), prepared(1, 0, None, 1)),
        (second_awaited(Every4).advance(D2), prepared(2, 1, None, 2)),
        (kept, prepared(1, 1, None, 1)),
        (next.advance(D1), prepared(2, 2, Some(D1 + INTERVAL), 2)),
        (e.advance(D1), prepared(1, 1, None, 1)),
        (first_offered(Every4).advance(MAX), prepared(0, 0, None, 0)),
    ];
    cases(g, rows);
}

/// Under Prohibited a due deadline fails the sender.
fn prohibited(g: &mut Group) {
    let s = second_offered(Prohibited);
    let late = ended(SEGMENT_INTERVAL, 1);
    let rows = [
        (s.advance(D1 - 1), prepared(1, 1, Some(D1), 1)),
        (s.advance(D1), late),
        (s.advance(D1 + 1), late),
        (first_awaited(Prohibited).advance(D1), late),
    ];
    cases(g, rows);
}

/// Every8, Every16 and Last are as Every4 to the sender.
fn other_windows(g: &mut Group) {
    for window in [Every8, Every16, Last] {
        let s = all_accepted(window);
        let rows = [
            (s.advance(D3 - 1), awaiting_response(Some(D3), 3)),
            (s.advance(D3), prepared(3, 0, None, 3)),
            (s.all_continuing(D3), prepared(3, 2, None, 3)),
            (s.all_received(D3), ended(PEER_RECEIVED, 3)),
        ];
        cases(g, rows);
    }
}

pub fn corners(tally: &mut Tally) {
    tally.group("sender: Received at the deadline", received);
    tally.group("sender: Continuing at the deadline", continuing);
    tally.group("sender: the same under Exceptions", exceptions);
    tally.group("sender: advance with no submission", advance_without);
    tally.group("sender: Exceptions with something pending", pending);
    tally.group("sender: advance with a submission", advance_with);
    tally.group("sender: the other windows", other_windows);
    tally.group("sender: advance under Prohibited", prohibited);
}
