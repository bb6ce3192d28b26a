//! The reaction to each of the 14 statuses, in each open state, and what it leaves for later.

use super::bench::*;

const STATUSES: u8 = 14;

/// In AwaitingResponse: segment 2 again, or after a CrcError all of them.
fn awaiting_response_to(status: Status) -> Outcome {
    match status {
        Continuing | InterSegmentTimeout => prepared(3, 2, Some(D3), 3),
        Received => ended(PEER_RECEIVED, 3),
        CrcError => prepared(3, 0, Some(D3), 3),
        _ => ended(peer_failed(status), 3),
    }
}

/// In AwaitingAccept nothing is offered.
fn awaiting_accept_to(status: Status) -> Outcome {
    match status {
        Continuing | InterSegmentTimeout | CrcError => awaiting_accept(Some(D3), 3),
        Received => ended(PEER_RECEIVED, 3),
        _ => ended(peer_failed(status), 3),
    }
}

/// In Prepared with segment 1 offered, and segment 0 acknowledged by the map.
fn prepared_to(status: Status) -> Outcome {
    match status {
        Continuing | InterSegmentTimeout => prepared(1, 1, Some(D1), 1),
        Received => prepared(1, 1, Some(D1), 1).refused(49),
        CrcError => prepared(2, 0, Some(D1), 1),
        _ => ended(peer_failed(status), 1),
    }
}

/// The map: with Received all three, else segment 2 is missing; in Prepared segment 0 alone.
fn each_status(g: &mut Group) {
    for status in (0..STATUSES).filter_map(Status::from_number) {
        let bits = if status == Received { 0b111 } else { 0b011 };
        let sent = all_accepted(Every4).arrives(status, bits, 3, R4);
        case(g, sent, awaiting_response_to(status));
        let sent = third_awaited(Every4).arrives(status, bits, 3, R4);
        case(g, sent, awaiting_accept_to(status));
        let sent = second_offered(Every4).arrives(status, 0b1, 1, Q1);
        case(g, sent, prepared_to(status));
    }
}

/// Continuing leaves the segments that the map doesn't report; InterSegmentTimeout asks for them; CrcError asks for all that were
/// submitted. A response in AwaitingAccept leaves it for accepted.
fn unreported(g: &mut Group) {
    let rows = [
        (Continuing, 0b1, 1, awaiting_response(Some(D3), 3)),
        (Continuing, 0b01, 2, prepared(3, 1, Some(D3), 3)),
        (Continuing, 0b011, 3, prepared(3, 2, Some(D3), 3)),
        (InterSegmentTimeout, 0b1, 1, prepared(3, 1, Some(D3), 3)),
        (InterSegmentTimeout, 0b111, 3, prepared(3, 2, Some(D3), 3)),
        (CrcError, 0b111, 3, prepared(3, 0, Some(D3), 3)),
    ];
    for (status, bits, entries, want) in rows {
        let s = third_awaited(Every4).arrives(status, bits, entries, Q3);
        case(g, s.sender.accepted(OWN, 2, Q3), want);
    }
}

/// With nothing pending and no deadline, a Continuing response asks for the last segment; with a deadline it does not.
fn last_again(g: &mut Group) {
    let s = all_accepted(Every4);
    let waits = s.arrives(Continuing, 0b1, 1, R4);
    let timeout = s.arrives(InterSegmentTimeout, 0b111, 3, R4);
    let fired = s.advance(D3).sender;
    let all = fired.arrives(Continuing, 0b111, 3, D3);
    let kept = all.sender.arrives(Continuing, 0b111, 3, D3);
    let rows = [
        (waits, awaiting_response(Some(D3), 3)),
        (timeout, prepared(3, 2, Some(D3), 3)),
        (all, prepared(4, 2, None, 3)),
        (kept, prepared(4, 2, None, 3)),
    ];
    cases(g, rows);
}

/// CrcError clears acknowledgments, so that a due deadline asks for segment 0 once more; without it the last one is asked for.
fn crc_error(g: &mut Group) {
    let all = all_accepted(Every4)
        .arrives(Continuing, 0b111, 3, R4)
        .sender;
    let crc = all.arrives(CrcError, 0b111, 3, R5);
    let again = crc.sender.taken(3, R6).taken(4, R6).taken(5, R6);
    let deadline = R6 + INTERVAL;
    let waits = awaiting_response(Some(deadline), 6);
    let one = second_offered(Every4).arrives(CrcError, 0b1, 1, Q1).sender;
    let next = one.taken(2, Q1);
    let rows = [
        (crc, prepared(3, 0, Some(D3), 3)),
        (again.advance(deadline - 1), waits),
        (again.advance(deadline), prepared(6, 0, None, 6)),
        (all.advance(D3), prepared(3, 2, None, 3)),
        (next.advance(Q1), prepared(3, 1, Some(D1), 2)),
    ];
    cases(g, rows);
}

/// A support list: 1 below version 5, 6/7 with another status than MultipleServicesUnsupported.
fn support_lists(g: &mut Group) {
    let only = MultipleServicesUnsupported;
    let want = ended(peer_failed(only), 3);
    let listed = |s: Sender, status| {
        let plain = Response::new(status, marks(0..3), 3);
        let support = Some([0, 1, 1, 0]);
        s.hears(Response { support, ..plain }, R4)
    };
    let s = all_accepted(Every4);
    let fourth = s.with_version(4);
    let rows = [
        (listed(s, only), want),
        (listed(s.with_version(255), only), want),
        (listed(s, Received), refuses_at(6, 7)),
        (listed(s, Continuing), refuses_at(6, 7)),
        (listed(fourth, only), refuses(1)),
        (listed(fourth, Received), refuses(1)),
        (fourth.arrives(only, 0b111, 3, R4), want),
    ];
    cases(g, rows);
}

pub fn corners(tally: &mut Tally) {
    tally.group("sender: each status in each open state", each_status);
    tally.group("sender: support lists", support_lists);
    tally.group("sender: segments that a map doesn't report", unreported);
    tally.group("sender: the last segment asked for again", last_again);
    tally.group("sender: CrcError", crc_error);
}
