//! Offers that are retained, replaced and taken back.

use super::bench::*;

/// A reading after Q1.
const R1: u64 = 1_500;

/// A retained offer keeps its ticket and its prepared reading, so that queued may lie below the last reading.
fn retained(g: &mut Group) {
    let kept = second_offered(Every4).arrives(Continuing, 0b1, 1, R1);
    let s = kept.sender;
    let due = s.advance(D1).sender;
    let late = awaiting_accept(Some(D1 + 1), 2);
    let rows = [
        (kept, prepared(1, 1, Some(D1), 1)),
        (s.submitted(OWN, 1, Q1 - 1, R1), refuses(44)),
        (s.submitted(OWN, 1, Q1, R1 - 1), refuses(33)),
        (s.submitted(OWN, 1, Q1, R1), awaiting_accept(Some(D1), 2)),
        (due.advance(D1), prepared(1, 1, None, 1)),
        (due.submitted(OWN, 1, Q1 - 1, D1), refuses(44)),
        (due.submitted(OWN, 1, Q1 + 1, D1), late),
    ];
    cases(g, rows);
}

/// Another lowest index: a new ticket and this call's reading.
fn replaced(g: &mut Group) {
    let other = second_offered(Every4).arrives(Continuing, 0b0, 1, R1);
    let s = other.sender;
    let sent = s.submitted(OWN, 2, R1, R1);
    let next = sent.sender.accepted(OWN, 2, R1);
    let deadline = Some(R1 + INTERVAL);
    let rows = [
        (other, prepared(2, 0, Some(D1), 1)),
        (s.submitted(OWN, 1, R1, R1), refuses(42)),
        (s.submitted(OWN, 2, R1 - 1, R1), refuses(44)),
        (sent, awaiting_accept(deadline, 2)),
        (next, prepared(3, 1, deadline, 2)),
    ];
    cases(g, rows);
}

/// A response takes an offer back, with no ticket used.
fn taken_back(g: &mut Group) {
    let missing = all_accepted(Every4).arrives(Continuing, 0b011, 3, R4);
    let back = missing.sender.arrives(Continuing, 0b111, 3, R5);
    let s = back.sender;
    let again = s.arrives(Continuing, 0b101, 3, R6);
    let rows = [
        (missing, prepared(3, 2, Some(D3), 3)),
        (back, awaiting_response(Some(D3), 3)),
        (s.submitted(OWN, 3, R5, R5), refuses(42)),
        (again, prepared(4, 1, Some(D3), 3)),
    ];
    cases(g, rows);
}

/// In AwaitingAccept a response only marks; the next offer comes with accepted, under the next ticket.
fn marked(g: &mut Group) {
    for (bits, next) in [(0b0, 0), (0b1, 1)] {
        let heard = first_awaited(Every4).arrives(Continuing, bits, 1, R1);
        let offers = heard.sender.accepted(OWN, 0, R1);
        case(g, heard, awaiting_accept(Some(D1), 1));
        case(g, offers, prepared(1, next, Some(D1), 1));
    }
}

pub fn corners(tally: &mut Tally) {
    tally.group("sender: a retained offer", retained);
    tally.group("sender: an offer of another segment", replaced);
    tally.group("sender: an offer taken back", taken_back);
    tally.group("sender: a response in AwaitingAccept", marked);
}
