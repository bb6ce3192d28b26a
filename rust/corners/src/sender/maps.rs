//! Maps: short and long ones, set and clear entries past the count, bits past the length.

use super::bench::*;

const ONES: u64 = u64::MAX;

fn waits() -> Outcome {
    awaiting_response(Some(D3), 3)
}

fn offers(index: u8) -> Outcome {
    prepared(3, index, Some(D3), 3)
}

fn done() -> Outcome {
    ended(PEER_RECEIVED, 3)
}

/// Lengths 1, 2, 3, 4 and 256, of three segments.
fn lengths(g: &mut Group) {
    let rows = [
        (0b1, 1, waits()),
        (0b0, 1, offers(0)),
        (0b01, 2, offers(1)),
        (0b111, 3, waits()),
        (0b101, 3, offers(1)),
        (0b111, 4, waits()),
        (0b111, 256, waits()),
        (0b011, 256, offers(2)),
    ];
    for (bits, entries, want) in rows {
        case(
            g,
            all_accepted(Every4).arrives(Continuing, bits, entries, R4),
            want,
        );
    }
}

/// 6/6: no entry, or more than 256.
fn no_lengths(g: &mut Group) {
    let rows = [
        (Continuing, 0),
        (Continuing, 257),
        (Continuing, 65_535),
        (Received, 0),
    ];
    for (status, entries) in rows {
        let sent = all_accepted(Every4).arrives(status, 0b111, entries, R4);
        case(g, sent, refuses_at(6, 6));
    }
}

/// Bits past the length are no entries.
fn past_the_length(g: &mut Group) {
    let s = all_accepted(Every4);
    let second = second_offered(Every4);
    let all = Response::new(Continuing, marks(0..256), 3);
    let kept = prepared(1, 1, Some(D1), 1);
    let rows = [
        (s.arrives(Continuing, ONES, 3, R4), waits()),
        (s.arrives(Continuing, ONES, 1, R4), waits()),
        (s.arrives(Continuing, ONES - 1, 1, R4), offers(0)),
        (s.arrives(Continuing, ONES - 2, 2, R4), offers(1)),
        (s.arrives(Received, ONES, 3, R4), done()),
        (s.hears(all, R4), waits()),
        (second.arrives(Continuing, ONES, 1, R4), kept),
    ];
    cases(g, rows);
}

/// 48: a set entry at a segment that was not submitted, or past the count.
fn unsubmitted(g: &mut Group) {
    let s = all_accepted(Every4);
    let second = second_offered(Every4);
    let last = Response::new(Continuing, marks([0, 1, 2, 255]), 256);
    let short = Response {
        entries: 255,
        ..last
    };
    let rows = [
        (s.arrives(Continuing, 0b1111, 4, R4), refuses(48)),
        (s.arrives(Received, 0b1111, 4, R4), refuses(48)),
        (s.hears(last, R4), refuses(48)),
        (s.hears(short, R4), waits()),
        (second.arrives(Continuing, 0b11, 2, R4), refuses(48)),
        (second.arrives(Continuing, 0b100, 3, R4), refuses(48)),
    ];
    cases(g, rows);
}

/// 49: Received where an entry is clear or a segment not submitted; a short map and clear entries past the count are fine.
fn receipts(g: &mut Group) {
    let s = all_accepted(Every4);
    let second = second_offered(Every4);
    let rows = [
        (s.arrives(Received, 0b1, 1, R4), done()),
        (s.arrives(Received, 0b11, 2, R4), done()),
        (s.arrives(Received, 0b111, 3, R4), done()),
        (s.arrives(Received, 0b111, 256, R4), done()),
        (s.arrives(Received, 0b0, 1, R4), refuses(49)),
        (s.arrives(Received, 0b011, 3, R4), refuses(49)),
        (s.arrives(Received, 0b110, 256, R4), refuses(49)),
        (second.arrives(Received, 0b1, 1, R4), refuses(49)),
        (second.arrives(Received, 0b0, 1, R4), refuses(49)),
    ];
    cases(g, rows);
}

/// Acknowledgments are overwritten: after a shorter map a due deadline asks for what it doesn't report.
fn overwritten(g: &mut Group) {
    let all = all_accepted(Every4)
        .arrives(Continuing, 0b111, 3, R4)
        .sender;
    let short = all.arrives(Continuing, 0b1, 1, R5);
    let two = all.arrives(Continuing, 0b11, 2, R5).sender;
    let rows = [
        (all.advance(D3), prepared(3, 2, None, 3)),
        (short, waits()),
        (short.sender.advance(D3), prepared(3, 1, None, 3)),
        (two.advance(D3), prepared(3, 2, None, 3)),
    ];
    cases(g, rows);
}

/// A sender of 256 segments: all of them submitted and accepted at Q3.
fn of_256() -> Sender {
    let offered = made_of(&[0xA5; 510], 5, Every4, MADE);
    (0..256).fold(offered, |s, ticket| s.taken(ticket, Q3))
}

/// Maps of 256 entries for 256 segments.
fn longest(g: &mut Group) {
    let s = of_256();
    let all = |status| s.hears(Response::new(status, marks(0..256), 256), R4);
    let but_last = |status| s.hears(Response::new(status, marks(0..255), 256), R4);
    let done = ended(PEER_RECEIVED, 256);
    let last = prepared(256, 255, Some(D3), 256);
    let rows = [
        (all(Received), done),
        (all(Continuing), awaiting_response(Some(D3), 256)),
        (but_last(Received), refuses(49)),
        (but_last(Continuing), last),
        (s.arrives(Received, 0b1, 1, R4), done),
        (all(InterSegmentTimeout), last),
        (s.advance(D3), prepared(256, 0, None, 256)),
    ];
    cases(g, rows);
}

pub fn corners(tally: &mut Tally) {
    tally.group("sender: maps shorter and longer than the count", lengths);
    tally.group("sender: maps of no length", no_lengths);
    tally.group("sender: bits past the length of a map", past_the_length);
    tally.group("sender: set entries of segments not submitted", unsubmitted);
    tally.group("sender: contradictory receipts", receipts);
    tally.group("sender: acknowledgments overwritten", overwritten);
    tally.group("sender: maps for 256 segments", longest);
}
