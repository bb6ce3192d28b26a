//! submitted: receipt times, deadlines, counters.

use super::bench::*;

/// The last queued reading whose deadline is a number of 64 bits.
const LATEST: u64 = MAX - INTERVAL;

/// 44: queued before the offer was prepared, or past what is observed.
fn receipt_times(g: &mut Group) {
    let s = second_offered(Every4);
    let rows = [
        (s.submitted(OWN, 1, Q1 - 1, Q2), refuses(44)),
        (s.submitted(OWN, 1, Q2 + 1, Q2), refuses(44)),
        (s.submitted(OWN, 1, MAX, Q2), refuses(44)),
        (s.submitted(OWN, 1, 0, D1), refuses(44)),
        (s.submitted(OWN, 1, Q1, Q2), awaiting_accept(Some(D1), 2)),
        (s.submitted(OWN, 1, Q2, Q2), awaiting_accept(Some(D2), 2)),
    ];
    cases(g, rows);
}

/// Under Prohibited a queued reading at or past the deadline: Failed(SegmentInterval), then 44. Below it the observed one decides nothing.
fn late(g: &mut Group) {
    let s = second_offered(Prohibited);
    let late = ended(SEGMENT_INTERVAL, 1).refused(44);
    let in_time = awaiting_accept(Some(D1 - 1 + INTERVAL), 2);
    let rows = [
        (s.submitted(OWN, 1, D1 - 1, D1 - 1), in_time),
        (s.submitted(OWN, 1, D1 - 1, D1), in_time),
        (s.submitted(OWN, 1, D1 - 1, D1 + 7), in_time),
        (s.submitted(OWN, 1, D1, D1), late),
        (s.submitted(OWN, 1, D1, D1 + 7), late),
        (s.submitted(OWN, 1, D1 + 1, D1 + 7), late),
        (s.submitted(OWN, 1, D1 + 8, D1 + 7), refuses(44)),
        (s.submitted(OWN, 1, Q1 - 1, D1), refuses(44)),
        (s.submitted(OWN, 0, D1, D1), refuses(42)),
    ];
    cases(g, rows);
}

/// With another window a submission at or past the deadline is counted.
fn not_late(g: &mut Group) {
    let want = awaiting_accept(Some(D1 + INTERVAL), 2);
    let s = second_offered(Every4);
    let e = second_offered(Exceptions);
    let rows = [
        (s.submitted(OWN, 1, D1, D1), want),
        (e.submitted(OWN, 1, D1, D1 + 1), want),
    ];
    cases(g, rows);
}

/// The closing advance: where the new deadline is at most what is observed it fires, and the submission is counted either way.
fn closing(g: &mut Group) {
    let s = second_offered(Every4);
    let e = second_offered(Exceptions);
    let p = second_offered(Prohibited);
    let last = third_offered(Every4);
    let waits = awaiting_accept(Some(D2), 2);
    let rows = [
        (s.submitted(OWN, 1, Q2, D2 - 1), waits),
        (s.submitted(OWN, 1, Q2, D2), prepared(2, 1, None, 2)),
        (e.submitted(OWN, 1, Q2, D2), prepared(2, 1, None, 2)),
        (p.submitted(OWN, 1, Q2, D2 - 1), waits),
        (p.submitted(OWN, 1, Q2, D2), ended(SEGMENT_INTERVAL, 2)),
        (last.submitted(OWN, 2, Q2, D2), prepared(3, 2, None, 3)),
    ];
    cases(g, rows);
}

/// Under Prohibited the last segment sets no deadline, and its deadline can't overflow.
fn prohibited_last(g: &mut Group) {
    let late = ended(SEGMENT_INTERVAL, 2).refused(44);
    let s = third_offered(Prohibited);
    let latest = made_of(&MESSAGE, BUDGET, Prohibited, LATEST)
        .taken(0, LATEST)
        .taken(1, LATEST);
    let sent = latest.submitted(OWN, 2, MAX - 1, MAX);
    let done = sent.sender.accepted(OWN, 2, MAX);
    let rows = [
        (s.submitted(OWN, 2, Q2, Q2), awaiting_accept(None, 3)),
        (s.submitted(OWN, 2, Q2, MAX), awaiting_accept(None, 3)),
        (s.submitted(OWN, 2, D2, D2), late),
        (latest.advance(LATEST), prepared(2, 2, Some(MAX), 2)),
        (sent, awaiting_accept(None, 3)),
        (latest.submitted(OWN, 2, MAX, MAX), late),
        (done, ended(LOWER_LAYER_ACCEPTED, 3)),
    ];
    cases(g, rows);
}

/// 34: a deadline past 2^64 - 1.
fn overflow(g: &mut Group) {
    let s = first_offered(Every4);
    let p = first_offered(Prohibited);
    let latest = s.submitted(OWN, 0, LATEST, LATEST);
    let waits = awaiting_accept(Some(MAX), 1);
    let again = prepared(1, 0, None, 1);
    let rows = [
        (latest, waits),
        (latest.sender.advance(MAX - 1), waits),
        (latest.sender.advance(MAX), again),
        (s.submitted(OWN, 0, LATEST, MAX), again),
        (s.submitted(OWN, 0, LATEST + 1, LATEST + 1), refuses(34)),
        (s.submitted(OWN, 0, MAX, MAX), refuses(34)),
        (p.submitted(OWN, 0, LATEST + 1, MAX), refuses(34)),
        (p.submitted(OWN, 0, LATEST, LATEST), waits),
    ];
    cases(g, rows);
}

/// 41: the submission counter at 2^64 - 1. 42, 44 and 34 come before it, and so does a late 44.
fn counter(g: &mut Group) {
    let s = first_offered(Every4).with_submissions(MAX);
    let most = first_offered(Every4).with_submissions(MAX - 1);
    let p = third_offered(Prohibited).with_submissions(MAX);
    let counted = awaiting_accept(Some(D1), MAX);
    let late = ended(SEGMENT_INTERVAL, MAX).refused(44);
    let rows = [
        (s.submitted(OWN, 0, Q1, Q1), refuses(41)),
        (s.submitted(OWN, 0, LATEST, LATEST), refuses(41)),
        (s.submitted(OWN, 0, LATEST + 1, LATEST + 1), refuses(34)),
        (s.submitted(OWN, 0, MADE - 1, Q1), refuses(44)),
        (s.submitted(OWN, 1, Q1, Q1), refuses(42)),
        (most.submitted(OWN, 0, Q1, Q1), counted),
        (p.submitted(OWN, 2, Q2, MAX), refuses(41)),
        (p.submitted(OWN, 2, D2, D2), late),
    ];
    cases(g, rows);
}

/// 33: a reading below the last one, before 42, 44 and 41; the same reading is fine.
fn clock(g: &mut Group) {
    let s = second_offered(Every4).with_submissions(MAX);
    let late = s.advance(MAX).sender;
    let rows = [
        (s.submitted(OWN, 0, 0, Q1 - 1), refuses(33)),
        (s.advance(Q1 - 1), refuses(33)),
        (s.advance(0), refuses(33)),
        (s.advance(Q1), prepared(1, 1, Some(D1), MAX)),
        (late.advance(MAX - 1), refuses(33)),
        (late.advance(MAX), prepared(1, 1, None, MAX)),
    ];
    cases(g, rows);
}

pub fn corners(tally: &mut Tally) {
    tally.group("sender: receipt times", receipt_times);
    tally.group("sender: queued at the deadline under Prohibited", late);
    tally.group("sender: queued at the deadline otherwise", not_late);
    tally.group("sender: submitted and its closing advance", closing);
    tally.group("sender: the last segment under Prohibited", prohibited_last);
    tally.group("sender: deadlines around 2^64", overflow);
    tally.group("sender: the submission counter", counter);
    tally.group("sender: readings that fall", clock);
}
