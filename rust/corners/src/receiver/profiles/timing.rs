//! The deadline D under each profile: reading + own interval after a segment and after a repeat; advance and receive around it; and 34, around the
//! last reading from which it is a number of 64 bits.

use super::super::windows::trains;
use super::*;
use crate::profiles::{ONE, TWO};

/// Whether the reception expires under a window.
fn silent(window: Services) -> bool {
    SILENT.contains(&window)
}

/// What an advance has to do where the deadline is due: expire the reception, or ask for what is missing.
fn due(call: Call, window: Services, entries: u16, marks: u64) -> Row {
    if silent(window) {
        call.lapses()
    } else {
        call.asks().map(entries, marks)
    }
}

/// What a receive has to do past the deadline: 38 and the reception has expired, or 37 and nothing.
fn late(call: Call, window: Services) -> Row {
    if silent(window) {
        call.expires()
    } else {
        call.refused(37)
    }
}

fn windows() -> impl Iterator<Item = Services> {
    SILENT.into_iter().chain(ASKING)
}

/// Advance at D - 1, D and D + 1.
fn advancing(g: &mut Group) {
    for window in windows() {
        let first = begin(window, 2, AT).holds();
        each_profile(g, |p| {
            let d = deadline(p, AT);
            let [before, at] = [d - 1, d].map(advance);
            [first, before.waits(), due(at, window, 2, 0b1), at.waits()]
        });
        each_profile(g, |p| {
            let past = advance(deadline(p, AT) + 1);
            [first, due(past, window, 2, 0b1)]
        });
    }
}

/// After a timeout answer no deadline runs, and the next segment sets one.
fn asking_again(g: &mut Group) {
    for window in ASKING {
        each_profile(g, |p| {
            let d = deadline(p, AT);
            let again = d + 900_000;
            let next = deadline(p, again);
            [
                begin(window, 2, AT).holds(),
                advance(d).asks().map(2, 0b1),
                advance(again).waits(),
                later(1, 2, again).holds(),
                advance(next - 1).waits(),
                advance(next).asks().map(3, 0b11),
            ]
        });
    }
}

/// A segment at D is taken, and sets a deadline of its own.
fn taken(g: &mut Group) {
    for window in windows() {
        each_profile(g, |p| {
            let d = deadline(p, AT);
            let next = deadline(p, d);
            [
                begin(window, 2, AT).holds(),
                later(1, 2, d).holds(),
                advance(next - 1).waits(),
                due(advance(next), window, 3, 0b11),
            ]
        });
    }
}

/// At D + 1 none is: a new one, a repeat and one that differs, an End, a Continue at 255. One at D is still taken after 37.
fn past(g: &mut Group) {
    for window in SILENT {
        for call in [
            |_, at| later(1, 2, at),
            |_, at| end(1, 2, at),
            |_, at| later(255, 2, at),
            |window, at| begin(window, 2, at),
            |window, at| begin(window, 3, at),
        ] {
            each_profile(g, |p| {
                let at = deadline(p, AT) + 1;
                [
                    begin(window, 2, AT).holds(),
                    call(window, at).expires(),
                    later(1, 2, at).refused(38),
                    advance(at).waits(),
                ]
            });
        }
    }
    for window in ASKING {
        each_profile(g, |p| {
            let d = deadline(p, AT);
            [
                begin(window, 2, AT).holds(),
                later(1, 2, d + 1).refused(37),
                end(1, 2, d + 1).refused(37),
                later(255, 2, d + 1).refused(37),
                begin(window, 2, d + 1).refused(37),
                begin(window, 3, d + 1).refused(37),
                end(1, 2, d + 900_000).refused(37),
                later(1, 2, d).holds(),
            ]
        });
    }
}

/// While receiving an equal repeat moves D, at D too.
fn repeats(g: &mut Group) {
    for window in windows() {
        each_profile(g, |p| {
            let moved = AT + 2_000;
            let d = deadline(p, moved);
            let next = deadline(p, d);
            [
                begin(window, 2, AT).holds(),
                later(1, 2, AT + 1_000).holds(),
                begin(window, 2, moved).repeats(),
                advance(deadline(p, AT + 1_000)).waits(),
                advance(d - 1).waits(),
                later(1, 2, d).repeats(),
                advance(d).waits(),
                advance(next - 1).waits(),
                due(advance(next), window, 3, 0b11),
            ]
        });
        each_profile(g, |p| {
            let d = deadline(p, AT + 1_000);
            [
                begin(window, 2, AT).holds(),
                begin(window, 2, AT + 1_000).repeats(),
                late(begin(window, 2, d + 1), window),
            ]
        });
    }
}

/// After Complete a repeat sets none.
fn complete(g: &mut Group) {
    for window in SILENT {
        each_profile(g, |p| {
            let d = deadline(p, AT);
            [
                begin(window, 2, AT).holds(),
                end(1, 2, d).hands_over(),
                advance(d + p.receiver).waits(),
                begin(window, 2, d + p.receiver).repeats(),
                end(1, 2, d + 900_000).repeats(),
                advance(d + 2_000_000).waits(),
                release(d + 2_000_000).releases(),
            ]
        });
    }
}

/// Every interval there is, after the Begin and around it: those of the other profile and of senders are none of the receiver's.
fn of_others(g: &mut Group) {
    for window in windows() {
        for interval in [ONE.receiver, ONE.sender, TWO.receiver, TWO.sender] {
            for after in [interval - 1, interval, interval + 1] {
                let at = AT + after;
                each_profile(g, |p| {
                    let advanced = if after < p.receiver {
                        advance(at).waits()
                    } else {
                        due(advance(at), window, 2, 0b1)
                    };
                    [begin(window, 2, AT).holds(), advanced]
                });
                each_profile(g, |p| {
                    let next = later(1, 2, at);
                    let received = if after > p.receiver {
                        late(next, window)
                    } else {
                        next.holds()
                    };
                    [begin(window, 2, AT).holds(), received]
                });
            }
        }
    }
}

/// A deadline of 2^64 - 1 can still be set, by a segment and by a repeat, and fires. One past it is 34, and nothing changes.
fn last_readings(g: &mut Group) {
    for window in windows() {
        each_profile(g, |p| {
            let latest = p.latest_received();
            [
                begin(window, 2, latest + 1).refused(34),
                begin(window, 2, u64::MAX).refused(34),
                begin(window, 2, latest).holds(),
                begin(window, 2, latest + 1).refused(34),
                later(1, 2, latest + 1).refused(34),
                later(1, 2, u64::MAX).refused(34),
                advance(u64::MAX - 1).waits(),
                due(advance(u64::MAX), window, 2, 0b1),
            ]
        });
        each_profile(g, |p| {
            let latest = p.latest_received();
            [
                begin(window, 2, latest - 1).holds(),
                begin(window, 2, latest + 1).refused(34),
                begin(window, 2, latest).repeats(),
                later(1, 2, latest).holds(),
                later(1, 2, latest + 1).refused(34),
                advance(u64::MAX - 1).waits(),
                due(advance(u64::MAX), window, 3, 0b11),
            ]
        });
    }
}

/// 34 also where no deadline would be set: in Complete. advance, cancel and release have none.
fn without_deadline(g: &mut Group) {
    each_profile(g, |p| {
        let latest = p.latest_received();
        [
            begin(PLAIN, 2, AT).holds(),
            end(1, 2, AT).hands_over(),
            end(1, 2, latest + 1).refused(34),
            later(2, 0, latest + 1).refused(34),
            end(1, 2, latest).repeats(),
            later(2, 0, latest).closes(),
            advance(latest + 1).waits(),
            release(u64::MAX).releases(),
        ]
    });
    each_profile(g, |p| {
        [
            begin(PLAIN, 2, p.latest_received()).holds(),
            cancel(u64::MAX).cancels(),
        ]
    });
}

/// 36 and 38 before 34, 34 before the late rule.
fn order(g: &mut Group) {
    each_profile(g, |p| {
        [
            later(1, 2, p.latest_received() + 1).refused(36),
            cancel(AT).cancels(),
            begin(PLAIN, 2, p.latest_received() + 1).refused(38),
        ]
    });
    for window in windows() {
        each_profile(g, |p| {
            let latest = p.latest_received();
            [
                begin(window, 2, AT).holds(),
                later(1, 2, latest + 1).refused(34),
                late(later(1, 2, latest), window),
            ]
        });
    }
}

/// Between the bounds of the profiles: 34 under profile 1, a deadline under profile 2.
fn between_bounds(g: &mut Group) {
    for reading in [
        ONE.latest_received() + 1,
        TWO.latest_received() - 1,
        TWO.latest_received(),
    ] {
        for window in windows() {
            let first = begin(window, 2, reading);
            let fired = due(advance(reading + TWO.receiver), window, 2, 0b1);
            let rows = [
                &[under(ONE), first.refused(34)][..],
                &[under(TWO), first.holds(), fired],
            ];
            run(g, &rows);
        }
    }
}

pub fn corners(tally: &mut Tally) {
    let title = "profiles: receivers, advance before, at and past the deadline";
    tally.group(title, advancing);
    let title = "profiles: receivers, the deadline after a timeout answer";
    tally.group(title, asking_again);
    tally.group("profiles: receivers, a segment at the deadline", taken);
    tally.group("profiles: receivers, segments past the deadline", past);
    let title = "profiles: receivers, repeats that move the deadline";
    tally.group(title, repeats);
    let title = "profiles: receivers, no deadline after Complete";
    tally.group(title, complete);
    let title = "profiles: receivers, the intervals of others";
    tally.group(title, of_others);
    let title = "profiles: receivers, 34 at the last readings";
    tally.group(title, last_readings);
    let title = "profiles: receivers, 34 where no deadline is set";
    tally.group(title, without_deadline);
    let title = "profiles: receivers, 34 against the tests beside it";
    tally.group(title, order);
    let title = "profiles: receivers, 34 between the two bounds";
    tally.group(title, between_bounds);
    let title = "profiles: receivers, trains under each window in profile 2";
    tally.group(title, |g| trains(g, under(TWO)));
}
