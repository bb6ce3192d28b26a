//! 34 under each profile, around the last queued reading from which the deadline is a number of 64 bits.

use super::*;
use crate::dialects::WINDOWS;
use crate::profiles::{ONE, TWO};

/// 34: a deadline of 2^64 - 1 can still be set, and fires; one past it is refused, for a later segment too.
fn overflow(g: &mut Group) {
    for u in each(WINDOWS) {
        let Under(profile, window) = u;
        let latest = profile.latest_queued();
        let s = u.first_offered();
        let sent = s.submitted(OWN, 0, latest, latest);
        let second = u.made_at(latest).taken(0, latest);
        let waits = awaiting_accept(Some(MAX), 1);
        let again = due(window, 1, prepared(1, 0, None, 1));
        let rows = [
            (
                s.submitted(OWN, 0, latest - 1, latest - 1),
                awaiting_accept(Some(MAX - 1), 1),
            ),
            (sent, waits),
            (sent.sender.advance(MAX - 1), waits),
            (sent.sender.advance(MAX), again),
            (s.submitted(OWN, 0, latest, MAX), again),
            (s.submitted(OWN, 0, latest + 1, latest + 1), refuses(34)),
            (s.submitted(OWN, 0, latest + 1, MAX), refuses(34)),
            (s.submitted(OWN, 0, MAX, MAX), refuses(34)),
            (
                second.submitted(OWN, 1, latest, latest),
                awaiting_accept(Some(MAX), 2),
            ),
            (
                second.submitted(OWN, 1, latest + 1, latest + 1),
                refuses(34),
            ),
        ];
        cases(g, rows);
    }
}

/// No 34 where no deadline is set: the last segment under Prohibited. Under another window it has one.
fn without_deadline(g: &mut Group) {
    for u in each(WINDOWS) {
        let Under(profile, window) = u;
        let latest = profile.latest_queued();
        let third = u.made_at(latest).taken(0, latest).taken(1, latest);
        let past = match window {
            Prohibited => awaiting_accept(None, 3),
            _ => refuses(34),
        };
        let at_deadline = match window {
            Prohibited => ended(SEGMENT_INTERVAL, 2).refused(44),
            _ => refuses(34),
        };
        let last = (window != Prohibited).then_some(MAX);
        let rows = [
            (
                third.submitted(OWN, 2, latest, latest),
                awaiting_accept(last, 3),
            ),
            (third.submitted(OWN, 2, latest + 1, latest + 1), past),
            (third.submitted(OWN, 2, MAX - 1, MAX), past),
            (third.submitted(OWN, 2, MAX, MAX), at_deadline),
        ];
        cases(g, rows);
    }
}

/// 33, 42 and 44 before 34, 34 before 41.
fn order(g: &mut Group) {
    for u in each(WINDOWS) {
        let latest = u.0.latest_queued();
        let s = u.first_offered();
        let counted = s.with_submissions(MAX);
        let rows = [
            (s.submitted(OWN, 0, latest + 1, MADE - 1), refuses(33)),
            (s.submitted(OWN, 1, latest + 1, latest + 1), refuses(42)),
            (s.submitted(OWN, 0, latest + 1, latest), refuses(44)),
            (
                counted.submitted(OWN, 0, latest + 1, latest + 1),
                refuses(34),
            ),
            (counted.submitted(OWN, 0, latest, latest), refuses(41)),
        ];
        cases(g, rows);
    }
}

/// Between the bounds of the profiles: 34 under profile 1, a deadline under profile 2.
fn between_bounds(g: &mut Group) {
    for window in WINDOWS {
        let [one, two] = BOTH.map(|profile| Under(profile, window).first_offered());
        for queued in [
            ONE.latest_queued() + 1,
            TWO.latest_queued() - 1,
            TWO.latest_queued(),
        ] {
            let set = awaiting_accept(Some(queued + TWO.sender), 1);
            let rows = [
                (one.submitted(OWN, 0, queued, queued), refuses(34)),
                (two.submitted(OWN, 0, queued, queued), set),
            ];
            cases(g, rows);
        }
    }
}

pub fn corners(tally: &mut Tally) {
    tally.group("profiles: senders, 34 at the last readings", overflow);
    let title = "profiles: senders, 34 where a deadline is set alone";
    tally.group(title, without_deadline);
    let title = "profiles: senders, 34 against the tests beside it";
    tally.group(title, order);
    let title = "profiles: senders, 34 between the two bounds";
    tally.group(title, between_bounds);
}
