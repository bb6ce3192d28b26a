//! 62: a record of neither profile, in every call that can refuse, behind 60 and 61 and before 33. Nothing changes: with the profile as it was the
//! receiver goes on.

use super::*;
use crate::profiles::{NEITHER, ONE, TWO, all_neither};

/// The last reading of the records.
const LAST_AT: u64 = 5_000;

/// Receivers in each state, by calls, and a call that each takes.
fn states(p: Profile) -> [(Vec<Row>, Row); 8] {
    let waits = advance(LAST_AT).waits();
    let first = begin(PLAIN, 2, AT).holds();
    let asking = begin(LAST, 2, AT).holds();
    let d = deadline(p, AT);
    let next = later(1, 2, LAST_AT).holds();
    [
        (vec![waits], begin(PLAIN, 2, LAST_AT).holds()),
        (vec![first, waits], next),
        (vec![asking, waits], next),
        (
            vec![asking, advance(d).asks().map(2, 0b1)],
            later(1, 2, d).holds(),
        ),
        (
            vec![first, end(1, 2, LAST_AT).hands_over()],
            release(LAST_AT).releases(),
        ),
        (vec![first, later(255, 2, LAST_AT).fails(2)], waits),
        (vec![first, advance(d).lapses()], advance(d).waits()),
        (vec![first, cancel(LAST_AT).cancels()], waits),
    ]
}

/// The calls, at readings at which a deadline is due, late and past those from which one can be set, and at two that the clock does not allow.
fn calls(p: Profile) -> Vec<Row> {
    let readings = [deadline(p, AT), deadline(p, AT) + 1, u64::MAX, AT - 1, 0];
    let at = |reading| {
        [
            begin(PLAIN, 2, reading),
            begin(LAST, 2, reading),
            later(1, 2, reading),
            end(1, 2, reading),
            later(255, 256, reading).unparsed(1),
            begin(PLAIN, 2, reading).from(OTHER_KIND),
            begin(PLAIN, 2, reading).from(OTHER_OCTET).within(6),
            advance(reading),
            cancel(reading),
            release(reading),
        ]
        .map(|call| call.refused(62))
    };
    readings.into_iter().flat_map(at).collect()
}

/// 60 and 61 come first; then 62, and not 33.
const LENT: [Row; 10] = [
    later(1, 2, 0).lent(65_279, 99).refused(60),
    later(1, 2, LAST_AT).lent(0, 0).refused(60),
    later(1, 2, 0).lent(STORE, 99).refused(61),
    later(1, 2, 0).lent(65_280, 100).refused(62),
    advance(0).lent(65_279, 0).refused(60),
    advance(0).lent(65_280, 0).refused(62),
    cancel(0).lent(65_279, 0).refused(60),
    cancel(0).lent(65_280, 0).refused(62),
    release(0).lent(65_279, 0).refused(60),
    release(0).lent(65_280, 0).refused(62),
];

fn each_state(g: &mut Group, rows: impl Fn(Profile) -> Vec<Row>) {
    for profile in BOTH {
        for (before, after) in states(profile) {
            for neither in NEITHER {
                let mut table = vec![under(profile)];
                table.extend(&before);
                table.push(Row::Profile(neither));
                table.extend(rows(profile));
                table.push(Row::KeepsProfile(neither));
                table.push(Row::Profile(profile.number));
                table.push(after);
                run(g, &[&table]);
            }
        }
    }
}

/// Every number of no profile, while receiving and after Complete.
fn every_number(g: &mut Group) {
    for neither in all_neither() {
        let receiving = [FRESH, begin(LAST, 2, AT).holds()];
        let complete = [
            FRESH,
            begin(PLAIN, 2, AT).holds(),
            end(1, 2, AT).hands_over(),
        ];
        for before in [&receiving[..], &complete] {
            let wrong = [Row::Profile(neither), Row::Wrong];
            run(g, &[&[before, &wrong].concat()]);
        }
    }
}

/// With another fault of 62 too; and the other profile's number, with which the receiver goes on.
fn beside(g: &mut Group) {
    for [profile, other] in [[ONE, TWO], [TWO, ONE]] {
        let rows = [
            under(profile),
            begin(LAST, 2, AT).holds(),
            Row::Make(|r| r.stored = 3),
            Row::Profile(0),
            Row::Wrong,
            Row::Profile(profile.number),
            Row::Wrong,
            Row::Make(|r| r.stored = 2),
            Row::Profile(3),
            Row::Wrong,
            Row::Profile(other.number),
            later(1, 2, LAST_AT).holds(),
            advance(deadline(other, LAST_AT) - 1).waits(),
            advance(deadline(other, LAST_AT)).asks().map(3, 0b11),
        ];
        run(g, &[&rows]);
    }
}

pub fn corners(tally: &mut Tally) {
    let title = "profiles: receivers, 62 in each state and call";
    tally.group(title, |g| each_state(g, calls));
    let title = "profiles: receivers, 60 and 61 before 62, 33 behind it";
    tally.group(title, |g| each_state(g, |_| LENT.to_vec()));
    let title = "profiles: receivers, 62 for every other number";
    tally.group(title, every_number);
    let title = "profiles: receivers, 62 beside another fault, and none under either profile";
    tally.group(title, beside);
}
