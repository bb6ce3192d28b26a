//! 64: right after 31, before 40 and 1, and no number that names a case. Beside it the record stays as it was.

use super::super::making::{made, other_plan, plan};
use super::super::record::try_new_with;
use super::*;
use crate::octets::{PAST, at_front, difference, filled, hex, refusal};
use crate::own::{NAMES_NONE, SPELLS_NONE, TOO_SHORT};
use crate::profiles::{NEITHER, all_neither};
use catkhize::calls::{self, Origin};
use catkhize::layout;

/// SENDER up to the profile, of a peer of kind 1, width 34 and value 136, Segmented with octet 3, version 5.
const BEFORE_PROFILE: &str = "02 01 22 00 00 00 00 00 00 00 88 00 03 05";

/// Behind it: number 136; Prepared; submission 0, of segment 0, prepared at 100; last ticket 0.
const BEHIND_PROFILE: &str = "00 00 00 00 00 00 00 88 00 00 00 00 \
    01 00 00 00 00 00 00 00 00 00 00 00 00 00 00 00 00 64 00 00 00 00 00 00 00 00";

/// Three maps of 32 octets and a deadline, which are 0; then the last reading, 100, and no submissions.
const MAPS_AND_DEADLINE: usize = 3 * 32 + 9;
const BEFORE_PLAN: &str = "00 00 00 00 00 00 00 64 00 00 00 00 00 00 00 00";

/// The octets of SENDER.
const SENDER: usize = 6_131;

fn new(record: &mut [u8], from: Origin, plan: &[u8], version: u8, profile: u8) -> u32 {
    calls::sender_new(record, from, plan, &MESSAGE, version, profile, OWN, MADE)
}

/// Every octet of a sender of either profile, with a plan of a planner and with a frozen one.
fn every_octet(g: &mut Group) {
    g.case(layout::SENDER, SENDER);
    for u in each([Prohibited, Every4, Exceptions]) {
        let Under(profile, window) = u;
        let plan = plan_under(window);
        let mut record = filled(SENDER + PAST);
        let given = new(&mut record, ORIGIN, &plan.0, VERSION, profile.number);
        let mut made = hex(BEFORE_PROFILE);
        made.push(profile.number);
        made.extend(hex(BEHIND_PROFILE));
        made.extend([0; MAPS_AND_DEADLINE]);
        made.extend(hex(BEFORE_PLAN));
        made.extend(&plan.0[1..]);
        assert_eq!(made.len(), SENDER);
        let wanted = at_front(&made, record.len());
        g.case((given, difference(&record, &wanted)), (0, None));
    }
}

/// Every other number.
fn others(g: &mut Group) {
    for profile in all_neither() {
        case(g, try_new_under(profile, &plan(), &MESSAGE, 0), refuses(64));
    }
}

/// 30, 31, 64, 40, 1: under either profile and under neither.
fn order(g: &mut Group) {
    let rows = [
        (0, 0xC0, plan(), 1, refuses(30), refuses(30)),
        (0, 0xC0, other_plan(), 0, refuses(30), refuses(30)),
        (0, 0, other_plan(), 0, refuses(30), refuses(30)),
        (1, 0, plan(), 1, refuses(31), refuses(31)),
        (1, 0x80, plan(), 0, refuses(31), refuses(31)),
        (1, 0xBF, other_plan(), 0, refuses(31), refuses(31)),
        (1, 0xC0, other_plan(), 0, refuses(40), refuses(64)),
        (1, 0xC0, other_plan(), 1, refuses(40), refuses(64)),
        (1, 0xC0, plan(), 0, refuses(1), refuses(64)),
        (1, 0xC0, plan(), 1, made(), refuses(64)),
        (1, 0xFF, plan(), 255, made(), refuses(64)),
    ];
    for (value, octet, plan, version, of_either, of_neither) in rows {
        let from = Origin {
            kind: 0,
            width: 34,
            value,
            protocol: 1,
            octet,
        };
        let new = |profile| try_new_with(from, &plan, &MESSAGE, version, profile, 0);
        for profile in BOTH {
            case(g, new(profile.number), of_either);
        }
        for profile in NEITHER {
            case(g, new(profile), of_neither);
        }
    }
}

/// 256, 257 and 258 come before it; a record that stands there already stays.
fn own(g: &mut Group) {
    let unnamed = |protocol| Origin { protocol, ..ORIGIN };
    let spelled = plan().0;
    let misspelled = plan().with(0, &[2]).0;
    let short = &spelled[..layout::PLAN - 1];
    let standing = first_offered(Every4).0.to_vec();
    for profile in NEITHER {
        for (from, plan, octets, number) in [
            (ORIGIN, &spelled[..], SENDER, refusal(64, 0)),
            (unnamed(2), &spelled, SENDER, refusal(31, 0)),
            (unnamed(3), &spelled, SENDER, NAMES_NONE),
            (unnamed(255), &spelled, SENDER, NAMES_NONE),
            (ORIGIN, &misspelled, SENDER, SPELLS_NONE),
            (unnamed(3), &misspelled, SENDER, SPELLS_NONE),
            (ORIGIN, short, SENDER, TOO_SHORT),
            (ORIGIN, &spelled, SENDER - 1, TOO_SHORT),
            (unnamed(3), &misspelled, SENDER - 1, TOO_SHORT),
        ] {
            for before in [&filled(SENDER), &standing] {
                let mut record = before.clone();
                let given = new(&mut record[..octets], from, plan, 0, profile);
                g.case((given, difference(&record, before)), (number, None));
            }
        }
    }
}

pub fn corners(tally: &mut Tally) {
    let title = "profiles: senders, every octet of a new record";
    tally.group(title, every_octet);
    tally.group("profiles: senders, 64 for every other number", others);
    let title = "profiles: senders, 30 and 31 before 64, 40 and 1 behind it";
    tally.group(title, order);
    tally.group("profiles: senders, 256 to 258 before 64", own);
}
