//! 64: right after 31, before the codec's 1 and 6/1, and no number that names a case. Beside it the record stays as it was.

use super::super::made::{
    CAR, Case, IDENTITY, MADE, OTH, SEG, SERVICE, TRANSACTION as WIDE, VERSION, make,
};
use super::*;
use crate::octets::{PAST, at_front, difference, filled, hex, refusal};
use crate::own::{NAMES_NONE, TOO_SHORT};
use crate::profiles::{NEITHER, ONE, all_neither};
use catkhize::calls::{self, Origin};
use catkhize::layout;

const PROFILE: u32 = refusal(64, 0);

/// RECEIVER up to the profile, of a peer of kind 1, width 34 and value 123456789 (hexadecimal), Segmented with octet 3, transaction 5, version 1.
const BEFORE_PROFILE: &str = "02 01 22 00 00 00 01 23 45 67 89 00 03 05 01";

/// Behind it: at most 100 octets; AwaitingBegin; no services, no end, no length; nothing stored; no deadline; made at 1,000. The rest is 0.
const BEHIND_PROFILE: &str = "00 00 00 00 00 00 00 64 00 00 00 00 00 00 00 00 00 00 \
    00 00 00 00 00 00 00 00 00 00 00 00 00 00 00 00 00 00 00 00 00 00 00 03 e8";

/// The octets of RECEIVER.
const RECEIVER: usize = 3_931;

fn new(record: &mut [u8], from: Origin, profile: u8) -> u32 {
    calls::receiver_new(record, from, TRANSACTION, 1, profile, 100, 1_000)
}

/// Every octet of a receiver of either profile.
fn every_octet(g: &mut Group) {
    g.case(layout::RECEIVER, RECEIVER);
    for profile in BOTH {
        let mut record = filled(RECEIVER + PAST);
        let given = new(&mut record, OWN, profile.number);
        let mut made = hex(BEFORE_PROFILE);
        made.push(profile.number);
        made.extend(hex(BEHIND_PROFILE));
        made.resize(RECEIVER, 0);
        let wanted = at_front(&made, record.len());
        g.case((given, difference(&record, &wanted)), (0, None));
    }
}

/// Every other number.
fn others(g: &mut Group) {
    for profile in all_neither() {
        make(g, profile, (34, 1, SEG, 0, 7, 1, PROFILE));
    }
}

/// 30 and 31 come before it, with and without a refusal of the codec's.
const BEFORE: &[Case] = &[
    (34, 0, SEG, 0, 7, 1, IDENTITY),
    (64, 1, SEG, 0, 8, 0, IDENTITY),
    (34, 0, OTH, 0, 8, 0, IDENTITY),
    (34, 1, OTH, 0, 7, 1, SERVICE),
    (34, 1, CAR, 0xbf, 8, 0, SERVICE),
    (34, 1, CAR, 0x40, 7, 0, SERVICE),
];

/// 1 and 6/1 behind it.
const BEHIND: &[Case] = &[
    (34, 1, SEG, 0, 8, 0, VERSION),
    (34, 1, SEG, 0, 7, 0, VERSION),
    (34, 1, CAR, 0xc0, 0, 0, VERSION),
    (34, 1, SEG, 0, 8, 1, WIDE),
    (34, 1, CAR, 0xff, 255, 255, WIDE),
    (34, 1, SEG, 0, 7, 1, MADE),
    (34, 1, CAR, 0xc0, 0, 255, MADE),
];

/// Each against the next, under either profile and under neither.
fn order(g: &mut Group) {
    for case in BEFORE {
        for profile in BOTH {
            make(g, profile.number, *case);
        }
        for profile in NEITHER {
            make(g, profile, *case);
        }
    }
    for case in BEHIND {
        for profile in BOTH {
            make(g, profile.number, *case);
        }
        let (width, value, protocol, octet, transaction, version, _) = *case;
        let refused = (width, value, protocol, octet, transaction, version, PROFILE);
        for profile in NEITHER {
            make(g, profile, refused);
        }
    }
}

/// 256 and 258 come before it; a record that stands there already stays.
fn own(g: &mut Group) {
    let unnamed = |protocol| Origin { protocol, ..OWN };
    let mut made = filled(RECEIVER);
    new(&mut made, OWN, ONE.number);
    for profile in NEITHER {
        for (from, octets, number) in [
            (OWN, RECEIVER, PROFILE),
            (unnamed(2), RECEIVER, SERVICE),
            (unnamed(3), RECEIVER, NAMES_NONE),
            (unnamed(255), RECEIVER, NAMES_NONE),
            (unnamed(3), RECEIVER - 1, TOO_SHORT),
            (OWN, RECEIVER - 1, TOO_SHORT),
            (OWN, 0, TOO_SHORT),
        ] {
            for before in [&filled(RECEIVER), &made] {
                let mut record = before.clone();
                let given = new(&mut record[..octets], from, profile);
                g.case((given, difference(&record, before)), (number, None));
            }
        }
    }
}

pub fn corners(tally: &mut Tally) {
    let title = "profiles: receivers, every octet of a new record";
    tally.group(title, every_octet);
    tally.group("profiles: receivers, 64 for every other number", others);
    let title = "profiles: receivers, 30 and 31 before 64, the codec behind it";
    tally.group(title, order);
    tally.group("profiles: receivers, 256 and 258 before 64", own);
}
