//! try_new: peers, services, versions, and the order of its refusals.

use super::bench::*;
use super::plan::{Plan, plan_at, planned};
use super::record::try_new_with;
use crate::profiles::ONE;
use catkhize::calls::Origin;

/// The plan of the 14 octets: budget 9, transaction 1, Every4, 2 octets in the Begin, 6 later, 3 segments, the length stated.
pub fn plan() -> Plan {
    plan_at(&MESSAGE, BUDGET, Every4)
}

/// A plan of one segment more than the message has (40).
pub fn other_plan() -> Plan {
    plan().with64(planned::COUNT, 4)
}

/// Segment 0 is offered under ticket 0.
pub fn made() -> Outcome {
    prepared(0, 0, None, 0)
}

fn new_from(from: Origin) -> Sent {
    try_new_with(from, &plan(), &MESSAGE, VERSION, ONE.number, 0)
}

/// 30: value 0, value at or past 2 to the width, width above 63.
fn peers(g: &mut Group) {
    let rows = [
        (0, 34, 0, refuses(30)),
        (0, 34, 1, made()),
        (255, 34, 17_179_869_183, made()),
        (255, 34, 17_179_869_184, refuses(30)),
        (0, 0, 0, refuses(30)),
        (0, 0, 1, refuses(30)),
        (0, 1, 1, made()),
        (0, 1, 2, refuses(30)),
        (0, 63, 9_223_372_036_854_775_807, made()),
        (0, 63, 9_223_372_036_854_775_808, refuses(30)),
        (0, 64, 1, refuses(30)),
        (0, 255, 1, refuses(30)),
    ];
    for (kind, width, value, want) in rows {
        let from = Origin {
            kind,
            width,
            value,
            ..ORIGIN
        };
        case(g, new_from(from), want);
    }
}

/// 31: another protocol, or a carrier's without both top bits.
fn services(g: &mut Group) {
    const SEGMENTED: u8 = 0;
    const CARRIER: u8 = 1;
    const OTHER: u8 = 2;
    let rows = [
        (SEGMENTED, 0, made()),
        (CARRIER, 0xC0, made()),
        (CARRIER, 0xFF, made()),
        (CARRIER, 0xBF, refuses(31)),
        (CARRIER, 0x80, refuses(31)),
        (CARRIER, 0x40, refuses(31)),
        (CARRIER, 0x3F, refuses(31)),
        (OTHER, 0xFF, refuses(31)),
    ];
    for (protocol, octet, want) in rows {
        let from = Origin {
            protocol,
            octet,
            ..ORIGIN
        };
        case(g, new_from(from), want);
    }
}

/// 30, 31, 40, 1: each alone, and with all that come after it.
fn order(g: &mut Group) {
    let rows = [
        (0, 0xC0, plan(), 1, refuses(30)),
        (0, 0, other_plan(), 0, refuses(30)),
        (1, 0, plan(), 1, refuses(31)),
        (1, 0, other_plan(), 0, refuses(31)),
        (1, 0xC0, other_plan(), 1, refuses(40)),
        (1, 0xC0, other_plan(), 0, refuses(40)),
        (1, 0xC0, plan(), 0, refuses(1)),
        (1, 0xC0, plan(), 1, made()),
        (1, 0xC0, plan(), 255, made()),
    ];
    for (value, octet, plan, version, want) in rows {
        let from = Origin {
            kind: 0,
            width: 34,
            value,
            protocol: 1,
            octet,
        };
        let sent = try_new_with(from, &plan, &MESSAGE, version, ONE.number, 0);
        case(g, sent, want);
    }
}

/// Any reading will do; it is the last one from then on.
fn readings(g: &mut Group) {
    let latest = try_new(&plan(), &MESSAGE, MAX);
    let s = latest.sender;
    let rows = [
        (try_new(&plan(), &MESSAGE, 0), made()),
        (latest, made()),
        (s.advance(MAX), made()),
        (s.advance(MAX - 1), made().refused(33)),
    ];
    cases(g, rows);
}

pub fn corners(tally: &mut Tally) {
    tally.group("sender: peers", peers);
    tally.group("sender: services", services);
    tally.group("sender: try_new's tests against each other", order);
    tally.group("sender: readings of try_new", readings);
}
