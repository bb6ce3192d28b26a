//! The refusals of receive, advance and cancel: their boundaries, and each against the next in document 01's order. A refused call changes
//! nothing.

use super::bench::run;
use super::rows::Row::{Make, Start};
use super::rows::*;
use crate::tally::Tally;
use catkhize::calls::Origin;

/// A Begin that a new receiver takes.
const GOOD: Call = begin(PLAIN, 0, 6_000);

/// Other peers and protocols.
const OTHER_WIDTH: Origin = Origin { width: 35, ..OWN };
const OTHER_VALUE: Origin = Origin { value: 7, ..OWN };
const CARRIER: Origin = Origin { protocol: 1, ..OWN };
const OTHER_CASE: Origin = Origin { protocol: 2, ..OWN };
const OTHER_BOTH: Origin = Origin {
    kind: 2,
    ..OTHER_OCTET
};

/// 60: a store of 65,279 octets and of 65,280, in each call.
const STORES: &[Row] = &[
    FRESH,
    GOOD.lent(0, 100).refused(60),
    GOOD.lent(65_279, 100).refused(60),
    GOOD.lent(65_280, 100).holds(),
    advance(7_000).lent(0, 0).refused(60),
    advance(7_000).lent(65_279, 0).refused(60),
    advance(7_000).lent(65_280, 0).waits(),
    cancel(7_000).lent(0, 0).refused(60),
    cancel(7_000).lent(65_279, 0).refused(60),
    cancel(7_000).lent(65_280, 0).cancels(),
];

/// 61: an output one octet short of the maximum or of 65,280, whichever is smaller, and exact.
const OUTPUTS: &[Row] = &[
    Start(1, 0),
    GOOD.lent(STORE, 0).holds(),
    Start(1, 1),
    GOOD.lent(STORE, 0).refused(61),
    FRESH,
    GOOD.lent(STORE, 99).refused(61),
    GOOD.lent(STORE, 100).holds(),
    Start(1, 65_279),
    GOOD.lent(STORE, 65_278).refused(61),
    GOOD.lent(STORE, 65_279).holds(),
    Start(1, 65_281),
    GOOD.lent(STORE, 65_279).refused(61),
    GOOD.lent(STORE, 65_280).holds(),
    Start(1, u64::MAX),
    GOOD.lent(STORE, 65_279).refused(61),
    GOOD.lent(STORE, 65_280).holds(),
];

/// The last reading is 5,000.
const WAITING: Row = advance(5_000).waits();

/// 60 before 61, 61 before 62, 62 before 33, 33 before 30, 30 before 31, 31 before 32, 32 before the codec. The record is impossible in the
/// first three by a deadline outside Receiving, and has version 0 in the last.
const LENT_FIRST: &[Row] = &[
    FRESH,
    WAITING,
    Make(|r| r.deadline = Some(9_000)),
    GOOD.lent(65_279, 99).refused(60),
    GOOD.lent(STORE, 99).refused(61),
    begin(PLAIN, 0, 4_999).refused(62),
    Make(|r| r.deadline = None),
    begin(PLAIN, 0, 4_999).from(OTHER_KIND).refused(33),
    GOOD.from(OTHER_BOTH).refused(30),
    GOOD.from(OTHER_OCTET).within(6).refused(31),
    Make(|r| r.version = 0),
    GOOD.within(6).refused(32),
];

/// The codec: 1 before 6/1, 6/1 before 6/2, 6/2 before 6/3, 6/3 before 6/4, 6/4 before 35. A record with version 0 or transaction 8 is
/// possible.
const CODEC: &[Row] = &[
    FRESH,
    WAITING,
    Make(|r| r.transaction = 8),
    Make(|r| r.version = 0),
    GOOD.within(8).refused(1),
    Make(|r| r.version = 1),
    begin(PLAIN, 256, 6_000).within(8).refused_6(1),
    FRESH,
    WAITING,
    begin(PLAIN, 256, 6_000).placed(1).refused_6(2),
    GOOD.placed(1).states(4_096).refused_6(3),
    begin(PLAIN, 256, 6_000).refused_6(2),
    begin(PLAIN, 2, 6_000).placed(255).states(5).refused_6(3),
    end(1, 0, 6_000).states(4_096).unparsed(1).refused_6(4),
    end(1, 0, 6_000).crc(TOO_LARGE).states(4_096).refused_6(4),
    end(1, 0, 6_000).crc(TOO_LARGE).unparsed(1).refused_6(5),
];

/// 35 before 36, 36 before 34; in a closed state the codec and 35 before 38, and 38 before 36 and 34.
const STATES: &[Row] = &[
    FRESH,
    WAITING,
    later(1, 0, 6_000).unparsed(1).refused(35),
    GOOD.unparsed(1).refused(35),
    later(1, 0, u64::MAX).refused(36),
    later(255, 0, 6_000).refused(36),
    end(1, 0, 6_000).refused(36),
    begin(PLAIN, 0, LATEST + 1).refused(34),
    cancel(5_000).cancels(),
    later(1, 256, 6_000).refused_6(2),
    later(1, 0, 6_000).unparsed(1).refused(35),
    later(1, 0, 6_000).refused(38),
    begin(PLAIN, 0, u64::MAX).refused(38),
];

/// 34 before the late rule, under Prohibited too; the late rule before the slots.
const LATE: &[Row] = &[
    FRESH,
    begin(EVERY4, 2, 6_000).holds(),
    later(1, 0, LATEST + 1).refused(34),
    later(1, 0, LATEST).refused(37),
    begin(EVERY4, 3, LATEST).refused(37),
    FRESH,
    begin(PLAIN, 2, 6_000).holds(),
    later(1, 0, LATEST + 1).refused(34),
    begin(PLAIN, 3, LATEST).expires(),
];

/// A peer that differs in kind, in width or in value; a protocol that differs in octet or in case.
const ADDRESSES: &[Row] = &[
    FRESH,
    GOOD.from(OTHER_KIND).refused(30),
    GOOD.from(OTHER_WIDTH).refused(30),
    GOOD.from(OTHER_VALUE).refused(30),
    GOOD.from(OTHER_OCTET).refused(31),
    GOOD.from(CARRIER).refused(31),
    GOOD.from(OTHER_CASE).refused(31),
    GOOD.within(4).refused(32),
    GOOD.holds(),
];

/// Advance and cancel: 60 before 62, 62 before 33, cancel's 33 before 38.
const CLOCK: &[Row] = &[
    FRESH,
    WAITING,
    Make(|r| r.deadline = Some(9_000)),
    advance(4_999).lent(65_279, 0).refused(60),
    advance(4_999).refused(62),
    cancel(4_999).lent(65_279, 0).refused(60),
    cancel(4_999).refused(62),
    Make(|r| r.deadline = None),
    advance(4_999).refused(33),
    cancel(5_000).cancels(),
    cancel(4_999).refused(33),
    cancel(5_000).refused(38),
];

/// Only an open reception can be canceled: AwaitingBegin and Receiving, and not Complete, Failed, Expired.
const CANCELING: &[Row] = &[
    FRESH,
    cancel(0).cancels(),
    FRESH,
    GOOD.holds(),
    cancel(900_000).cancels(),
    FRESH,
    GOOD.holds(),
    end(1, 2, 6_000).hands_over(),
    cancel(7_000).refused(38),
    begin(PLAIN, 1, 6_000).fails(11),
    cancel(7_000).refused(38),
    FRESH,
    GOOD.holds(),
    advance(306_000).lapses(),
    cancel(400_000).refused(38),
];

pub fn corners(tally: &mut Tally) {
    tally.group("receiver: 60 and 61, short and exact", |g| {
        run(g, &[STORES, OUTPUTS])
    });
    tally.group("receiver: receive's refusals, each against the next", |g| {
        run(g, &[LENT_FIRST, CODEC, STATES, LATE])
    });
    tally.group("receiver: other peers, protocols and transactions", |g| {
        run(g, &[ADDRESSES])
    });
    tally.group(
        "receiver: advance's and cancel's refusals, each against the next",
        |g| run(g, &[CLOCK]),
    );
    tally.group("receiver: cancel in each state", |g| run(g, &[CANCELING]));
}
