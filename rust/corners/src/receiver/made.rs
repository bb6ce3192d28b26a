//! try_new: the boundaries of its refusals, and each against the next. The whole record is compared; where try_new refuses it stays as it
//! was.

use super::record::Record;
use crate::octets::{PAST, at_front, difference, filled, refusal};
use crate::profiles::ONE;
use crate::tally::{Group, Tally};
use catkhize::calls::{self, Origin};
use catkhize::layout;

/// Width and value of the peer, case and octet of the protocol, transaction, version, what try_new gives.
pub type Case = (u8, u64, u8, u8, u8, u8, u32);

/// Segmented, CarrierSpecific, another.
pub const SEG: u8 = 0;
pub const CAR: u8 = 1;
pub const OTH: u8 = 2;

pub const MADE: u32 = 0;
pub const VERSION: u32 = refusal(1, 0);
pub const TRANSACTION: u32 = refusal(6, 1);
pub const IDENTITY: u32 = refusal(30, 0);
pub const SERVICE: u32 = refusal(31, 0);

/// 30: value 0, at or past 2 to the width, or width above 63.
const PEERS: &[Case] = &[
    (34, 0, SEG, 0, 7, 1, IDENTITY),
    (34, 1, SEG, 0, 7, 1, MADE),
    (34, 0x3_ffff_ffff, SEG, 0, 7, 1, MADE),
    (34, 0x4_0000_0000, SEG, 0, 7, 1, IDENTITY),
    (0, 1, SEG, 0, 7, 1, IDENTITY),
    (1, 1, SEG, 0, 7, 1, MADE),
    (63, 0x7fff_ffff_ffff_ffff, SEG, 0, 7, 1, MADE),
    (63, 0x8000_0000_0000_0000, SEG, 0, 7, 1, IDENTITY),
    (64, 1, SEG, 0, 7, 1, IDENTITY),
    (255, 1, SEG, 0, 7, 1, IDENTITY),
];

/// 31: Segmented, and CarrierSpecific with both top bits set, are served.
const PROTOCOLS: &[Case] = &[
    (34, 1, SEG, 255, 0, 255, MADE),
    (34, 1, CAR, 0xc0, 0, 1, MADE),
    (34, 1, CAR, 0xff, 0, 1, MADE),
    (34, 1, CAR, 0xbf, 0, 1, SERVICE),
    (34, 1, CAR, 0x40, 0, 1, SERVICE),
    (34, 1, OTH, 0xc0, 0, 1, SERVICE),
];

/// 30 before 31, 31 before 1, 1 before 6/1.
const ORDER: &[Case] = &[
    (34, 0, OTH, 0, 8, 0, IDENTITY),
    (34, 1, OTH, 0, 8, 0, SERVICE),
    (34, 1, SEG, 0, 8, 0, VERSION),
    (34, 1, SEG, 0, 7, 0, VERSION),
    (34, 1, SEG, 0, 8, 1, TRANSACTION),
    (34, 1, SEG, 0, 255, 255, TRANSACTION),
];

/// Makes a receiver under a profile.
pub fn make(g: &mut Group, profile: u8, case: Case) {
    let (width, value, protocol, octet, transaction, version, number) = case;
    let from = Origin {
        kind: 1,
        width,
        value,
        protocol,
        octet,
    };
    let (maximum, reading) = (100, 1_000);
    let mut record = filled(layout::RECEIVER + PAST);
    let given = calls::receiver_new(
        &mut record,
        from,
        transaction,
        version,
        profile,
        maximum,
        reading,
    );
    let new = Record::new(from, transaction, version, profile, maximum, reading).octets();
    let left = if number == MADE { &new[..] } else { &[] };
    let wanted = at_front(left, record.len());
    g.case((given, difference(&record, &wanted)), (number, None));
}

pub fn corners(tally: &mut Tally) {
    tally.group("receiver: try_new's refusals", |g| {
        for case in [PEERS, PROTOCOLS, ORDER].concat() {
            make(g, ONE.number, case);
        }
    });
}
