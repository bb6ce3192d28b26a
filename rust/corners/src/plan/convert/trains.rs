//! Trains that are converted: spelled out octet by octet, both ways and back again, with whatever services and heads past the count.

use super::{SEED, TRANSACTION, converts, proposed_in, proposes};
use crate::dialects::{ALL, BOTH, ROOM, THREE, TWO, WINDOWS, cut};
use crate::octets::{
    PAST, at_front, begin, difference, end, filled, head, hex, later, pattern, window,
};
use crate::plan::proposal::{Proposal, Terms};
use crate::plan::{PLANNED, frozen_plan, part};
use crate::sender::plan::frozen;
use crate::tally::{Group, Tally};
use catkhize::AcknowledgmentWindow::{self, Last, Prohibited};
use catkhize::Dialect;
use catkhize::MessageCrc::Crc24;
use catkhize::{OptionalServices, calls, layout};

/// A train spelled out: count, octets of the message, budget and window as PLAN has them, then the heads in either dialect.
struct Spelled {
    budget: u64,
    message: &'static [u8],
    numbers: &'static str,
    heads: [&'static [&'static str]; 2],
}

/// 14 octets in transaction 5 under Last, in segments of 2, 6 and 6.
const SPELLED_THREE: Spelled = Spelled {
    budget: 11,
    message: b"abcdefghijklmn",
    numbers: "00 00 00 00 00 00 00 03  00 00 00 00 00 00 00 0e  00 00 00 00 00 00 00 0b  04",
    heads: [
        &[
            "05 00 00  01 00 0e  01 00 04 00  00 00 00 00 00  00 00 00 00 00 00 00 02",
            "05 01 01  00 00 00  00 00 00 00  00 00 00 00 00  00 00 00 00 00 00 00 06",
            "05 02 02  00 00 00  00 00 00 00  00 00 00 00 00  00 00 00 00 00 00 00 06",
        ],
        &[
            "05 00 00  01 00 0e  01 00 04 00  00 00 00 00 00  00 00 00 00 00 00 00 02",
            "05 01 01  01 00 0e  00 00 00 00  00 00 00 00 00  00 00 00 00 00 00 00 06",
            "05 02 02  01 00 0e  00 00 00 00  00 00 00 00 00  00 00 00 00 00 00 00 06",
        ],
    ],
};

/// 10 octets in transaction 0 without services, in segments of 4 and 6.
const SPELLED_TWO: Spelled = Spelled {
    budget: 258,
    message: b"0123456789",
    numbers: "00 00 00 00 00 00 00 02  00 00 00 00 00 00 00 0a  00 00 00 00 00 00 01 02  00",
    heads: [
        &[
            "00 00 00  01 00 0a  00 00 00 00  00 00 00 00 00  00 00 00 00 00 00 00 04",
            "00 01 02  00 00 00  00 00 00 00  00 00 00 00 00  00 00 00 00 00 00 00 06",
        ],
        &[
            "00 00 00  01 00 0a  00 00 00 00  00 00 00 00 00  00 00 00 00 00 00 00 04",
            "00 01 02  01 00 0a  00 00 00 00  00 00 00 00 00  00 00 00 00 00 00 00 06",
        ],
    ],
};

impl Spelled {
    fn heads(&self, dialect: Dialect) -> Vec<u8> {
        let heads = self.heads[dialect as usize].iter();
        let mut octets: Vec<u8> = heads.flat_map(|head| hex(head)).collect();
        octets.resize(layout::HEADS, 0);
        octets
    }

    /// PLAN: layout version, form, no planned part, numbers, heads.
    fn plan(&self, dialect: Dialect) -> Vec<u8> {
        let (front, numbers) = (hex("01 01"), hex(self.numbers));
        let plan = [&front[..], &[0; PLANNED], &numbers, &self.heads(dialect)];
        at_front(&plan.concat(), layout::PLAN + PAST)
    }

    fn proposal(&self, dialect: Dialect) -> Proposal {
        Proposal {
            heads: self.heads(dialect),
            joined: self.message.to_vec(),
            message: self.message.to_vec(),
            terms: Terms {
                count: self.heads[0].len() as u64,
                budget: self.budget,
                version: 1,
                ceiling: self.budget,
            },
        }
    }
}

/// A train that has one PLAN is converted to the other. The frozen check takes what is written, and converting that gives the very PLAN that the
/// frozen check gives of the first train.
fn there_and_back(
    g: &mut Group,
    first: &Proposal,
    (read, written): (Dialect, Dialect),
    [own, other]: [Vec<u8>; 2],
) {
    let (given, frozen) = first.freeze();
    g.case((given, difference(&frozen, &own)), (0, None));
    let (given, plan) = first.convert(read as u8);
    g.case((given, difference(&plan, &other)), (0, None));
    let back = Proposal {
        heads: plan[frozen::HEADS..layout::PLAN].to_vec(),
        ..first.clone()
    };
    let (given, again) = back.freeze();
    g.case((given, difference(&again, &plan)), (0, None));
    let (given, returned) = back.convert(written as u8);
    g.case((given, difference(&returned, &frozen)), (0, None));
}

fn spelled(g: &mut Group) {
    for train in [SPELLED_THREE, SPELLED_TWO] {
        for (read, written) in BOTH {
            let plans = [read, written].map(|dialect| train.plan(dialect));
            there_and_back(g, &train.proposal(read), (read, written), plans);
        }
    }
}

/// Each segment of the 14 octets, encoded: type and transaction, sequence, data, then the length as 10 0e and the window Last as 20 20.
const ENCODED: [[&str; 3]; 2] = [
    [
        "05 00 02 61 62 10 0e 20 20",
        "0d 01 06 63 64 65 66 67 68",
        "15 02 06 69 6a 6b 6c 6d 6e",
    ],
    [
        "05 00 02 61 62 10 0e 20 20",
        "0d 01 06 63 64 65 66 67 68 10 0e",
        "15 02 06 69 6a 6b 6c 6d 6e 10 0e",
    ],
];

/// What is written, encoded.
fn encoded(g: &mut Group) {
    let data = [&b"ab"[..], b"cdefgh", b"ijklmn"];
    for (read, written) in BOTH {
        let (_, plan) = SPELLED_THREE.proposal(read).convert(read as u8);
        for (index, octets) in ENCODED[written as usize].iter().enumerate() {
            let (_, part) = part(&plan, index);
            let segment = &part[..layout::SEGMENT];
            let (mut output, mut number) = (filled(16), filled(layout::WRITTEN));
            let given = calls::encode(segment, data[index], 1, &mut output, &mut number);
            let octets = hex(octets);
            let wanted = at_front(&octets, output.len());
            let length = (octets.len() as u64).to_be_bytes();
            g.case((given, output, number), (0, wanted, length.to_vec()));
        }
    }
}

/// At the octets of the longest segment of both trains, with room, and at the largest budget.
fn both_ways(g: &mut Group) {
    for cutting in ALL {
        let message = pattern(cutting.octets, SEED);
        for budget in [cutting.longest[1], ROOM, u64::MAX] {
            for (read, written) in BOTH {
                let plans = [read, written].map(|dialect| {
                    let heads = cutting.heads(TRANSACTION, dialect);
                    frozen_plan(&heads, &message, budget, cutting.window)
                });
                let first = proposed_in(cutting, read, budget);
                there_and_back(g, &first, (read, written), plans);
            }
        }
    }
}

/// Heads past the count, which state a length where the train's own do not and the other way round, pass the budget, or are no segments at all:
/// they are not looked at, and come out empty.
fn past_the_count(g: &mut Group) {
    let most = cut(4_079, Prohibited, [20, 21], &[(1, 15), (254, 16)]);
    let past = [
        head(begin(0, None, None), 0),
        head(begin(5, Some(14), window(Last)), 4),
        head(later(5, 3, None), 6),
        head(later(5, 3, Some(14)), 6),
        head(end(5, 3, Some(14), None), 0),
        head(end(5, 3, None, Some(Crc24(u32::MAX))), u64::MAX),
        head(later(255, 255, Some(u16::MAX)), u64::MAX),
    ];
    for cutting in [TWO, THREE, most] {
        for (read, written) in BOTH {
            for head in past {
                let mut first = proposed_in(cutting, read, cutting.longest[1]);
                let own = first.terms.count as usize * layout::HEAD;
                first.heads.truncate(own);
                first.heads.extend(head.repeat(256));
                first.heads.truncate(layout::HEADS);
                let heads = cutting.heads(TRANSACTION, written);
                converts(g, &first, read, &heads, cutting.window);
            }
        }
    }
}

/// Services are kept, and the transaction, under any version.
fn keeps(
    g: &mut Group,
    (asked, services): (AcknowledgmentWindow, Option<OptionalServices>),
    transaction: u8,
    version: u8,
) {
    for (read, written) in BOTH {
        let [first, wanted] = [read, written].map(|dialect| {
            let mut heads = THREE.heads(transaction, dialect);
            heads[0].0 = begin(transaction, Some(14), services);
            heads
        });
        let mut first = proposes(THREE, &first, ROOM);
        first.terms.version = version;
        converts(g, &first, read, &wanted, asked);
    }
}

/// No services, and each window's, Prohibited spelled out too.
fn services(g: &mut Group) {
    let spelled = WINDOWS.map(|asked| (asked, window(asked)));
    for services in [(Prohibited, None)].into_iter().chain(spelled) {
        for transaction in [0, 7] {
            for version in [1, 5, 255] {
                keeps(g, services, transaction, version);
            }
        }
    }
}

pub fn corners(tally: &mut Tally) {
    tally.group(
        "convert: 14 octets in three, 10 in two, spelled out",
        spelled,
    );
    tally.group("convert: the same 14 octets, encoded", encoded);
    tally.group("convert: both ways and back", both_ways);
    tally.group("convert: heads past the count", past_the_count);
    tally.group("convert: services, transactions, versions", services);
}
