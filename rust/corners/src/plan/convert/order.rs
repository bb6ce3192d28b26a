//! Each refusal of the frozen check before 26 and before 20 of a segment that is written, and the exports' own before them all.

use super::{SEED, TRANSACTION, proposes, refuses, refuses_both};
use crate::dialects::{Cutting, Stating, cut};
use crate::octets::{PAST, at_front, difference, filled, pattern, refusal};
use crate::plan::frozen_plan;
use crate::plan::proposal::Proposal;
use crate::tally::{Group, Tally};
use catkhize::AcknowledgmentWindow::Prohibited;
use catkhize::Dialect::{self, BeginOnly, Every};
use catkhize::layout;

/// 14 octets in four segments. The third one is the longest; the others have room for a length, services and a CRC.
const FOUR: Cutting = cut(14, Prohibited, [11, 13], &[(2, 2), (1, 8), (1, 2)]);

/// A train of these 14 octets at the octets of its longest segment, and the dialect that it is read as.
struct Train {
    states: Stating,
    budget: u64,
    read: Dialect,
}

const fn train(states: Stating, budget: u64, read: Dialect) -> Train {
    Train {
        states,
        budget,
        read,
    }
}

const PASSING: Train = train(|i| i == 0, 11, BeginOnly);

/// Trains, each with the number that it gives undamaged: 20 of what is written, done, 26.
const TRAINS: [(Train, u32); 6] = [
    (PASSING, refusal(20, 0)),
    (train(|_| true, 13, Every), 0),
    (train(|i| i == 0, 11, Every), refusal(26, 0)),
    (train(|_| true, 13, BeginOnly), refusal(26, 0)),
    (train(|_| false, 11, BeginOnly), refusal(26, 0)),
    (train(|_| false, 11, Every), refusal(26, 0)),
];

impl Train {
    fn proposal(&self) -> Proposal {
        let heads = FOUR.stating(TRANSACTION, self.states);
        proposes(FOUR, &heads, self.budget)
    }
}

// Offsets in HEAD.
const ID: usize = 0;
const SEQUENCE: usize = 1;
const KIND: usize = 2;
const LENGTH: usize = 3;
const SERVICES: usize = 6;
const CRC: usize = 10;
const DATA: usize = layout::SEGMENT;

impl Proposal {
    /// Changes octets of a head.
    fn put(&mut self, index: usize, at: usize, octets: &[u8]) {
        let at = index * layout::HEAD + at;
        self.heads[at..at + octets.len()].copy_from_slice(octets);
    }

    /// Changes a head's number of data octets.
    fn hold(&mut self, index: usize, octets: u64) {
        self.put(index, DATA, &octets.to_be_bytes());
    }

    /// Has the data lengths sum to 2^64 more.
    fn wrap(&mut self) {
        self.hold(1, u64::MAX);
        self.hold(3, 5);
    }

    /// Gives another segment seven octets of the third one's.
    fn load(&mut self, index: usize) {
        self.hold(index, 9);
        self.hold(2, 1);
    }

    /// Changes the length that a head states.
    fn state(&mut self, index: usize, length: u16) {
        let [high, low] = length.to_be_bytes();
        self.put(index, LENGTH, &[1, high, low]);
    }

    /// Changes the message's length, and with it each that is stated.
    fn lengthen(&mut self, octets: usize) {
        self.message = pattern(octets, SEED);
        for index in 0..self.terms.count as usize {
            if self.heads[index * layout::HEAD + LENGTH] == 1 {
                self.state(index, octets as u16);
            }
        }
    }

    /// Changes a head's number of data octets, and the message and its data with it.
    fn fill(&mut self, index: usize, octets: u64) {
        self.hold(index, octets);
        self.lengthen(FOUR.octets - 2 + octets as usize);
        self.joined = self.message.clone();
    }
}

/// What is done to a train, and the frozen check's refusal n/m.
type Damage = (fn(&mut Proposal), u32, u32);

/// The ceiling, the count, the sum of the data lengths, and segments that pass the budget as they come.
const SIZES: [Damage; 21] = [
    (|p| p.terms.ceiling -= 1, 20, 0),
    (|p| p.terms.ceiling = 0, 20, 0),
    (|p| p.terms.count = 0, 22, 0),
    (|p| p.terms.count = 1, 22, 0),
    (|p| p.terms.count = 257, 22, 0),
    (|p| p.terms.count = (1 << 32) + 4, 22, 0),
    (|p| p.terms.count = u64::MAX, 22, 0),
    (|p| p.terms.count = 3, 24, 0),
    (|p| p.terms.count = 5, 24, 0),
    (|p| p.terms.count = 256, 24, 0),
    (|p| p.joined.truncate(13), 24, 0),
    (|p| p.joined.push(0), 24, 0),
    (|p| p.joined.clear(), 24, 0),
    (|p| p.hold(1, 3), 24, 0),
    (|p| p.hold(3, u64::MAX), 24, 0),
    (|p| p.wrap(), 24, 0),
    (|p| p.terms.budget -= 1, 20, 0),
    (|p| p.terms.budget = 0, 20, 0),
    (|p| p.load(0), 20, 0),
    (|p| p.load(1), 20, 0),
    (|p| p.load(3), 20, 0),
];

/// A first segment that is no Begin or asks for services that no frozen plan has; transaction, sequence and kind at each place.
const PLACES: [Damage; 20] = [
    (|p| p.put(0, KIND, &[1]), 23, 0),
    (|p| p.put(0, KIND, &[2]), 23, 0),
    (|p| p.put(0, SERVICES, &[1, 1, 0, 0]), 23, 0),
    (|p| p.put(0, SERVICES, &[1, 0, 0, 1]), 23, 0),
    (|p| p.put(0, SERVICES, &[1, 0, 0, 2]), 23, 0),
    (|p| p.put(0, ID, &[4]), 23, 0),
    (|p| p.put(1, ID, &[6]), 23, 0),
    (|p| p.put(2, ID, &[0]), 23, 0),
    (|p| p.put(3, ID, &[6]), 23, 0),
    (|p| p.put(1, SEQUENCE, &[0]), 23, 0),
    (|p| p.put(1, SEQUENCE, &[2]), 23, 0),
    (|p| p.put(2, SEQUENCE, &[255]), 23, 0),
    (|p| p.put(3, SEQUENCE, &[2]), 23, 0),
    (|p| p.put(3, SEQUENCE, &[4]), 23, 0),
    (|p| p.put(1, KIND, &[2]), 23, 0),
    (|p| p.put(2, KIND, &[2]), 23, 0),
    (|p| p.put(3, KIND, &[1]), 23, 0),
    (|p| p.put(1, SEQUENCE, &[0, 0]), 23, 0),
    (|p| p.put(2, SEQUENCE, &[0, 0]), 23, 0),
    (|p| p.put(3, SEQUENCE, &[0, 0]), 23, 0),
];

/// A CRC, a length that is not the message's, data that are not, octets of the message that no segment has and data past its end.
const CONTENTS: [Damage; 20] = [
    (|p| p.put(3, CRC, &[1, 0, 0, 0, 0]), 23, 0),
    (|p| p.put(3, CRC, &[2, 0, 0, 0, 0]), 23, 0),
    (|p| p.state(0, 0), 23, 0),
    (|p| p.state(0, 13), 23, 0),
    (|p| p.state(0, 15), 23, 0),
    (|p| p.state(0, 4_095), 23, 0),
    (|p| p.state(1, 13), 23, 0),
    (|p| p.state(1, 4_095), 23, 0),
    (|p| p.state(3, 0), 23, 0),
    (|p| p.state(3, 15), 23, 0),
    (|p| p.joined[0] ^= 1, 23, 0),
    (|p| p.joined[5] ^= 1, 23, 0),
    (|p| p.joined[13] ^= 1, 23, 0),
    (|p| p.message[13] ^= 0x80, 23, 0),
    (|p| p.message.push(0), 23, 0),
    (|p| p.message.truncate(13), 23, 0),
    (|p| p.message.clear(), 23, 0),
    (|p| p.lengthen(15), 23, 0),
    (|p| p.lengthen(13), 23, 0),
    (|p| p.lengthen(0), 23, 0),
];

/// The codec's refusals.
const CODEC: [Damage; 16] = [
    (|p| p.terms.version = 0, 1, 0),
    (|p| p.put(0, ID, &[8]), 6, 1),
    (|p| p.put(1, ID, &[8]), 6, 1),
    (|p| p.put(3, ID, &[255]), 6, 1),
    (|p| p.fill(0, 256), 6, 2),
    (|p| p.fill(1, 256), 6, 2),
    (|p| p.fill(3, 256), 6, 2),
    (|p| p.put(0, SEQUENCE, &[1]), 6, 3),
    (|p| p.put(1, KIND, &[0]), 6, 3),
    (|p| p.put(3, KIND, &[0]), 6, 3),
    (|p| p.state(0, 4_096), 6, 4),
    (|p| p.state(1, 4_096), 6, 4),
    (|p| p.state(2, 4_096), 6, 4),
    (|p| p.state(3, u16::MAX), 6, 4),
    (|p| p.put(3, CRC, &[2, 1, 0, 0, 0]), 6, 5),
    (|p| p.put(3, CRC, &[2, 255, 255, 255, 255]), 6, 5),
];

/// What the frozen check and the converter give for each train as it is, and then with each damage: one number.
fn damaged(g: &mut Group, damages: &[Damage]) {
    for (train, number) in TRAINS {
        let read = train.read as u8;
        let first = train.proposal();
        g.case((first.freeze().0, first.convert(read).0), (0, number));
        for (damage, n, m) in damages {
            let mut first = train.proposal();
            damage(&mut first);
            let (given, plan) = first.convert(read);
            let untouched = difference(&plan, &filled(plan.len()));
            let number = refusal(*n, *m);
            let wanted = (number, number, None);
            g.case((first.freeze().0, given, untouched), wanted);
        }
    }
}

/// Damages on top of one another, on a train of which a segment that is written passes the budget. The last one is told.
const STACK: [Damage; 12] = [
    (|p| p.state(3, 14), 26, 0),
    (|p| p.joined[13] ^= 1, 23, 0),
    (|p| p.terms.budget -= 1, 20, 0),
    (|p| p.state(2, 4_096), 6, 4),
    (|p| p.put(1, SEQUENCE, &[9]), 23, 0),
    (|p| p.state(1, 4_096), 6, 4),
    (|p| p.put(1, ID, &[8]), 6, 1),
    (|p| p.terms.version = 0, 1, 0),
    (|p| p.put(0, SERVICES, &[1, 1, 0, 0]), 23, 0),
    (|p| p.joined.truncate(13), 24, 0),
    (|p| p.terms.count = 257, 22, 0),
    (|p| p.terms.ceiling = 9, 20, 0),
];

fn stacked(g: &mut Group) {
    let mut first = PASSING.proposal();
    refuses(g, &first, BeginOnly, 20, 0);
    for (damage, n, m) in STACK {
        damage(&mut first);
        refuses_both(g, &first, n, m);
    }
    own(g, &first);
}

/// What a call with a plan of so many octets gives, which stay.
fn leaves(g: &mut Group, asked: &Proposal, dialect: u8, room: usize, n: u32) {
    let mut plan = filled(room);
    let given = asked.convert_into(dialect, &mut plan);
    let untouched = difference(&plan, &filled(room));
    g.case((given, untouched), (refusal(n, 0), None));
}

/// Heads or a plan one octet short or of none: 256, and then heads that spell none: 257, and then a number that names no dialect: 258.
fn own(g: &mut Group, asked: &Proposal) {
    let misspelled = [
        (0, KIND, 3),
        (0, LENGTH, 2),
        (0, SERVICES, 2),
        (0, CRC, 1),
        (255, KIND, 3),
    ];
    for dialect in [2, 3, 128, 255] {
        leaves(g, asked, dialect, layout::PLAN, 258);
    }
    for dialect in [0, 1, 2, 255] {
        for (index, at, octet) in misspelled {
            let mut asked = asked.clone();
            asked.put(index, at, &[octet]);
            leaves(g, &asked, dialect, layout::PLAN, 257);
            leaves(g, &asked, dialect, layout::PLAN - 1, 256);
        }
        leaves(g, asked, dialect, layout::PLAN - 1, 256);
        leaves(g, asked, dialect, 0, 256);
        for room in [layout::HEADS - 1, 0] {
            let mut asked = asked.clone();
            asked.heads.truncate(room);
            leaves(g, &asked, dialect, layout::PLAN, 256);
            leaves(g, &asked, dialect, layout::PLAN - 1, 256);
        }
    }
}

/// The same of trains that are converted or refused with 26 or 20.
fn own_first(g: &mut Group) {
    for (train, _) in TRAINS {
        own(g, &train.proposal());
    }
}

/// Heads with octets past them and a plan that is as long as its layout or longer: the number is the same, and the octets past PLAN stay.
fn longer(g: &mut Group) {
    for (train, number) in TRAINS {
        let mut first = train.proposal();
        let written = FOUR.heads(TRANSACTION, BeginOnly);
        let plan = frozen_plan(&written, &first.message, first.terms.budget, Prohibited);
        first.heads.extend(filled(PAST));
        for room in [layout::PLAN, layout::PLAN + 1, 2 * layout::PLAN] {
            let wanted = match number {
                0 => at_front(&plan[..layout::PLAN], room),
                _ => filled(room),
            };
            let mut plan = filled(room);
            let given = first.convert_into(train.read as u8, &mut plan);
            g.case((given, difference(&plan, &wanted)), (number, None));
        }
    }
}

pub fn corners(tally: &mut Tally) {
    for (title, damages) in [
        (
            "convert: ceiling, count, sums and budget before 26 and 20",
            &SIZES[..],
        ),
        (
            "convert: 23 by first segment and place before 26 and 20",
            &PLACES,
        ),
        (
            "convert: 23 by lengths and data before 26 and 20",
            &CONTENTS,
        ),
        ("convert: the codec's refusals before 26 and 20", &CODEC),
    ] {
        tally.group(title, |g| damaged(g, damages));
    }
    tally.group("convert: each test against the next", stacked);
    tally.group("convert: 256, 257 and 258 before them", own_first);
    tally.group("convert: buffers that are longer", longer);
}
