//! The frozen check: a true cutting, and each kind of damage to it. The plan's record is compared whole, and stays as it was where the check
//! refuses; an accepted plan has the heads for its segments.

use super::proposal::{Proposal, Terms};
use super::{frozen_plan, proposed, wrong_part};
use crate::octets::{
    Segment, begin, difference, end, filled, later, placed, refusal, services, window,
};
use crate::tally::{Group, Tally};
use catkhize::AcknowledgmentWindow::{self, Exceptions, Last, Prohibited};
use catkhize::MessageCrc::{Crc16, Crc24};
use catkhize::{Compression, CrcStatus};

type Head = (Segment, u64);

/// Three segments of at most 6 octets.
const THREE: Terms = Terms {
    count: 3,
    budget: 6,
    version: 1,
    ceiling: 100,
};

/// The same of at most 5 and of at most 9 octets.
const NARROW: Terms = Terms { budget: 5, ..THREE };
const WIDE: Terms = Terms { budget: 9, ..THREE };

const MESSAGE: &[u8] = b"abcdefg";

/// Segments of transaction 5 with so many octets of data.
fn plain_begin(data: u64) -> Head {
    (begin(5, None, None), data)
}

fn plain_later(sequence: u8, data: u64) -> Head {
    (later(5, sequence, None), data)
}

fn plain_end(sequence: u8, data: u64) -> Head {
    (end(5, sequence, None, None), data)
}

/// The train of 7 octets: 1, 3 and 3.
fn train() -> [Head; 3] {
    let first = (begin(5, Some(7), None), 1);
    [first, plain_later(1, 3), plain_end(2, 3)]
}

fn check(heads: [Head; 3], terms: Terms, joined: &[u8], message: &[u8]) -> (u32, Vec<u8>) {
    let proposal = Proposal {
        heads: proposed(&heads),
        joined: joined.to_vec(),
        message: message.to_vec(),
        terms,
    };
    proposal.freeze()
}

/// The check accepts the train, and keeps it.
fn accepts(
    g: &mut Group,
    heads: [Head; 3],
    terms: Terms,
    message: &[u8],
    window: AcknowledgmentWindow,
) {
    let (given, plan) = check(heads, terms, message, message);
    let kept = &heads[..terms.count as usize];
    let wanted = frozen_plan(kept, message, terms.budget, window);
    g.case(
        (given, difference(&plan, &wanted), wrong_part(&plan, kept)),
        (0, None, None),
    );
}

/// The check gives refusal n/m to a train and its joined data.
fn declines(
    g: &mut Group,
    heads: [Head; 3],
    terms: Terms,
    [joined, message]: [&[u8]; 2],
    n: u32,
    m: u32,
) {
    let (given, plan) = check(heads, terms, joined, message);
    let untouched = filled(plan.len());
    let wanted = (refusal(n, m), None);
    g.case((given, difference(&plan, &untouched)), wanted);
}

/// The same to three heads on the message of 7 octets.
fn says(g: &mut Group, heads: [Head; 3], n: u32, m: u32) {
    declines(g, heads, THREE, [MESSAGE, MESSAGE], n, m);
}

/// Each length stated or not, services spelled out, an empty message, an empty Continue.
fn true_cuttings(g: &mut Group) {
    let [first, second, third] = train();
    let stated = (later(5, 1, Some(7)), 3);
    let last = (end(5, 2, Some(7), None), 3);
    let spelled = (begin(5, Some(7), window(Prohibited)), 1);
    accepts(g, train(), THREE, MESSAGE, Prohibited);
    accepts(
        g,
        [plain_begin(1), second, third],
        THREE,
        MESSAGE,
        Prohibited,
    );
    accepts(g, [first, stated, last], WIDE, MESSAGE, Prohibited);
    accepts(g, [spelled, second, third], WIDE, MESSAGE, Prohibited);
    let two = Terms {
        count: 2,
        budget: 3,
        version: 1,
        ceiling: 3,
    };
    let empty = [plain_begin(0), plain_end(1, 0), third];
    accepts(g, empty, two, b"", Prohibited);
    let asking = (begin(5, None, window(Last)), 4);
    accepts(g, [asking, plain_later(1, 0), third], WIDE, MESSAGE, Last);
}

/// 20, 22 and 24, in this order; 24 before a first segment that is no Begin; sums that no number of 64 bits holds.
fn sizes(g: &mut Group) {
    let [first, second, third] = train();
    let whole = [MESSAGE, MESSAGE];
    let low = Terms {
        ceiling: 5,
        ..THREE
    };
    let one = Terms { count: 1, ..THREE };
    let none = Terms { count: 0, ..low };
    let many = Terms {
        count: 257,
        ..THREE
    };
    declines(g, train(), low, whole, 20, 0);
    declines(g, train(), none, [b"", b""], 20, 0);
    declines(g, train(), one, [b"a", b"a"], 22, 0);
    declines(g, train(), many, whole, 22, 0);
    declines(g, train(), THREE, [b"abcdef", MESSAGE], 24, 0);
    declines(g, train(), THREE, [b"abcdefgh", MESSAGE], 24, 0);
    let huge = plain_later(1, u64::MAX);
    says(g, [first, huge, third], 24, 0);
    says(g, [plain_begin(u64::MAX), huge, third], 24, 0);
    says(g, [plain_later(0, 0), second, third], 24, 0);
}

/// No Begin, compression, a CRC.
fn first_segment(g: &mut Group) {
    let [_, second, third] = train();
    let asking = |compression, crc| {
        let services = services(compression, Prohibited, crc);
        (begin(5, None, services), 1)
    };
    let packed = asking(Compression::V42Bis, CrcStatus::None);
    let crc16 = asking(Compression::None, CrcStatus::Crc16);
    let crc24 = asking(Compression::None, CrcStatus::Crc24);
    for first in [plain_later(0, 1), plain_end(0, 1), packed, crc16, crc24] {
        says(g, [first, second, third], 23, 0);
    }
}

/// Each of them before 23.
fn codec(g: &mut Group) {
    let [first, second, third] = train();
    let old = Terms {
        version: 0,
        ..THREE
    };
    let eight = (begin(8, None, None), 1);
    let late = placed(begin(5, None, None), 1);
    let long = Some(4_096);
    let crc = Some(Crc24(0x100_0000));
    declines(g, train(), old, [MESSAGE, MESSAGE], 1, 0);
    says(g, [eight, second, third], 6, 1);
    says(g, [(late, 1), second, third], 6, 3);
    says(g, [first, (late, 3), third], 6, 3);
    says(g, [(begin(5, long, None), 1), second, third], 6, 4);
    says(g, [first, (later(5, 1, long), 3), third], 6, 4);
    says(g, [first, second, (end(5, 2, None, crc), 3)], 6, 5);
}

fn long_data(g: &mut Group) {
    let octets = [0x41; 257];
    let wide = Terms {
        budget: 300,
        ceiling: 300,
        ..THREE
    };
    let longest = [plain_begin(1), plain_later(1, 255), plain_end(2, 1)];
    accepts(g, longest, wide, &octets, Prohibited);
    let longer = [plain_begin(1), plain_later(1, 256), plain_end(2, 0)];
    declines(g, longer, wide, [&octets, &octets], 6, 2);
}

/// One octet less than each segment takes.
fn budgets(g: &mut Group) {
    let [_, second, third] = train();
    let whole = [MESSAGE, MESSAGE];
    let bare = plain_begin(1);
    let small = plain_later(1, 2);
    declines(g, train(), NARROW, whole, 20, 0);
    declines(g, [bare, second, third], NARROW, whole, 20, 0);
    says(g, [(begin(5, Some(7), None), 2), small, third], 20, 0);
    let five = [bare, small, plain_end(2, 2)];
    accepts(g, five, NARROW, b"abcde", Prohibited);
    let six = [bare, small, third];
    declines(g, six, NARROW, [b"abcdef", b"abcdef"], 20, 0);
}

fn places(g: &mut Group) {
    let [first, second, third] = train();
    for heads in [
        [first, (later(4, 1, None), 3), third],
        [first, plain_later(2, 3), third],
        [first, second, plain_end(1, 3)],
        [first, plain_begin(3), third],
        [first, plain_end(1, 3), third],
        [first, second, plain_later(2, 3)],
        [first, second, plain_begin(3)],
        [first, second, (end(4, 2, None, None), 3)],
    ] {
        says(g, heads, 23, 0);
    }
}

/// A length that is not the message's, in each segment; an End with a CRC.
fn parameters(g: &mut Group) {
    let [first, second, third] = train();
    let whole = [MESSAGE, MESSAGE];
    let six = Some(6);
    says(g, [(begin(5, six, None), 1), second, third], 23, 0);
    for heads in [
        [first, (later(5, 1, six), 3), third],
        [first, second, (end(5, 2, six, None), 3)],
        [first, second, (end(5, 2, None, Some(Crc16(0))), 3)],
    ] {
        declines(g, heads, WIDE, whole, 23, 0);
    }
}

/// Not the message's, too few of them, too many.
fn contents(g: &mut Group) {
    let [_, second, third] = train();
    let bare = [plain_begin(1), second, third];
    for joined in [b"Abcdefg", b"abcDefg", b"abcdefG"] {
        declines(g, bare, THREE, [joined, MESSAGE], 23, 0);
    }
    for message in [&b"abcdefgh"[..], b"abcdef", b""] {
        declines(g, bare, THREE, [MESSAGE, message], 23, 0);
    }
}

/// Segment by segment: the 23 of one before the codec's refusal of the next, and 20 before 23 within one.
fn order(g: &mut Group) {
    let [first, _, third] = train();
    let bad = (later(5, 1, Some(4_096)), 3);
    says(g, [(begin(5, Some(6), None), 1), bad, third], 23, 0);
    says(g, [first, bad, plain_end(9, 3)], 6, 4);
    let elsewhere = (later(4, 9, Some(4_096)), 3);
    says(g, [first, elsewhere, third], 6, 4);
    let elsewhere = (later(4, 9, None), 3);
    let heads = [plain_begin(1), elsewhere, third];
    declines(g, heads, NARROW, [MESSAGE, MESSAGE], 20, 0);
}

/// A Begin that asks for Exceptions is taken as any other, and each refusal stands where it stands else.
fn exceptions(g: &mut Group) {
    let [_, second, third] = train();
    let asking = |length, data| (begin(5, length, window(Exceptions)), data);
    let bare = [asking(None, 1), second, third];
    let whole = [MESSAGE, MESSAGE];
    accepts(g, bare, THREE, MESSAGE, Exceptions);
    let stated = [asking(Some(7), 1), second, third];
    accepts(g, stated, WIDE, MESSAGE, Exceptions);
    let sparse = [asking(None, 4), plain_later(1, 0), third];
    accepts(g, sparse, WIDE, MESSAGE, Exceptions);
    let two = Terms {
        count: 2,
        budget: 5,
        version: 1,
        ceiling: 5,
    };
    let empty = [asking(None, 0), plain_end(1, 0), third];
    accepts(g, empty, two, b"", Exceptions);

    let low = Terms {
        ceiling: 5,
        ..THREE
    };
    let one = Terms { count: 1, ..THREE };
    let old = Terms {
        version: 0,
        ..THREE
    };
    declines(g, bare, low, whole, 20, 0);
    declines(g, bare, one, [b"a", b"a"], 22, 0);
    declines(g, bare, THREE, [b"abcdef", MESSAGE], 24, 0);
    declines(g, bare, old, whole, 1, 0);
    declines(g, stated, THREE, whole, 20, 0);
    declines(g, bare, THREE, [b"abcdefG", MESSAGE], 23, 0);
    let eight = (begin(8, None, window(Exceptions)), 1);
    says(g, [eight, second, third], 6, 1);
    let packed = services(Compression::V42Bis, Exceptions, CrcStatus::None);
    let crc16 = services(Compression::None, Exceptions, CrcStatus::Crc16);
    for services in [packed, crc16] {
        says(g, [(begin(5, None, services), 1), second, third], 23, 0);
    }
}

pub fn corners(tally: &mut Tally) {
    tally.group("frozen: true cuttings", true_cuttings);
    tally.group("frozen: ceiling, count, sum of the lengths", sizes);
    tally.group("frozen: the first segment", first_segment);
    tally.group("frozen: the codec's refusals", codec);
    tally.group("frozen: 255 and 256 octets of data", long_data);
    tally.group("frozen: budgets", budgets);
    tally.group("frozen: transaction, sequence, kinds", places);
    tally.group("frozen: lengths and CRC", parameters);
    tally.group("frozen: data", contents);
    tally.group("frozen: each test against the next", order);
    tally.group("frozen: a Begin that asks for Exceptions", exceptions);
}
