//! The figures of a response's map: how many of its entries are missing, and the first of them, 256 if there is none. They are written here
//! by hand. Maps with marks past their length are given to AcknowledgmentMap::try_new by value alone: no export takes one from a caller and
//! gives its figures.

use super::bench::run;
use super::rows::Row::{Figures, Make, Start};
use super::rows::*;
use crate::octets::FILL;
use crate::tally::{Group, Tally};

/// So many entries are missing, and this is the first.
const fn missing(count: u16, first: u16) -> Row {
    let ([a, b], [c, d]) = (count.to_be_bytes(), first.to_be_bytes());
    Figures([a, b, c, d])
}

/// No response, and no answer at all.
const NONE: Row = Figures([0; 4]);
const UNTOUCHED: Row = Figures([FILL; 4]);

/// The marks of 256 entries.
const ALL: [u64; 4] = [u64::MAX; 4];

/// The marks of 256 entries but for some.
fn all_but(gaps: &[u8]) -> [u64; 4] {
    let mut marks = ALL;
    for s in gaps {
        marks[usize::from(s / 64)] &= !(1 << (s % 64));
    }
    marks
}

/// Empty segments up to a sequence but for some, under a window that answers an End.
fn held(last: u8, gaps: &[u8]) -> Vec<Row> {
    let mut rows = vec![FRESH, begin(LAST, 0, 1_000).holds()];
    let present = (1..=last).filter(|s| !gaps.contains(s));
    rows.extend(present.map(|s| later(s, 0, 1_000).holds()));
    rows
}

/// 256 entries without those at the edges of words: at the End, in the timeout answer, and once they have come.
fn edges(g: &mut Group) {
    for (gaps, count, first) in [
        (&[63][..], 1, 63),
        (&[64], 1, 64),
        (&[127], 1, 127),
        (&[128], 1, 128),
        (&[191], 1, 191),
        (&[192], 1, 192),
        (&[63, 64, 127, 128, 191, 192], 6, 63),
    ] {
        let mut rows = held(254, gaps);
        rows.push(end(255, 0, 1_000).holds().marks(256, all_but(gaps)));
        rows.push(missing(count, first));
        rows.push(advance(301_000).asks().marks(256, all_but(gaps)));
        rows.push(missing(count, first));
        let (last, others) = gaps.split_last().expect("a gap");
        rows.extend(others.iter().map(|s| later(*s, 0, 301_000).holds()));
        rows.push(later(*last, 0, 301_000).hands_over().marks(256, ALL));
        rows.push(missing(0, 256));
        run(g, &[&rows]);
    }
}

/// 256 entries: all held, with an End and then repeated, or in a record that has none; 255 alone missing; 0 and 255 alone held.
fn full(g: &mut Group) {
    let mut whole = held(254, &[]);
    whole.extend([
        end(255, 0, 1_000).hands_over().marks(256, ALL),
        missing(0, 256),
        later(63, 0, 1_000).repeats().marks(256, ALL),
        missing(0, 256),
    ]);
    let mut open = held(254, &[]);
    open.extend([
        advance(301_000).asks().marks(256, all_but(&[255])),
        missing(1, 255),
    ]);
    let made = [
        FRESH,
        begin(LAST, 0, 1_000).holds(),
        Make(|r| r.held = ALL),
        advance(301_000).asks().marks(256, ALL),
        missing(0, 256),
        FRESH,
        begin(LAST, 0, 1_000).holds(),
        Make(|r| r.mark(255)),
        advance(301_000).asks().pair(256, 255),
        missing(254, 1),
    ];
    run(g, &[&whole, &open, &made]);
}

/// A Begin of 2 octets that states 5, to a receiver of at most 100, and sequences 1 to 3 of no octets.
const BEGUN: Row = begin(LAST, 2, 1_000).states(5).holds();
const AT_1: Row = later(1, 0, 1_000).holds();
const AT_2: Row = later(2, 0, 1_000).holds();
const AT_3: Row = later(3, 0, 1_000).holds();

/// A timeout answer with no end has an entry past the highest held sequence, which is missing; one with an end has none.
const TIMEOUTS: &[Row] = &[
    FRESH,
    BEGUN,
    advance(301_000).asks().map(2, 0b1),
    missing(1, 1),
    FRESH,
    BEGUN,
    AT_1,
    AT_2,
    AT_3,
    advance(301_000).asks().map(5, 0b1111),
    missing(1, 4),
    FRESH,
    BEGUN,
    AT_3,
    advance(301_000).asks().map(5, 0b1001),
    missing(3, 1),
    FRESH,
    BEGUN,
    AT_1,
    end(3, 0, 1_000).holds().map(4, 0b1011),
    missing(1, 2),
    advance(301_000).asks().map(4, 0b1011),
    missing(1, 2),
];

/// The slot of a repeat that fails counts as received, whether its data differ or their length.
const FAILING_REPEATS: &[Row] = &[
    FRESH,
    BEGUN,
    AT_2,
    begin(LAST, 2, 2_000)
        .states(5)
        .altered()
        .fails(2)
        .map(3, 0b101),
    missing(1, 1),
    FRESH,
    BEGUN,
    AT_1,
    later(1, 1, 2_000).fails(11).map(2, 0b11),
    missing(0, 256),
    FRESH,
    BEGUN,
    AT_3,
    later(3, 1, 2_000).fails(11).map(4, 0b1001),
    missing(2, 1),
    FRESH,
    BEGUN,
    later(2, 1, 1_000).holds(),
    later(2, 1, 2_000).altered().fails(2).map(3, 0b101),
    missing(1, 1),
];

/// Repeats after Complete, equal ones and one that fails.
const AFTER_COMPLETE: &[Row] = &[
    FRESH,
    BEGUN,
    end(1, 3, 1_000).hands_over().map(2, 0b11),
    missing(0, 256),
    begin(LAST, 2, 2_000).states(5).repeats().map(2, 0b11),
    missing(0, 256),
    end(1, 3, 2_000).repeats().map(2, 0b11),
    missing(0, 256),
    end(1, 2, 2_000).fails(11).map(2, 0b11),
    missing(0, 256),
];

/// A failure before anything of the segment is taken (2); with its services (4, 13); with its stated length (8, 9). Its slot is missing or no
/// entry. With the support list the figures are the same.
const FAILING: &[Row] = &[
    FRESH,
    BEGUN,
    AT_2,
    later(255, 0, 2_000).fails(2).map(3, 0b101),
    missing(1, 1),
    FRESH,
    begin(LAST_V42, 2, 1_000).fails(4).map(1, 0),
    missing(1, 0),
    Start(4, 100),
    begin(SEVERAL_16, 2, 1_000).fails(13).map(1, 0),
    missing(1, 0),
    Start(5, 100),
    begin(SEVERAL_16, 2, 1_000).fails(13).lists(1),
    missing(1, 0),
    FRESH,
    begin(LAST, 2, 1_000).states(101).fails(9).map(1, 0),
    missing(1, 0),
    FRESH,
    BEGUN,
    AT_3,
    later(1, 4, 2_000).fails(8).map(4, 0b1001),
    missing(2, 1),
    FRESH,
    BEGUN,
    later(1, 4, 2_000).fails(8).map(1, 0b1),
    missing(0, 256),
];

/// A failure with the segment held: another length at completion.
const FAILING_WHOLE: &[Row] = &[
    FRESH,
    BEGUN,
    end(1, 2, 2_000).fails(8).map(2, 0b11),
    missing(0, 256),
    FRESH,
    BEGUN,
    end(2, 1, 1_000).holds().map(3, 0b101),
    missing(1, 1),
    later(1, 1, 2_000).fails(8).map(3, 0b111),
    missing(0, 256),
];

/// No response: under Prohibited, to a segment that asks for none, before the deadline.
const UNANSWERED: &[Row] = &[
    FRESH,
    begin(PROHIBITED, 2, 1_000).holds(),
    NONE,
    end(1, 2, 1_000).hands_over(),
    NONE,
    end(1, 2, 1_000).repeats(),
    NONE,
    end(1, 3, 1_000).fails(11),
    NONE,
    FRESH,
    begin(V42, 2, 1_000).fails(4),
    NONE,
    FRESH,
    begin(PROHIBITED, 2, 1_000).holds(),
    advance(301_000).lapses(),
    NONE,
    FRESH,
    BEGUN,
    NONE,
    advance(300_999).waits(),
    NONE,
];

/// A refused call leaves the answer as it was, whether it changes the record or not.
const REFUSED: &[Row] = &[
    FRESH,
    later(1, 0, 1_000).refused(36),
    UNTOUCHED,
    BEGUN,
    advance(999).refused(33),
    UNTOUCHED,
    later(1, 0, 301_001).refused(37),
    UNTOUCHED,
    end(1, 3, 1_000).hands_over().map(2, 0b11),
    later(2, 0, 1_000).closes(),
    UNTOUCHED,
    FRESH,
    begin(PROHIBITED, 2, 1_000).holds(),
    later(1, 0, 301_001).expires(),
    UNTOUCHED,
];

pub fn corners(tally: &mut Tally) {
    tally.group("receiver: figures at the edges of words", edges);
    tally.group("receiver: figures of 256 entries", full);
    tally.group("receiver: figures of timeout answers", |g| {
        run(g, &[TIMEOUTS])
    });
    tally.group("receiver: figures of repeats", |g| {
        run(g, &[FAILING_REPEATS, AFTER_COMPLETE])
    });
    tally.group("receiver: figures of failures", |g| {
        run(g, &[FAILING, FAILING_WHOLE])
    });
    tally.group("receiver: figures where nothing is answered", |g| {
        run(g, &[UNANSWERED, REFUSED])
    });
}
