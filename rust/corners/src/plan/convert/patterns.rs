//! 26: a train that is not in the dialect being read, whichever segments of it state the length.

use super::{TRANSACTION, converts, proposed_in, proposes, refuses, refuses_both};
use crate::dialects::{
    ALL, BOTH, Cutting, EMPTY, LONG_END, MOST, ROOM, Stating, THREE, TWO, cut, stating_at,
};
use crate::tally::{Group, Tally};
use catkhize::AcknowledgmentWindow::Prohibited;
use catkhize::Dialect::BeginOnly;

/// Which reading of a train converts it: as Begin only, as every segment. Else it is 26.
type Converts = [bool; 2];

const NEITHER: Converts = [false, false];
const AS_BEGIN_ONLY: Converts = [true, false];
const AS_EVERY: Converts = [false, true];

/// Reads the message's train in which the segments at these places state the length.
fn reads(g: &mut Group, cutting: Cutting, states: impl Fn(usize) -> bool, wanted: Converts) {
    let heads = cutting.stating(TRANSACTION, states);
    let first = proposes(cutting, &heads, ROOM);
    for ((read, written), converted) in BOTH.into_iter().zip(wanted) {
        if converted {
            let heads = cutting.heads(TRANSACTION, written);
            converts(g, &first, read, &heads, cutting.window);
        } else {
            refuses(g, &first, read, 26, 0);
        }
    }
}

/// Place i is bit i.
fn bits(bits: u32) -> impl Fn(usize) -> bool {
    move |place| bits >> place & 1 == 1
}

/// Every pattern of two segments, of which Begin and End are all, and of three.
fn few(g: &mut Group) {
    for cutting in [TWO, EMPTY] {
        reads(g, cutting, bits(0b00), NEITHER);
        reads(g, cutting, bits(0b01), AS_BEGIN_ONLY);
        reads(g, cutting, bits(0b10), NEITHER);
        reads(g, cutting, bits(0b11), AS_EVERY);
    }
    reads(g, THREE, bits(0b000), NEITHER);
    reads(g, THREE, bits(0b001), AS_BEGIN_ONLY);
    reads(g, THREE, bits(0b010), NEITHER);
    reads(g, THREE, bits(0b011), NEITHER);
    reads(g, THREE, bits(0b100), NEITHER);
    reads(g, THREE, bits(0b101), NEITHER);
    reads(g, THREE, bits(0b110), NEITHER);
    reads(g, THREE, bits(0b111), AS_EVERY);
}

/// Every pattern of eight segments.
fn eight(g: &mut Group) {
    let cutting = cut(16, Prohibited, [ROOM; 2], &[(8, 2)]);
    for pattern in 0..256 {
        reads(g, cutting, bits(pattern), [pattern == 1, pattern == 255]);
    }
}

/// 256 segments: none, the Begin, the End, both, and all but these.
fn most(g: &mut Group) {
    const END: usize = 255;
    reads(g, MOST, |_| false, NEITHER);
    reads(g, MOST, |i| i == 0, AS_BEGIN_ONLY);
    reads(g, MOST, |i| i == END, NEITHER);
    reads(g, MOST, |i| i == 0 || i == END, NEITHER);
    reads(g, MOST, |_| true, AS_EVERY);
    reads(g, MOST, |i| i != 0, NEITHER);
    reads(g, MOST, |i| i != END, NEITHER);
    reads(g, MOST, |i| i != 0 && i != END, NEITHER);
}

/// One of 256 segments is not as either dialect has it.
fn one_of_most(g: &mut Group) {
    for other in 0..256 {
        reads(g, MOST, |i| (i == 0) != (i == other), NEITHER);
        reads(g, MOST, |i| i != other, NEITHER);
    }
}

/// A train that is in the dialect that would be written.
fn exchanged(g: &mut Group) {
    for cutting in ALL {
        for (read, written) in BOTH {
            for budget in [cutting.longest[1], ROOM] {
                refuses(g, &proposed_in(cutting, written, budget), read, 26, 0);
            }
        }
    }
}

/// Over 4,095 octets no length can be stated. What the frozen check takes states none; a stated one above 4,095 is 6/4, any other 23.
fn over_long(g: &mut Group) {
    let patterns: [Stating; 4] = [|i| i == 0, |_| true, |i| i != 0, |i| i == 16];
    for cutting in [
        cut(4_096, Prohibited, [ROOM; 2], &[(16, 255), (1, 16)]),
        cut(65_280, Prohibited, [ROOM; 2], &[(256, 255)]),
    ] {
        let bare = cutting.stating(TRANSACTION, |_| false);
        g.case(proposes(cutting, &bare, ROOM).freeze().0, 0);
        reads(g, cutting, |_| false, NEITHER);
        for (length, n, m) in [
            (cutting.octets, 6, 4),
            (65_535, 6, 4),
            (4_095, 23, 0),
            (0, 23, 0),
        ] {
            for states in patterns {
                let heads = stating_at(&bare, length, states);
                refuses_both(g, &proposes(cutting, &heads, ROOM), n, m);
            }
        }
    }
}

/// Trains at a budget that the segments keep as they come, and that one passes once every segment states the length.
fn before_the_budget(g: &mut Group) {
    let short_end = cut(4_080, Prohibited, [20, 21], &[(1, 15), (254, 16), (1, 1)]);
    let patterns: [(Cutting, Stating); 8] = [
        (TWO, |_| false),
        (THREE, |_| false),
        (THREE, |i| i == 2),
        (THREE, |i| i != 1),
        (LONG_END, |i| i != 2),
        (MOST, |_| false),
        (short_end, |i| i == 255),
        (short_end, |i| i == 0 || i == 255),
    ];
    for (cutting, states) in patterns {
        let budget = cutting.longest[0];
        let passing = proposed_in(cutting, BeginOnly, budget);
        refuses(g, &passing, BeginOnly, 20, 0);
        let first = proposes(cutting, &cutting.stating(TRANSACTION, states), budget);
        g.case(first.freeze().0, 0);
        refuses_both(g, &first, 26, 0);
    }
}

pub fn corners(tally: &mut Tally) {
    let title = "convert: every pattern of two and of three segments";
    tally.group(title, few);
    tally.group("convert: every pattern of eight segments", eight);
    tally.group("convert: patterns of 256 segments", most);
    tally.group(
        "convert: one of 256 segments against the others",
        one_of_most,
    );
    tally.group("convert: the dialect that would be written", exchanged);
    tally.group("convert: messages over 4,095 octets", over_long);
    tally.group(
        "convert: 26 before 20 of what is written",
        before_the_budget,
    );
}
