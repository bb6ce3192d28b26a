//! The even planner of document 02: the Begin and the count of plan_message, the rest spread. A plan is looked at as plan_message's are; what
//! its record has for the later capacity is the share.

use super::planning::{Asked, Cut, ask, comes_out, order, plans, refuses, unsegmented};
use crate::even::{EIGHT, Even, LEFT_OVER, MOST, STATED, TWO, cut, windows};
use crate::tally::{Group, Tally};
use catkhize::AcknowledgmentWindow::{self, Every4, Last, Prohibited};
use catkhize::calls;

/// The even planner, asked as plan_message is.
pub fn evenly(budget: u64, window: AcknowledgmentWindow) -> Asked {
    Asked {
        planner: calls::plan_even,
        ..ask(budget, window)
    }
}

/// The message is cut so, whatever is asked beside budget and window.
fn spreads(g: &mut Group, asked: Asked, even: Even) {
    let heads = even.heads(asked.transaction);
    let (count, begin) = (heads.len() as u64, heads[0].1);
    let cut = Cut(count, begin, even.share, even.states_length);
    comes_out(g, even.octets, asked, cut, &heads);
}

/// The same, each in transaction 5 under version 1.
fn spread(g: &mut Group, rows: &[Even]) {
    for even in rows {
        spreads(g, evenly(even.budget, even.window), *even);
    }
}

/// plan_message leaves an End of 1 octet.
fn both(g: &mut Group) {
    plans(g, 8, ask(6, Prohibited), Cut(4, 1, 3, true));
    spread(g, &[EIGHT]);
}

/// 20, Unsegmented, 1, 6/1, 21 and 22, each beside a message that is cut.
fn refusals(g: &mut Group) {
    const SEVEN: Even = cut(7, 6, Prohibited, true, 3, &[(1, 1), (2, 3)]);
    let under = |ceiling, budget| Asked {
        ceiling,
        ..evenly(budget, Prohibited)
    };
    refuses(g, 6, under(5, 6), 20, 0);
    refuses(g, 7, under(5, 6), 20, 0);
    spreads(g, under(6, 6), SEVEN);

    let with = |transaction, version| Asked {
        transaction,
        version,
        ..evenly(6, Prohibited)
    };
    unsegmented(g, 6, with(5, 1));
    unsegmented(g, 6, with(8, 1));
    unsegmented(g, 6, with(5, 0));
    unsegmented(g, 0, under(0, 0));
    unsegmented(g, 66_000, under(u64::MAX, u64::MAX));
    refuses(g, 7, with(5, 0), 1, 0);
    spreads(g, with(5, 255), SEVEN);
    refuses(g, 7, with(8, 1), 6, 1);
    spreads(g, with(7, 1), SEVEN);

    refuses(g, 4, evenly(3, Prohibited), 21, 0);
    refuses(g, 5, evenly(4, Every4), 21, 0);
    let least = [
        cut(5, 4, Prohibited, false, 1, &[(1, 1), (4, 1)]),
        cut(6, 5, Every4, false, 2, &[(1, 0), (3, 2)]),
    ];
    spread(g, &least);

    refuses(g, 257, evenly(4, Prohibited), 22, 0);
    refuses(g, 511, evenly(5, Every4), 22, 0);
    refuses(g, 65_281, evenly(258, Prohibited), 22, 0);
    refuses(g, 65_279, evenly(258, Last), 22, 0);
    let most = cut(65_278, 258, Last, false, 255, &[(1, 253), (255, 255)]);
    spread(g, &[most]);
}

pub fn corners(tally: &mut Tally) {
    tally.group("even: 8 octets at 6, by either planner", both);
    tally.group("even: octets left over", |g| spread(g, &LEFT_OVER));
    tally.group("even: two segments", |g| spread(g, &TWO));
    tally.group("even: 255 and 256 segments", |g| spread(g, &MOST));
    tally.group("even: lengths that are stated", |g| spread(g, &STATED));
    tally.group("even: each window", |g| spread(g, &windows()));
    tally.group("even: each refusal at its boundary", refusals);
    tally.group("even: each test against the next", |g| order(g, evenly));
}
