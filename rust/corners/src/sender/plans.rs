//! 40: plans that no planner and no frozen check gives for the message, one field changed at a time. Those of the even planner are in `even`.

use super::bench::*;
use super::making::{made, plan};
use super::plan::{Plan, frozen, frozen_plan, plan_at, planned};
use crate::octets::{Segment, begin, end, later, placed, services, window};
use catkhize::{Compression, CrcStatus, MessageCrc, layout};

fn new(plan: Plan) -> Sent {
    try_new(&plan, &MESSAGE, 0)
}

/// Each size changed.
fn sizes(g: &mut Group) {
    case(g, new(plan()), made());
    let rows = [
        (planned::MESSAGE_OCTETS, 13),
        (planned::MESSAGE_OCTETS, 15),
        (planned::BUDGET, 8),
        (planned::BUDGET, 10),
        (planned::BUDGET, MAX),
        (planned::BEGIN_OCTETS, 1),
        (planned::BEGIN_OCTETS, 3),
        (planned::LATER_CAPACITY, 5),
        (planned::LATER_CAPACITY, 7),
    ];
    for (at, value) in rows {
        case(g, new(plan().with64(at, value)), refuses(40));
    }
    let unstated = plan().with(planned::STATES_LENGTH, &[0]);
    case(g, new(unstated), refuses(40));
}

/// Each number of segments that is not 3.
fn counts(g: &mut Group) {
    for count in [0, 1, 2, 4, 256, 257, MAX] {
        case(g, new(plan().with64(planned::COUNT, count)), refuses(40));
    }
}

/// With another transaction, or another window that has services, it is another plan of the message; no planner gives one under Exceptions.
fn others(g: &mut Group) {
    let rows = [
        (planned::TRANSACTION, 0, made()),
        (planned::TRANSACTION, 7, made()),
        (planned::TRANSACTION, 8, refuses(40)),
        (planned::WINDOW, Every8 as u8, made()),
        (planned::WINDOW, Every16 as u8, made()),
        (planned::WINDOW, Last as u8, made()),
        (planned::WINDOW, Exceptions as u8, refuses(40)),
        (planned::WINDOW, Prohibited as u8, refuses(40)),
    ];
    for (at, value, want) in rows {
        case(g, new(plan().with(at, &[value])), want);
    }
}

/// A message of one segment and of 257: the planner gives neither.
fn hand_made(g: &mut Group) {
    let message = [0xA5; 512];
    let hand_made = |plan: Plan, octets: usize, count| {
        let plan = plan
            .with64(planned::MESSAGE_OCTETS, octets as u64)
            .with64(planned::COUNT, count);
        try_new(&plan, &message[..octets], 0)
    };
    let most = plan_at(&message[..510], 5, Every4);
    let rows = [
        (hand_made(plan(), 9, 1), refuses(40)),
        (try_new(&most, &message[..510], 0), made()),
        (hand_made(most, 512, 257), refuses(40)),
    ];
    cases(g, rows);
}

/// A message of another length.
fn messages(g: &mut Group) {
    for plan in [plan(), frozen_plan()] {
        let rows = [
            (try_new(&plan, &[0xA5; 13], 0), refuses(40)),
            (try_new(&plan, &[0xA5; 15], 0), refuses(40)),
            (try_new(&plan, b"", 0), refuses(40)),
            (try_new(&plan, b"another octets", 0), made()),
        ];
        cases(g, rows);
    }
}

/// The numbers of a frozen record. A greater budget, and the least that holds the segments, are those of other frozen plans.
fn frozen_numbers(g: &mut Group) {
    case(g, new(frozen_plan()), made());
    let rows = [
        (frozen::COUNT, 0, refuses(40)),
        (frozen::COUNT, 1, refuses(40)),
        (frozen::COUNT, 2, refuses(40)),
        (frozen::COUNT, 4, refuses(40)),
        (frozen::COUNT, 257, refuses(40)),
        (frozen::MESSAGE_OCTETS, 13, refuses(40)),
        (frozen::MESSAGE_OCTETS, 15, refuses(40)),
        (frozen::BUDGET, 8, refuses(40)),
        (frozen::BUDGET, 9, made()),
        (frozen::BUDGET, MAX, made()),
    ];
    for (at, value, want) in rows {
        case(g, new(frozen_plan().with64(at, value)), want);
    }
    let last = frozen_plan().with(frozen::WINDOW, &[Last as u8]);
    case(g, new(last), refuses(40));
}

/// The frozen plan with the head at an index changed: segment and data length.
fn with_heads<const N: usize>(g: &mut Group, rows: [(usize, Segment, u64, Outcome); N]) {
    for (index, segment, data_octets, want) in rows {
        let plan = frozen_plan().with_head(index, segment, data_octets);
        case(g, new(plan), want);
    }
}

/// The Continue at 1, changed.
fn middle(g: &mut Group) {
    let first = begin(TRANSACTION, None, window(Every4));
    let rows = [
        (1, later(TRANSACTION, 1, None), 6, made()),
        (1, later(TRANSACTION, 1, Some(14)), 6, made()),
        (1, later(TRANSACTION, 1, Some(13)), 6, refuses(40)),
        (1, later(TRANSACTION, 2, None), 6, refuses(40)),
        (1, later(TRANSACTION, 1, None), 5, refuses(40)),
        (1, later(TRANSACTION, 1, None), 7, refuses(40)),
        (1, end(TRANSACTION, 1, None, None), 6, refuses(40)),
        (1, placed(first, 1), 6, refuses(40)),
    ];
    with_heads(g, rows);
}

/// The Begin and the End, changed.
fn ends(g: &mut Group) {
    let first = |services| begin(TRANSACTION, None, services);
    let compressed = services(Compression::V42Bis, Every4, CrcStatus::None);
    let checked = services(Compression::None, Every4, CrcStatus::Crc16);
    let with_crc = end(TRANSACTION, 2, None, Some(MessageCrc::Crc16(0)));
    let rows = [
        (0, begin(2, None, window(Every4)), 4, refuses(40)),
        (0, placed(first(window(Every4)), 1), 4, refuses(40)),
        (0, later(TRANSACTION, 0, None), 4, refuses(40)),
        (0, first(compressed), 4, refuses(40)),
        (0, first(checked), 4, refuses(40)),
        (0, first(window(Last)), 4, refuses(40)),
        (0, first(None), 4, refuses(40)),
        (2, with_crc, 4, refuses(40)),
        (2, later(TRANSACTION, 2, None), 4, refuses(40)),
    ];
    with_heads(g, rows);
}

/// Anything past the count.
fn past_count(g: &mut Group) {
    let bare = begin(0, None, None);
    let rows = [
        (3, bare, 0, made()),
        (3, begin(1, None, None), 0, refuses(40)),
        (3, placed(bare, 1), 0, refuses(40)),
        (3, bare, 1, refuses(40)),
        (3, later(0, 0, None), 0, refuses(40)),
        (3, begin(0, Some(14), None), 0, refuses(40)),
        (3, begin(0, None, window(Every4)), 0, refuses(40)),
        (255, bare, 1, refuses(40)),
    ];
    with_heads(g, rows);
}

/// Under Planned the frozen record beside the plan is the empty one: no planner gives another.
fn beside(g: &mut Group) {
    let frozen_record = &frozen_plan().0[frozen::COUNT..layout::PLAN];
    let both = plan().with(frozen::COUNT, frozen_record);
    case(g, new(both), refuses(40));
    case(g, new(plan().with64(frozen::COUNT, 257)), refuses(40));
    case(g, new(plan().with64(frozen::COUNT, 0)), made());
}

pub fn corners(tally: &mut Tally) {
    tally.group("sender: plans with a size changed", sizes);
    tally.group("sender: plans with the count changed", counts);
    tally.group("sender: plans with transaction or window changed", others);
    tally.group("sender: plans of 1, 256 and 257 segments", hand_made);
    tally.group("sender: messages of another length", messages);
    tally.group("sender: frozen plans with a number changed", frozen_numbers);
    tally.group("sender: frozen plans with the Continue changed", middle);
    tally.group(
        "sender: frozen plans with the Begin or the End changed",
        ends,
    );
    tally.group("sender: frozen plans with heads past the count", past_count);
    tally.group("sender: a frozen record beside a planned one", beside);
}
