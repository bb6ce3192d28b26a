//! Inputs for op 10; those for op 11 are in `frozen`.

use super::frozen;
use super::heads::WINDOWS;
use crate::fields::EXCEPTIONS;
use crate::list::Recorder;
use crate::play::plan::{PLAN, Plans, Wanted};
use crate::random::Random;
use bts136::l3::tsar::AcknowledgmentWindow;

type Record = Recorder<Plans>;

const MOST_LENGTH_STATED: usize = 4095;
/// No message of a list is longer.
pub const LONGEST_MESSAGE: usize = 66_000;
const LAST: u8 = AcknowledgmentWindow::Last as u8;

pub fn make(record: &mut Record) {
    corners(record);
    small_budgets(record);
    most_segments(record);
    stated_lengths(record);
    large_budgets(record);
    test_order(record);
    under_exceptions(record);
    random_plans(record, 1200);
    frozen::make(record);
}

/// A plan under version 1 whose ceiling is exactly the budget.
fn wanted(message_octets: usize, budget: usize, window: u8) -> Wanted {
    Wanted {
        message_octets,
        seed: (message_octets * 31 + budget) as u8,
        budget,
        ceiling: budget,
        transaction: 0,
        window,
        version: 1,
    }
}

/// Records what the planner answers, where equality with it does not leave that out.
fn plan(record: &mut Record, wanted: &Wanted) {
    if !wanted.is_left_out() {
        let mut input = Vec::new();
        wanted.put(&mut input);
        record.call(PLAN, &input);
    }
}

/// Under Last where equality with the planner would leave it out.
fn compared(wanted: Wanted) -> Wanted {
    let window = if wanted.is_left_out() {
        LAST
    } else {
        wanted.window
    };
    Wanted { window, ..wanted }
}

/// The corners of document 01, section l3/tsar/segmentation.rs.
fn corners(record: &mut Record) {
    const PROHIBITED: u8 = 0;
    const EVERY4: u8 = 1;
    let cases = [
        (7, 6, PROHIBITED),
        (256, 4, PROHIBITED),
        (257, 4, PROHIBITED),
        (3, 3, PROHIBITED),
        (4, 3, PROHIBITED),
        (510, 5, EVERY4),
        (511, 5, EVERY4),
        (5, 4, EVERY4),
    ];
    for (message_octets, budget, window) in cases {
        plan(record, &wanted(message_octets, budget, window));
    }
    let empty = Wanted {
        version: 0,
        transaction: 8,
        ..wanted(0, 0, PROHIBITED)
    };
    plan(record, &empty);
}

fn small_budgets(record: &mut Record) {
    for window in 0..WINDOWS {
        for budget in 0..12 {
            for message_octets in [0, budget, budget + 1, budget + 2, 2 * budget + 3, 40] {
                let transaction = record.random.below(8) as u8;
                let wanted = wanted(message_octets, budget, window);
                plan(
                    record,
                    &Wanted {
                        transaction,
                        ..wanted
                    },
                );
            }
        }
    }
}

/// The longest message that a Begin with `begin_octets` before its data and 255 others can hold.
fn most_octets(budget: usize, begin_octets: usize) -> usize {
    budget.saturating_sub(begin_octets).min(255) + 255 * budget.saturating_sub(3).min(255)
}

/// Around 256 segments, with and without services and a stated length.
fn most_segments(record: &mut Record) {
    for budget in (4..24).chain([100, 200, 256, 257, 258, 259, 260, 261, 262, 263, 300]) {
        for (window, begin_octets) in [(0, 3), (0, 5), (1, 5), (4, 7)] {
            let most = most_octets(budget, begin_octets);
            for message_octets in [most - 1, most, most + 1] {
                plan(record, &wanted(message_octets, budget, window));
            }
        }
    }
}

fn stated_lengths(record: &mut Record) {
    let boundary = MOST_LENGTH_STATED;
    for window in [0, LAST] {
        for budget in [
            5, 6, 7, 8, 16, 19, 20, 21, 22, 23, 24, 100, 254, 255, 256, 258, 4093,
        ] {
            for message_octets in [boundary - 1, boundary, boundary + 1, boundary + 2] {
                plan(record, &wanted(message_octets, budget, window));
            }
        }
    }
    // The Begin states the length where the budget passes its bare header by more than 2.
    for window in 0..WINDOWS {
        for budget in 3..12 {
            plan(record, &wanted(60, budget, window));
        }
    }
}

fn large_budgets(record: &mut Record) {
    for budget in [
        250, 258, 260, 262, 300, 511, 1000, 4094, 4095, 4096, 30_000, 65_000,
    ] {
        for window in [0, 2] {
            for message_octets in [budget - 1, budget, budget + 1, budget + 255, budget + 600] {
                plan(record, &wanted(message_octets, budget, window));
            }
        }
    }
    for message_octets in [65_279, 65_280, 65_281, LONGEST_MESSAGE] {
        for budget in [258, 259, 260, 264, LONGEST_MESSAGE] {
            plan(record, &wanted(message_octets, budget, 0));
            plan(record, &wanted(message_octets, budget, 3));
        }
    }
}

/// Several reasons to refuse at once.
fn test_order(record: &mut Record) {
    for budget in [0, 2, 3, 4, 5, 6, 40] {
        for ceiling in [0, budget.max(1) - 1, budget, budget + 1, 0xffff_ffff] {
            for message_octets in [0, budget, budget + 1, 300, 20_000] {
                let random = &mut record.random;
                let transaction = random.pick(&[0, 7, 8, 255]);
                let version = random.pick(&[0, 1, 1, 5, 255]);
                let wanted = wanted(message_octets, budget, random.below(6) as u8);
                let wanted = compared(Wanted {
                    ceiling,
                    transaction,
                    version,
                    ..wanted
                });
                plan(record, &wanted);
            }
        }
    }
}

/// What is the original's under Exceptions: 20, and messages that need no segments; with and
/// without a reason for the codec to refuse.
fn under_exceptions(record: &mut Record) {
    for budget in [1, 3, 4, 5, 6, 40] {
        for (transaction, version) in [(0, 1), (8, 0)] {
            let whole = [(0, budget), (budget, budget)];
            let over = [0, budget, budget + 1].map(|octets| (octets, budget - 1));
            for (message_octets, ceiling) in whole.into_iter().chain(over) {
                let wanted = wanted(message_octets, budget, EXCEPTIONS);
                plan(
                    record,
                    &Wanted {
                        ceiling,
                        transaction,
                        version,
                        ..wanted
                    },
                );
            }
        }
    }
}

fn random_plans(record: &mut Record, count: usize) {
    for _ in 0..count {
        let wanted = compared(any_plan(&mut record.random));
        plan(record, &wanted);
    }
}

fn any_plan(random: &mut Random) -> Wanted {
    let budget = match random.below(4) {
        0 => random.below(10),
        1 => random.within(250, 270),
        _ => random.within(4, 120),
    };
    let message_octets = match random.below(8) {
        0 => random.below(budget + 2),
        1 => random.within(4000, 4200),
        2 if random.once_in(6) => random.below(LONGEST_MESSAGE),
        _ => budget + random.below(8 * budget + 8),
    };
    let over = random.pick(&[0, 0, 0, 1, 1000]);
    Wanted {
        message_octets,
        seed: random.octet(),
        budget,
        ceiling: if random.once_in(25) {
            budget.saturating_sub(1)
        } else {
            budget + over
        },
        transaction: if random.once_in(25) {
            random.octet()
        } else {
            random.below(8) as u8
        },
        window: random.below(usize::from(WINDOWS)) as u8,
        version: if random.once_in(25) {
            0
        } else {
            random.pick(&[1, 1, 2, 5, 255])
        },
    }
}
