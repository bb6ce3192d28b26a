//! Exceptions, by document 02: both planners refuse it with 25, behind 20 and Unsegmented, before the codec's refusals, 21 and 22. Under the other
//! windows they answer the same questions as document 01 says, and the frozen check takes what they do not cut.

use self::Comes::{Planned, Refused, Whole};
use super::planning::{Asked, Cut, SEED, ask, freeze, plans, refuses, stuck, unsegmented};
use super::{Planner, frozen_plan, wrong_part};
use crate::exceptions::ALL;
use crate::octets::{PAST, difference, filled, pattern, refusal};
use crate::tally::{Group, Tally};
use catkhize::AcknowledgmentWindow::{self, Every4, Every8, Every16, Exceptions, Last, Prohibited};
use catkhize::{calls, layout};

const PLANNERS: [Planner; 2] = [calls::plan_message, calls::plan_even];

const OTHERS: [AcknowledgmentWindow; 5] = [Prohibited, Every4, Every8, Every16, Last];

/// What comes of a question. The later segments of a plan are full, so that both planners give it.
#[derive(Clone, Copy)]
enum Comes {
    Whole,
    Refused(u32, u32),
    Planned(Cut),
}

/// The octets of a message, what is asked beside planner and window, and what comes of it: under Prohibited, under the other windows, under
/// Exceptions.
type Question = (usize, Asked, [Comes; 3]);

/// A budget under a ceiling.
fn under(ceiling: u64, budget: u64) -> Asked {
    Asked {
        ceiling,
        ..ask(budget, Exceptions)
    }
}

/// A budget with a transaction and a version.
fn with(transaction: u8, version: u8, budget: u64) -> Asked {
    Asked {
        transaction,
        version,
        ..ask(budget, Exceptions)
    }
}

/// 20 and Unsegmented, also where all that comes behind them is wrong. They are the same under every window.
fn tests_before() -> Vec<Question> {
    const MAX: u64 = u64::MAX;
    let wrong = with(8, 0, 3);
    let low = Asked {
        ceiling: 2,
        ..wrong
    };
    let over = [
        (0, under(0, 1)),
        (0, under(5, 6)),
        (6, under(5, 6)),
        (7, under(5, 6)),
        (0, low),
        (66_000, low),
        (66_000, under(MAX - 1, MAX)),
    ];
    let whole = [
        (0, under(0, 0)),
        (0, under(6, 6)),
        (5, under(6, 6)),
        (6, under(6, 6)),
        (0, wrong),
        (3, wrong),
        (66_000, under(66_000, 66_000)),
        (66_000, under(MAX, MAX)),
    ];
    let over = over.map(|(octets, asked)| (octets, asked, [Refused(20, 0); 3]));
    let whole = whole.map(|(octets, asked)| (octets, asked, [Whole; 3]));
    [&over[..], &whole].concat()
}

/// Messages of an octet more than the budget and longer ones: those that are planned, and each refusal behind 25, alone and with those behind it.
fn tests_behind() -> [Question; 19] {
    let retired = Refused(25, 0);
    let (version, transaction) = (Refused(1, 0), Refused(6, 1));
    let (header, count) = (Refused(21, 0), Refused(22, 0));
    let seven = [
        Planned(Cut(3, 1, 3, true)),
        Planned(Cut(3, 1, 3, false)),
        retired,
    ];
    let ones = |count| Planned(Cut(count, 1, 1, false));
    let twos = |count, begin| Planned(Cut(count, begin, 2, false));
    let most = Planned(Cut(256, 255, 255, false));
    [
        (7, under(6, 6), seven),
        (7, with(7, 255, 6), seven),
        (65_280, with(5, 1, 65_279), [most, most, retired]),
        (7, with(5, 0, 6), [version, version, retired]),
        (7, with(8, 0, 6), [version, version, retired]),
        (66_000, with(8, 0, 3), [version, version, retired]),
        (4, with(8, 0, 3), [version, version, retired]),
        (7, with(8, 1, 6), [transaction, transaction, retired]),
        (66_000, with(255, 1, 0), [transaction, transaction, retired]),
        (7, under(4, 4), [ones(7), header, retired]),
        (7, under(3, 3), [header, header, retired]),
        (7, under(0, 0), [header, header, retired]),
        (1, under(0, 0), [header, header, retired]),
        (66_000, under(3, 3), [header, header, retired]),
        (256, under(4, 4), [ones(256), header, retired]),
        (257, under(4, 4), [count, header, retired]),
        (510, under(5, 5), [twos(255, 2), twos(256, 0), retired]),
        (512, under(5, 5), [twos(256, 2), count, retired]),
        (65_281, under(258, 258), [count, count, retired]),
    ]
}

/// Each question to both planners under these windows.
fn asks(g: &mut Group, questions: &[Question], windows: &[AcknowledgmentWindow]) {
    for planner in PLANNERS {
        for (octets, asked, [prohibited, others, exceptions]) in questions {
            for window in windows {
                let asked = Asked {
                    planner,
                    window: *window,
                    ..*asked
                };
                let comes = match window {
                    Prohibited => prohibited,
                    Exceptions => exceptions,
                    _ => others,
                };
                match *comes {
                    Whole => unsegmented(g, *octets, asked),
                    Refused(n, m) => refuses(g, *octets, asked, n, m),
                    Planned(cut) => plans(g, *octets, asked, cut),
                }
            }
        }
    }
}

/// The exports' own refusals come before 20, Unsegmented and 25: a PLAN that is short, and then a number that names no window. With a PLAN that is
/// just long enough 5 names one.
fn own(g: &mut Group) {
    const BUDGET: u64 = 6;
    const SHORT: u32 = refusal(256, 0);
    const UNNAMED: u32 = refusal(258, 0);
    let exceptions = Exceptions as u8;
    for planner in PLANNERS {
        for (octets, ceiling, number) in [(7, 5, refusal(20, 0)), (6, 6, 1), (7, 6, refusal(25, 0))]
        {
            for (window, room, number) in [
                (exceptions, layout::PLAN, number),
                (exceptions, layout::PLAN - 1, SHORT),
                (exceptions, 0, SHORT),
                (6, layout::PLAN - 1, SHORT),
                (255, layout::PLAN - 1, SHORT),
                (6, layout::PLAN, UNNAMED),
                (255, layout::PLAN, UNNAMED),
            ] {
                let mut plan = filled(room);
                let message = pattern(octets, SEED);
                let given = planner(&message, BUDGET, 5, window, 1, ceiling, &mut plan);
                let untouched = difference(&plan, &filled(room));
                g.case((given, untouched), (number, None));
            }
        }
    }
}

/// Both planners refuse each message. Under Every4 one of them cuts it so, or both, unless a later segment is empty.
fn refused_cuttings(g: &mut Group) {
    for cutting in ALL {
        let asked = ask(cutting.budget, Exceptions);
        let both = PLANNERS.map(|planner| Asked { planner, ..asked });
        for asked in both {
            refuses(g, cutting.octets, asked, 25, 0);
        }
        let message = pattern(cutting.octets, SEED);
        let heads = cutting.heads_under(asked.transaction, Every4);
        let cuts = |asked| {
            let other = Asked {
                window: Every4,
                ..asked
            };
            wrong_part(&other.plan(&message).1, &heads).is_none()
        };
        let full = heads[1..].iter().all(|(_, data)| *data > 0);
        g.case(both.into_iter().any(cuts), full);
    }
}

/// The frozen check takes the segments at the budget, where each travels, and gives 20 below it.
fn frozen_cuttings(g: &mut Group) {
    for cutting in ALL {
        let asked = ask(cutting.budget, Exceptions);
        let message = pattern(cutting.octets, SEED);
        let heads = cutting.heads(asked.transaction);
        let (given, plan) = freeze(&heads, &message, asked);
        let wanted = frozen_plan(&heads, &message, asked.budget, Exceptions);
        g.case(
            (
                (given, difference(&plan, &wanted)),
                wrong_part(&plan, &heads),
                stuck(&heads, &message, asked),
            ),
            ((0, None), None, None),
        );
        let below = ask(cutting.budget - 1, Exceptions);
        let (given, plan) = freeze(&heads, &message, below);
        let untouched = difference(&plan, &filled(layout::PLAN + PAST));
        g.case((given, untouched), (refusal(20, 0), None));
    }
}

pub fn corners(tally: &mut Tally) {
    let (before, behind) = (tests_before(), tests_behind());
    tally.group("exceptions: 20 and Unsegmented before 25", |g| {
        asks(g, &before, &[Exceptions])
    });
    tally.group("exceptions: 25 before 1, 6/1, 21 and 22", |g| {
        asks(g, &behind, &[Exceptions])
    });
    tally.group("exceptions: the same under the other windows", |g| {
        asks(g, &before, &OTHERS);
        asks(g, &behind, &OTHERS);
    });
    tally.group("exceptions: 256 and 258 before them", own);
    let title = "exceptions: messages that no planner cuts";
    tally.group(title, refused_cuttings);
    let title = "exceptions: the same messages, frozen";
    tally.group(title, frozen_cuttings);
}
