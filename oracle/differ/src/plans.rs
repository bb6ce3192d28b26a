//! Plans: both planners, segment i of a plan, the frozen check and the converter.

use crate::dialects;
use crate::even;
use crate::exceptions;
use crate::spell::{self, FILLING, filled};
use crate::table::{
    Area, BUDGET_AND_WINDOW, EVEN_LEFT, EVEN_LONGER_END, EVEN_MOST, EVEN_PLANNER, EVEN_TWO,
    EVEN_WHOLE, Table, WINDOW_AND_CAPACITY, WINDOW_AND_CODEC, WINDOW_AND_COUNT, WINDOW_PLAN,
    WINDOW_WHOLE,
};
use crate::watch::{Case, Checked, Checker, number, same, same_given};
use bts136::l3::tsar::{MessagePlan, Segment, SegmentedMessage};
use catkhize::{calls, layout};
use record::fields::EXCEPTIONS;
use record::octets::{Put, Take, pattern};
use record::play::plan::{Frozen, MAX_SEGMENTS, PLAN, Plans, Wanted};
use record::random::Random;
use record::refusals::{PAYLOAD_BUDGET, Refusal};

const PLANNER: &str = "planner";
const FROZEN_CHECK: &str = "frozen check";

#[derive(Default)]
pub struct PlanChecker {
    /// Every now and then all segments of a plan are asked for, else some.
    plans: usize,
}

impl Checker for PlanChecker {
    type Original = Plans;

    const NAME: &'static str = "plans";

    fn opens(_: u8) -> bool {
        true
    }

    fn check(&mut self, _: &mut Plans, case: &Case, _: &[u8], table: &mut Table) -> Checked {
        self.plans += 1;
        let all = self.plans.is_multiple_of(16);
        let mut take = Take(&case.input);
        if case.op == PLAN {
            planners(table, &Wanted::take(&mut take), all)
        } else {
            train(table, &Frozen::take(&mut take), all)
        }
    }

    fn probe(&mut self, _: &mut Plans, case: &Case, table: &mut Table) -> Checked {
        planners(table, &Wanted::take(&mut Take(&case.input)), false)
    }

    fn any_probe(&self, _: &mut Random, _: Option<&Case>) -> Option<Case> {
        None
    }

    /// After a plan under another window, the same under Exceptions. Of these the recorder has only what equality with the original's planner
    /// does not leave out.
    fn any_other(&self, _: &mut Random, last: &Case) -> Option<Case> {
        if last.op != PLAN {
            return None;
        }
        let mut wanted = Wanted::take(&mut Take(&last.input));
        if wanted.window == EXCEPTIONS {
            return None;
        }
        wanted.window = EXCEPTIONS;
        let mut input = Vec::new();
        wanted.put(&mut input);
        Some(Case { op: PLAN, input })
    }
}

/// Octets past a plan's layout, which stay as they are.
pub const MORE: usize = 3;

/// An entry of a planner.
pub type Planner = fn(&[u8], u64, u8, u8, u8, u64, &mut [u8]) -> u32;

/// Calls a planner; the plan where there is one.
pub fn port_plan(planner: Planner, wanted: &Wanted, message: &[u8]) -> (u32, Vec<u8>) {
    let mut plan = filled(layout::PLAN + MORE);
    let given = planner(
        message,
        wanted.budget as u64,
        wanted.transaction,
        wanted.window,
        wanted.version,
        wanted.ceiling as u64,
        &mut plan,
    );
    (given, plan)
}

/// Both planners on a message; and the even train.
fn planners(table: &mut Table, wanted: &Wanted, all: bool) -> Checked {
    let message = pattern(wanted.message_octets, wanted.seed);
    let original = exceptions::planned(wanted);
    if wanted.window == EXCEPTIONS {
        window_inputs(table.area(PLANNER), wanted);
    }
    let found = port_plan(calls::plan_message, wanted, &message);
    planner(table.area(PLANNER), found, &original, spell::planned, all)?;

    let named = |what: String| format!("plan_even: {what}");
    let even = even::spread(wanted, &original).map_err(named)?;
    let found = port_plan(calls::plan_even, wanted, &message);
    let area = table.area(EVEN_PLANNER);
    planner(area, found, &even, spell::evenly, all).map_err(named)?;
    let Ok(MessagePlan::Segmented(original)) = original else {
        return Ok(());
    };
    even_inputs(area, &original);
    train(table, &even::train(wanted, &original), all).map_err(named)
}

/// What comes before or behind 25, by what the original answers under Exceptions.
fn window_inputs(area: &mut Area, wanted: &Wanted) {
    area.input(match wanted.plan() {
        Ok(MessagePlan::Unsegmented(_)) => WINDOW_WHOLE,
        Ok(MessagePlan::Segmented(_)) => WINDOW_PLAN,
        Err(PAYLOAD_BUDGET) if wanted.message_octets <= wanted.budget => return,
        Err(PAYLOAD_BUDGET) => BUDGET_AND_WINDOW,
        Err((21, _)) => WINDOW_AND_CAPACITY,
        Err((22, _)) => WINDOW_AND_COUNT,
        Err(_) => WINDOW_AND_CODEC,
    });
}

/// What an even plan was of: by the original's plan of the same message.
fn even_inputs(area: &mut Area, original: &SegmentedMessage) {
    let lengths = even::lengths(original);
    let count = lengths.len();
    let left = lengths[1] > lengths[count - 1];
    area.input(if left { EVEN_LEFT } else { EVEN_WHOLE });
    if count == 2 {
        area.input(EVEN_TWO);
    }
    if left && count == MAX_SEGMENTS {
        area.input(EVEN_MOST);
    }
    if original.segments()[count - 1].segment_data.len() < lengths[count - 1] {
        area.input(EVEN_LONGER_END);
    }
}

/// What a planner gave, where the original's answer is known, and a plan's octets.
fn planner(
    area: &mut Area,
    (found, plan): (u32, Vec<u8>),
    original: &Result<MessagePlan, Refusal>,
    spelled: fn(&SegmentedMessage) -> Vec<u8>,
    all: bool,
) -> Checked {
    area.count(found);
    match original {
        Err(refusal) => {
            same_given(found, number(*refusal))?;
            same("plan", &plan, &filled(layout::PLAN + MORE))
        }
        Ok(MessagePlan::Unsegmented(_)) => {
            same_given(found, 1)?;
            same("plan", &plan, &filled(layout::PLAN + MORE))
        }
        Ok(MessagePlan::Segmented(original)) => {
            same_given(found, 0)?;
            let mut expected = spelled(original);
            expected.put_all(&[FILLING; MORE]);
            same("plan", &plan, &expected)?;
            segments(area, &plan, original, all)
        }
    }
}

/// Segments of a plan: all, or the first and the last ones; and that there is none past the count.
fn segments(area: &mut Area, plan: &[u8], original: &SegmentedMessage, all: bool) -> Checked {
    let segments = original.segments();
    let count = segments.len();
    let mut offset = 0;
    for (index, segment) in segments.iter().enumerate() {
        if all || index < 3 || index + 3 > count || index % 64 == 63 {
            part(area, plan, index, Some((segment, offset)))?;
        }
        offset += segment.segment_data.len();
    }
    if count < MAX_SEGMENTS {
        part(area, plan, count, None)?;
        part(area, plan, MAX_SEGMENTS - 1, None)?;
    }
    Ok(())
}

fn part(
    area: &mut Area,
    plan: &[u8],
    index: usize,
    expected: Option<(&Segment, usize)>,
) -> Checked {
    let mut answer = [FILLING; layout::PART];
    let index = u8::try_from(index).expect("a plan has 256 segments");
    let found = calls::plan_segment(plan, index, &mut answer);
    area.count(found);
    let named = |what: String| format!("segment {index}: {what}");
    match expected {
        None => {
            same_given(found, 1).map_err(named)?;
            same("answer", &answer, &[FILLING; layout::PART]).map_err(named)
        }
        Some((segment, offset)) => {
            same_given(found, 0).map_err(named)?;
            let mut expected = spell::head(segment, segment.segment_data.len());
            expected.put64(offset as u64);
            same("answer", &answer, &expected).map_err(named)
        }
    }
}

/// What a planner is to be asked for to give the plan of a frozen train, if one does.
pub fn wanted(frozen: &Frozen, plan: &SegmentedMessage) -> Wanted {
    Wanted {
        message_octets: frozen.message_octets,
        seed: frozen.message_seed,
        budget: frozen.budget,
        ceiling: frozen.ceiling,
        transaction: plan.segments()[0].transaction_id,
        window: plan.acknowledgment_window() as u8,
        version: frozen.version,
    }
}

/// The heads of a frozen plan as the port takes them: 256, those past the count not empty.
pub fn head_octets(frozen: &Frozen) -> Vec<u8> {
    let mut octets = Vec::with_capacity(layout::HEADS);
    for head in frozen.heads.iter().take(MAX_SEGMENTS) {
        octets.put_all(&spell::head(&head.segment, head.data_octets));
    }
    // Heads past the count are not read: the last one stands there again, but for its stated length, or the empty one.
    let filler = frozen.heads.last().map_or(vec![0; layout::HEAD], |last| {
        let amiss = dialects::amiss(&last.segment, frozen.message_octets as u16);
        spell::head(&amiss, last.data_octets)
    });
    while octets.len() < layout::HEADS {
        octets.put_all(&filler);
    }
    octets
}

/// Calls try_from_frozen; the plan where there is one.
pub fn port_frozen(frozen: &Frozen) -> (u32, Vec<u8>) {
    let mut plan = filled(layout::PLAN + MORE);
    let given = calls::try_from_frozen(
        &head_octets(frozen),
        frozen.count as u64,
        &frozen.joined(),
        &frozen.message(),
        frozen.budget as u64,
        frozen.version,
        frozen.ceiling as u64,
        &mut plan,
    );
    (given, plan)
}

/// The frozen check of a train, and the converter.
fn train(table: &mut Table, frozen: &Frozen, all: bool) -> Checked {
    frozen_check(table.area(FROZEN_CHECK), frozen, all)?;
    dialects::converts(table, frozen)
}

fn frozen_check(area: &mut Area, frozen: &Frozen, all: bool) -> Checked {
    let original = frozen.check();
    let found = port_frozen(frozen);
    area.count(found.0);
    same_frozen(&found, &original)?;
    match original {
        Err(_) => Ok(()),
        Ok(original) => segments(area, &found.1, &original, all),
    }
}

/// What a call that writes a frozen plan gave, and the plan's octets.
pub fn same_frozen(
    (found, plan): &(u32, Vec<u8>),
    expected: &Result<SegmentedMessage, Refusal>,
) -> Checked {
    match expected {
        Err(refusal) => {
            same_given(*found, number(*refusal))?;
            same("plan", plan, &filled(layout::PLAN + MORE))
        }
        Ok(original) => {
            same_given(*found, 0)?;
            let mut expected = spell::frozen(original);
            expected.put_all(&[FILLING; MORE]);
            same("plan", plan, &expected)
        }
    }
}
