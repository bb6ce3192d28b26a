//! Buffers of every wrong size, and segments, heads and responses with every octet changed: the exports' own refusals of calls that keep
//! no record. (Records of receivers and senders are damaged where lists of calls run.)

use crate::codec;
use crate::dialects;
use crate::spell::{self, filled};
use crate::spells;
use crate::table::{
    Area, CONVERTERS, EVEN_PLANNER, MORE_THAN_FITS, ONE_MORE, PAST_MESSAGE, TOO_MANY, Table,
};
use crate::watch::{Checked, number, same, same_given};
use bts136::l3::tsar::{Segment, SegmentKind, SegmentedMessage};
use catkhize::{calls, layout};
use record::fields::take_head;
use record::make::frozen::any_cutting;
use record::make::heads::any_segment;
use record::octets::{Put, Take};
use record::play::plan::{Frozen, Head, Wanted};
use record::random::Random;
use record::refusals::Refusal;

use crate::plans::{Planner, head_octets, port_frozen, port_plan};

const SHORT: u32 = 256 * spells::TOO_SHORT;
const SPELLS_NONE: u32 = 256 * spells::SPELLS_NONE;
const NAMES_NONE: u32 = 256 * spells::NAMES_NONE;

pub fn codec(table: &mut Table, seed: u64) -> Checked {
    segments(table.area("codec"), &mut Random::new(seed))?;
    answers(table.area("codec"))
}

pub fn plans(table: &mut Table, seed: u64) -> Checked {
    let random = &mut Random::new(seed);
    let lengths = (0..40).map(|_| random.below(layout::PLAN));
    let lengths: Vec<usize> = lengths.chain([0, 1, layout::PLAN - 1]).collect();
    planner(table.area("planner"), calls::plan_message, &lengths)?;
    planner(table.area(EVEN_PLANNER), calls::plan_even, &lengths)?;
    plan_segments(table.area("planner"), random, &lengths)?;
    frozen(table.area("frozen check"), random)?;
    converter(table, random)
}

/// SEGMENTs of every length, and with every octet set to every value.
fn segments(area: &mut Area, random: &mut Random) -> Checked {
    let segment = any_segment(random, 3);
    let right = spell::segment(&segment);
    for octets in 0..layout::SEGMENT {
        let mut output = filled(20);
        let mut answer = filled(layout::WRITTEN);
        let found = calls::encode(&right[..octets], b"abc", 1, &mut output, &mut answer);
        area.count(found);
        same_given(found, SHORT)?;
        same("output", &output, &filled(20))?;
        same("answer", &answer, &filled(layout::WRITTEN))?;
    }
    for at in 0..layout::SEGMENT {
        for value in 0..=255 {
            let mut spelled = right.clone();
            spelled[at] = value;
            if random.once_in(3) {
                let other = random.below(layout::SEGMENT);
                spelled[other] = random.pick(&[0, 1, 2, 6]);
            }
            spelled_segment(area, &spelled)?;
        }
    }
    Ok(())
}

fn spelled_segment(area: &mut Area, spelled: &[u8]) -> Checked {
    if spells::segment(spelled) {
        let mut segment = take_head(&mut Take(spelled));
        segment.segment_data = b"abc".to_vec();
        return codec::encode(area, &segment, 1, 20);
    }
    let mut output = filled(20);
    let mut answer = filled(layout::WRITTEN);
    let found = calls::encode(spelled, b"abc", 0, &mut output, &mut answer);
    area.count(found);
    same_given(found, SPELLS_NONE).map_err(|what| format!("SEGMENT {spelled:02x?}: {what}"))?;
    same("output", &output, &filled(20))?;
    same("answer", &answer, &filled(layout::WRITTEN))
}

/// Answers of every length.
fn answers(area: &mut Area) -> Checked {
    let segment = Segment {
        transaction_id: 0,
        sequence_number: 1,
        segment_data: Vec::new(),
        kind: SegmentKind::Continue {
            message_length: None,
        },
    };
    for octets in 0..layout::WRITTEN {
        let mut output = filled(20);
        let mut answer = filled(octets);
        let spelled = spell::segment(&segment);
        let found = calls::encode(&spelled, &[], 1, &mut output, &mut answer);
        area.count(found);
        same_given(found, SHORT)?;
        same("output", &output, &filled(20))?;
        same("answer", &answer, &filled(octets))?;
    }
    for octets in 0..layout::DECODED {
        let mut answer = filled(octets);
        let found = calls::decode(&[8, 1, 0], 1, &mut answer);
        area.count(found);
        same_given(found, SHORT)?;
        same("answer", &answer, &filled(octets))?;
    }
    Ok(())
}

const MESSAGE: [u8; 40] = [7; 40];

/// A planner with plans that are too short, and with numbers that name no window.
fn planner(area: &mut Area, planner: Planner, lengths: &[usize]) -> Checked {
    for octets in lengths {
        // A wrong window too: the shorter buffer comes first.
        for window in [1, 6] {
            let mut short = filled(*octets);
            let found = planner(&MESSAGE, 12, 5, window, 1, 12, &mut short);
            area.count(found);
            same_given(found, SHORT)?;
            same("plan", &short, &filled(*octets))?;
        }
    }
    for window in 6..=255 {
        let mut lent = filled(layout::PLAN);
        let found = planner(&MESSAGE, 12, 5, window, 0, 11, &mut lent);
        area.count(found);
        same_given(found, NAMES_NONE)?;
        same("plan", &lent, &filled(layout::PLAN))?;
    }
    Ok(())
}

/// Segments of plans that are too short, made up or changed.
fn plan_segments(area: &mut Area, random: &mut Random, lengths: &[usize]) -> Checked {
    let wanted = Wanted {
        message_octets: 40,
        seed: 3,
        budget: 12,
        ceiling: 12,
        transaction: 5,
        window: 1,
        version: 1,
    };
    let (given, plan) = port_plan(calls::plan_message, &wanted, &MESSAGE);
    same_given(given, 0)?;
    let (given, even) = port_plan(calls::plan_even, &wanted, &MESSAGE);
    same_given(given, 0)?;
    for octets in lengths {
        let mut answer = filled(layout::PART);
        let found = calls::plan_segment(&plan[..*octets], 0, &mut answer);
        area.count(found);
        same_given(found, SHORT)?;
        same("answer", &answer, &filled(layout::PART))?;
    }
    for octets in 0..layout::PART {
        let mut answer = filled(octets);
        let found = calls::plan_segment(&plan, 0, &mut answer);
        area.count(found);
        same_given(found, SHORT)?;
        same("answer", &answer, &filled(octets))?;
    }
    for _ in 0..MADE_UP {
        made_up_plan(area, random, &plan)?;
    }
    let (given, other) = port_frozen(&any_cutting(random));
    same_given(given, 0)?;
    for plan in [plan, even, other] {
        for _ in 0..600 {
            changed_plan(area, random, &plan)?;
        }
    }
    Ok(())
}

/// A plan with an octet changed: it spells none, or has the segments that `spells` reads.
fn changed_plan(area: &mut Area, random: &mut Random, plan: &[u8]) -> Checked {
    let mut plan = plan.to_vec();
    let at = match random.below(3) {
        0 => random.below(layout::PLAN),
        _ => random.below(120),
    };
    plan[at] = if random.once_in(2) {
        random.octet()
    } else {
        random.below(8) as u8
    };
    let index = if random.once_in(2) {
        random.octet()
    } else {
        random.below(8) as u8
    };
    let named = |what| format!("a plan with octet {at} changed to {}: {what}", plan[at]);
    part_of(area, &plan, index).map_err(named)
}

/// Where the form of a PLAN stands, and which is a planner's.
pub const FORM: usize = 1;
pub const PLANNED: u8 = 0;
/// Where the numbers of a planned PLAN stand.
const MESSAGE_OCTETS: usize = 2;
pub const WINDOW: usize = 19;
const BEGIN_OCTETS: usize = 20;
pub const LATER_CAPACITY: usize = 28;
const COUNT: usize = 36;

/// How many plans are made up.
const MADE_UP: usize = 2_000;

/// A planned one of any sizes and count, of a message that ends around the place where the segment asked for would begin, or around where
/// its capacities end.
fn made_up_plan(area: &mut Area, random: &mut Random, plan: &[u8]) -> Checked {
    let any_index = random.octet();
    let index = random.pick(&[0, 1, 2, 254, 255, any_index]);
    let next = u64::from(index);
    let count = random.pick(&[next, next + 1, next + 2, 256, 257, u64::MAX]);
    let mut capacity = || random.pick(&[0, 1, 2, 254, 255, 255, 255, 256, u64::MAX]);
    let (begin, later) = (capacity(), capacity());
    let start = match next.checked_sub(1) {
        None => 0,
        Some(before) => begin.saturating_add(before.saturating_mul(later)),
    };
    let held = begin.saturating_add(count.saturating_sub(1).saturating_mul(later));
    let more = |octets: u64, more: u64| octets.saturating_add(more);
    let message = random.pick(&[
        0,
        start.saturating_sub(1),
        start,
        more(start, 1),
        held,
        more(held, 1),
        more(held, next),
        more(held, count),
        65_280,
        u64::MAX,
    ]);
    let mut plan = plan.to_vec();
    let mut put = |at: usize, value: u64| plan[at..at + 8].copy_from_slice(&value.to_be_bytes());
    put(MESSAGE_OCTETS, message);
    put(BEGIN_OCTETS, begin);
    put(LATER_CAPACITY, later);
    put(COUNT, count);
    made_up_inputs(area, [message, begin, later, count], next);
    let named = |what| {
        format!("segment {index} of {count}, {begin} and {later} octets, of {message}: {what}")
    };
    part_of(area, &plan, index).map_err(named)
}

/// Why a made-up plan has no segment `index` that is below its count, or that the segment has one octet more.
fn made_up_inputs(area: &mut Area, [message, begin, later, count]: [u64; 4], index: u64) {
    if index >= count || begin > spells::MOST_DATA || later > spells::MOST_DATA {
        return;
    }
    if count > spells::MOST_SEGMENTS {
        return area.input(TOO_MANY);
    }
    let longer = spells::left_over(message, [begin, later, count]);
    if longer > 0 && later == spells::MOST_DATA {
        area.input(MORE_THAN_FITS);
    } else if (1..=longer).contains(&index) {
        area.input(ONE_MORE);
    } else if index > 0 && message < begin + (index - 1) * later {
        area.input(PAST_MESSAGE);
    }
}

/// Segment `index` of a plan, whoever made it. Of a segment that is given, its data's number and place are compared.
fn part_of(area: &mut Area, plan: &[u8], index: u8) -> Checked {
    let mut answer = filled(layout::PART);
    let found = calls::plan_segment(plan, index, &mut answer);
    area.count(found);
    let spelled = spells::plan(plan);
    match spelled.then(|| spells::part(plan, index)).flatten() {
        None => {
            same_given(found, if spelled { 1 } else { SPELLS_NONE })?;
            same("answer", &answer, &filled(layout::PART))
        }
        Some(part) => {
            same_given(found, 0)?;
            let mut place = Vec::new();
            place.put64(part.octets);
            place.put64(part.offset);
            same("data", &answer[layout::SEGMENT..], &place)
        }
    }
}

/// The frozen check with buffers that are too short, and with changed heads.
fn frozen(area: &mut Area, random: &mut Random) -> Checked {
    let cutting = any_cutting(random);
    let (joined, message) = (cutting.joined(), cutting.message());
    let check = |heads: &[u8], plan: &mut [u8]| {
        calls::try_from_frozen(
            heads,
            cutting.count as u64,
            &joined,
            &message,
            cutting.budget as u64,
            cutting.version,
            cutting.ceiling as u64,
            plan,
        )
    };
    let expected = |changed: &Frozen| gives(&changed.check());
    train_buffers(area, random, &cutting, &check, &expected)
}

/// The converter with buffers that are too short and with changed heads, for dialects and for numbers that name none; and every such number
/// where 20 is due too.
fn converter(table: &mut Table, random: &mut Random) -> Checked {
    for dialect in [0, 1, 2, 255] {
        let mut cutting = dialects::restated(&any_cutting(random), dialect % 2);
        // There is room for a length on every segment.
        cutting.budget += 4;
        cutting.ceiling = cutting.budget;
        let convert =
            |heads: &[u8], plan: &mut [u8]| dialects::convert(&cutting, heads, dialect, plan);
        let expected = |changed: &Frozen| match dialect {
            0 | 1 => gives(&dialects::converted(changed, dialect)),
            _ => NAMES_NONE,
        };
        let area = table.area(CONVERTERS[usize::from(dialect % 2)]);
        let named = |what: String| format!("convert, dialect {dialect}: {what}");
        train_buffers(area, random, &cutting, &convert, &expected).map_err(named)?;
    }
    let mut cutting = any_cutting(random);
    cutting.ceiling = cutting.budget - 1;
    for dialect in 2..=255 {
        let mut plan = filled(layout::PLAN);
        let found = dialects::convert(&cutting, &head_octets(&cutting), dialect, &mut plan);
        table
            .area(CONVERTERS[usize::from(dialect % 2)])
            .count(found);
        same_given(found, NAMES_NONE)?;
        same("plan", &plan, &filled(layout::PLAN))?;
    }
    Ok(())
}

fn gives(expected: &Result<SegmentedMessage, Refusal>) -> u32 {
    expected
        .as_ref()
        .map_or_else(|refusal| number(*refusal), |_| 0)
}

/// A call on a train, with HEADS and PLANs that are too short, and with HEADS of which an octet is changed. What it gives where that spells
/// heads is expected of the train with these.
fn train_buffers(
    area: &mut Area,
    random: &mut Random,
    cutting: &Frozen,
    call: &dyn Fn(&[u8], &mut [u8]) -> u32,
    expected: &dyn Fn(&Frozen) -> u32,
) -> Checked {
    let heads = head_octets(cutting);
    for octets in [
        0,
        1,
        layout::HEAD,
        layout::HEADS - 1,
        random.below(layout::HEADS),
    ] {
        let mut plan = filled(layout::PLAN);
        let found = call(&heads[..octets], &mut plan);
        area.count(found);
        same_given(found, SHORT)?;
        same("plan", &plan, &filled(layout::PLAN))?;
    }
    for octets in [0, 1, layout::PLAN - 1, random.below(layout::PLAN)] {
        let mut plan = filled(octets);
        let found = call(&heads, &mut plan);
        area.count(found);
        same_given(found, SHORT)?;
        same("plan", &plan, &filled(octets))?;
    }
    for _ in 0..600 {
        let mut heads = heads.clone();
        let at = if random.once_in(3) {
            random.below(layout::HEADS)
        } else {
            random.below(cutting.count * layout::HEAD)
        };
        heads[at] = if random.once_in(2) {
            random.octet()
        } else {
            random.below(8) as u8
        };
        let mut plan = filled(layout::PLAN);
        let found = call(&heads, &mut plan);
        area.count(found);
        let expected = if spells::heads(&heads) {
            expected(&spelled_heads(cutting, &heads))
        } else {
            SPELLS_NONE
        };
        let named =
            |what: String| format!("heads with octet {at} changed to {}: {what}", heads[at]);
        same_given(found, expected).map_err(named)?;
        if expected != 0 {
            same("plan", &plan, &filled(layout::PLAN))?;
        }
    }
    Ok(())
}

/// A cutting with these heads.
fn spelled_heads(cutting: &Frozen, heads: &[u8]) -> Frozen {
    let mut take = Take(heads);
    let mut changed = cutting.clone();
    changed.heads = (0..cutting.count)
        .map(|_| Head {
            segment: take_head(&mut take),
            data_octets: usize::try_from(take.take64()).unwrap_or(usize::MAX),
        })
        .collect();
    let lengths = changed.heads.iter();
    let sum = lengths.fold(0u64, |sum, head| {
        sum.saturating_add(head.data_octets as u64)
    });
    if sum != changed.joined_octets as u64 {
        // The sum of lengths may pass 64 bits, which the recorder's check has not to bear.
        changed.heads[0].data_octets = changed.joined_octets + 1;
        for head in &mut changed.heads[1..] {
            head.data_octets = 0;
        }
    }
    changed
}
