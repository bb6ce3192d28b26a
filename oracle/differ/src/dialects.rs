//! The two dialects of a frozen train, by document 02 (2026-06): Begin alone states the message's length, or every segment does. The original
//! has no converter: what convert has to answer is worked out from what the original's frozen check says of the train as it came, and of the
//! same train with the lengths written anew here.

pub mod trains;

use crate::plans::{MORE, head_octets, same_frozen};
use crate::spell::filled;
use crate::table::{
    Area, BEGIN_AMISS, BUDGET_BY_CONTINUE, BUDGET_BY_END, BUDGET_BY_SEVERAL, CHECK_AND_BUDGET,
    CHECK_AND_PATTERN, CONTINUE_AMISS, CONVERTED, CONVERTED_BACK, CONVERTED_COUNTS,
    CONVERTED_EMPTY, CONVERTED_FULL, CONVERTED_LONGEST, CONVERTED_WINDOWS, CONVERTERS, END_AMISS,
    FIRST_AMISS, NO_LENGTH, OTHER_DIALECT, PATTERN_AND_BUDGET, TOO_LONG_FOR_A_LENGTH, Table,
};
use crate::watch::{Checked, number};
use bts136::l3::broadcast::ProtocolVersion;
use bts136::l3::tsar::{Segment, SegmentKind, SegmentedMessage};
use catkhize::{calls, layout};
use record::play::plan::{Frozen, Head};
use record::refusals::{PAYLOAD_BUDGET, Refusal};

/// The dialects, by the numbers that name them.
pub const BEGIN_ONLY: u8 = 0;
pub const EVERY: u8 = 1;
pub const DIALECTS: [u8; 2] = [BEGIN_ONLY, EVERY];

const OTHER_PATTERN: Refusal = (26, 0);

fn other(dialect: u8) -> u8 {
    1 - dialect
}

/// Which of so many segments state a length in a dialect.
fn pattern(dialect: u8, count: usize) -> Vec<bool> {
    let states = |index| index == 0 || dialect == EVERY;
    (0..count).map(states).collect()
}

fn length_of(segment: &mut Segment) -> &mut Option<u16> {
    match &mut segment.kind {
        SegmentKind::Begin { message_length, .. }
        | SegmentKind::Continue { message_length }
        | SegmentKind::End { message_length, .. } => message_length,
    }
}

/// A segment without the length that it states, or with this one if it states none.
pub fn amiss(segment: &Segment, length: u16) -> Segment {
    let mut segment = segment.clone();
    let place = length_of(&mut segment);
    *place = place.xor(Some(length));
    segment
}

/// Which segments of a train state a length.
fn stated(train: &Frozen) -> Vec<bool> {
    let heads = train.heads.iter();
    let states = |head: &Head| length_of(&mut head.segment.clone()).is_some();
    heads.map(states).collect()
}

/// The train with the message's length on these segments and on no other.
fn stating(train: &Frozen, pattern: &[bool]) -> Frozen {
    let mut train = train.clone();
    for (head, states) in train.heads.iter_mut().zip(pattern) {
        *length_of(&mut head.segment) = states.then_some(train.message_octets as u16);
    }
    train
}

/// The train in a dialect.
pub fn restated(train: &Frozen, dialect: u8) -> Frozen {
    stating(train, &pattern(dialect, train.heads.len()))
}

/// What convert has to answer where this dialect is read.
pub fn converted(train: &Frozen, read: u8) -> Result<SegmentedMessage, Refusal> {
    train.check()?;
    if stated(train) != pattern(read, train.heads.len()) {
        return Err(OTHER_PATTERN);
    }
    restated(train, other(read)).check()
}

/// A train, and the dialect it is in, of which convert makes this one.
pub fn source(train: &Frozen) -> Option<(Frozen, u8)> {
    let plan = Ok(train.check().ok()?);
    let sources = DIALECTS.map(|read| (restated(train, read), read));
    let mut sources = sources.into_iter();
    sources.find(|(source, read)| converted(source, *read) == plan)
}

/// Calls convert on a train with these heads.
pub fn convert(train: &Frozen, heads: &[u8], read: u8, plan: &mut [u8]) -> u32 {
    calls::convert(
        heads,
        train.count as u64,
        &train.joined(),
        &train.message(),
        train.budget as u64,
        train.version,
        train.ceiling as u64,
        read,
        plan,
    )
}

/// The same, and the plan where there is one.
fn port_convert(train: &Frozen, heads: &[u8], read: u8) -> (u32, Vec<u8>) {
    let mut plan = filled(layout::PLAN + MORE);
    let given = convert(train, heads, read, &mut plan);
    (given, plan)
}

/// Calls convert on a train; the plan where there is one.
pub fn port_converted(train: &Frozen, read: u8) -> (u32, Vec<u8>) {
    port_convert(train, &head_octets(train), read)
}

/// A train, read in both dialects.
pub fn converts(table: &mut Table, train: &Frozen) -> Checked {
    for read in DIALECTS {
        let named = |what: String| format!("convert, reading dialect {read}: {what}");
        there_and_back(table, train, read).map_err(named)?;
    }
    Ok(())
}

/// Converts a train, and what comes out back again: the first train's plan.
fn there_and_back(table: &mut Table, train: &Frozen, read: u8) -> Checked {
    let [there, back] = [read, other(read)].map(|dialect| CONVERTERS[usize::from(dialect)]);
    let expected = converted(train, read);
    let found = port_converted(train, read);
    table.area(there).count(found.0);
    same_frozen(&found, &expected)?;
    inputs(table.area(there), train, read, &expected);
    if expected.is_err() {
        return Ok(());
    }
    let heads = &found.1[layout::PLAN - layout::HEADS..layout::PLAN];
    let found = port_convert(train, heads, other(read));
    table.area(back).count(found.0);
    same_frozen(&found, &train.check()).map_err(|what| format!("and back: {what}"))?;
    table.area(there).input(CONVERTED_BACK);
    Ok(())
}

/// How many octets the original writes of each segment, whatever length it states; none of one that it refuses.
fn sizes(train: &Frozen) -> Vec<usize> {
    let size = |head: &Head| {
        let mut segment = head.segment.clone();
        segment.segment_data = vec![0; head.data_octets];
        let length = length_of(&mut segment);
        *length = length.map(|_| 0);
        let octets = segment.encode(ProtocolVersion(1));
        octets.map_or(0, |octets| octets.len())
    };
    train.heads.iter().map(size).collect()
}

/// The segments that pass the budget.
fn passing(train: &Frozen) -> Vec<usize> {
    let sizes = sizes(train).into_iter().enumerate();
    let passing = sizes.filter(|(_, size)| *size > train.budget);
    passing.map(|(index, _)| index).collect()
}

/// What a run has to see of convert.
fn inputs(area: &mut Area, train: &Frozen, read: u8, expected: &Result<SegmentedMessage, Refusal>) {
    let fits = stated(train) == pattern(read, train.heads.len());
    let passing = || passing(&restated(train, other(read)));
    match (expected, train.check()) {
        (Ok(plan), _) => converted_inputs(area, train, read, plan),
        (Err(refusal), Err(_)) if fits => {
            if *refusal != PAYLOAD_BUDGET && !passing().is_empty() {
                area.input(CHECK_AND_BUDGET);
            }
        }
        (Err(refusal), Err(_)) => {
            let mut names = CHECK_AND_PATTERN.into_iter();
            let name = names.find(|(given, _)| *given == number(*refusal));
            area.input(name.expect("the frozen check gives no other").1);
        }
        (Err(_), Ok(_)) if fits => area.input(match passing()[..] {
            [end] if end + 1 == train.count => BUDGET_BY_END,
            [_] => BUDGET_BY_CONTINUE,
            _ => BUDGET_BY_SEVERAL,
        }),
        (Err(_), Ok(_)) => {
            pattern_inputs(area, train, read);
            if !passing().is_empty() {
                area.input(PATTERN_AND_BUDGET);
            }
        }
    }
}

const LONGEST_STATED: usize = 4_095;

/// What was converted.
fn converted_inputs(area: &mut Area, train: &Frozen, read: u8, plan: &SegmentedMessage) {
    let size = sizes(&restated(train, other(read))).into_iter().max();
    let mut counts = CONVERTED_COUNTS.into_iter();
    let count = counts.find(|(count, _)| *count == train.count);
    for (seen, name) in [
        (true, CONVERTED),
        (
            true,
            CONVERTED_WINDOWS[plan.acknowledgment_window() as usize],
        ),
        (size == Some(train.budget), CONVERTED_FULL),
        (train.message_octets == 0, CONVERTED_EMPTY),
        (train.message_octets == LONGEST_STATED, CONVERTED_LONGEST),
        (count.is_some(), count.map_or("", |(_, name)| name)),
    ] {
        if seen {
            area.input(name);
        }
    }
}

/// How a train is not in the dialect being read.
fn pattern_inputs(area: &mut Area, train: &Frozen, read: u8) {
    let (stated, count) = (stated(train), train.count);
    if train.message_octets == LONGEST_STATED + 1 {
        area.input(TOO_LONG_FOR_A_LENGTH);
    }
    if stated == pattern(other(read), count) {
        area.input(OTHER_DIALECT);
    }
    if !stated.contains(&true) {
        area.input(NO_LENGTH);
    }
    let wanted = pattern(read, count);
    let amiss: Vec<usize> = (0..count)
        .filter(|index| stated[*index] != wanted[*index])
        .collect();
    match amiss[..] {
        [0] => area.input(BEGIN_AMISS),
        // Of two segments that is the other dialect.
        [_] if count == 2 => {}
        [end] if end + 1 == count => area.input(END_AMISS),
        [1] => area.input(FIRST_AMISS),
        [_] => area.input(CONTINUE_AMISS),
        _ => {}
    }
}
