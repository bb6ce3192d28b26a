//! Makes a list of calls on which the two sides disagree smaller: fewer calls, shorter data, lower numbers.

use crate::orders::ORDER;
use crate::orders::deliveries::DELIVER;
use crate::receiver::{RELEASE, TRAIN};
use crate::watch::{Case, Checker, Disagreement, FIRST_PROBE, replay};
use std::panic;

/// How a field of an input may be made smaller.
#[derive(Clone, Copy)]
pub enum Field {
    /// A number of this many octets.
    Number(usize),
    /// Octets to the end, any of which may be left out or lowered.
    Octets,
    /// Records of this many octets to the end.
    Records(usize),
}

use Field::{Number, Octets, Records};

const PEER: [Field; 3] = [Number(1), Number(1), Number(8)];
const PROTOCOL: [Field; 2] = [Number(1), Number(1)];
const HEAD: [Field; 11] = [
    Number(1),
    Number(1),
    Number(1),
    Number(1),
    Number(2),
    Number(1),
    Number(1),
    Number(1),
    Number(1),
    Number(1),
    Number(4),
];
const TOKEN: [Field; 2] = [Number(8), Number(1)];
const PLAN: [Field; 7] = [
    Number(4),
    Number(1),
    Number(4),
    Number(4),
    Number(1),
    Number(1),
    Number(1),
];
const FROZEN: [Field; 10] = [
    Number(2),
    Number(4),
    Number(1),
    Number(4),
    Number(1),
    Number(4),
    Number(4),
    Number(1),
    Number(4),
    Number(1),
];
const OPENING: [Field; 4] = [Number(1), Number(1), Number(8), Number(8)];
const HEAD_AND_LENGTH: usize = 17;
/// Where a train that is delivered has the input of try_new, and its heads.
const DELIVER_OPENING: usize = 38;
const DELIVER_HEADS: usize = 68;

/// The fields of an op's input, as RECORDED.md lays them out.
fn fields(op: u8) -> Vec<Field> {
    let parts: Vec<&[Field]> = match op {
        0x01 => vec![&[Number(1)], &[Octets]],
        0x02 => vec![&[Number(1)], &HEAD, &[Number(2), Number(2)], &[Octets]],
        0x10 => vec![&PLAN],
        0x11 => vec![&FROZEN, &[Records(HEAD_AND_LENGTH)]],
        ORDER => vec![&[Number(1), Number(8)], &[Octets]],
        0x20 => vec![&PEER, &PROTOCOL, &OPENING],
        0x21 => vec![
            &PEER,
            &PROTOCOL,
            &HEAD,
            &[Number(2), Number(1), Number(2), Number(1), Number(2)],
            &[Number(8)],
        ],
        0x22 | 0x23 | 0x31 | 0x37 => vec![&[Number(8)]],
        TRAIN => vec![&PEER, &PROTOCOL, &[Number(8), Number(2)], &[Octets]],
        DELIVER => vec![
            &FROZEN,
            &[Number(8), Number(4)],
            &PEER,
            &PROTOCOL,
            &OPENING,
            &[Records(HEAD_AND_LENGTH)],
        ],
        0x30 => vec![&PLAN, &PEER, &PROTOCOL, &[Number(1), Number(8)]],
        0x32 => vec![&TOKEN, &[Number(8), Number(8)]],
        0x33 => vec![&TOKEN, &[Number(8)]],
        0x34 => vec![&TOKEN, &[Number(1), Number(1), Number(8)]],
        0x35 => vec![
            &PEER,
            &PROTOCOL,
            &[Number(1), Number(1), Number(2)],
            &[Number(8); 4],
            &[Number(1); 5],
            &[Number(2), Number(8)],
        ],
        0x36 => vec![
            &FROZEN,
            &PEER,
            &PROTOCOL,
            &[Number(1), Number(8)],
            &[Records(HEAD_AND_LENGTH)],
        ],
        // A probe: three numbers, then the call that it is about.
        FIRST_PROBE.. => vec![&[Number(8); 3], &[Octets]],
        _ => vec![],
    };
    parts.concat()
}

fn number(octets: &[u8]) -> u64 {
    octets
        .iter()
        .fold(0, |value, octet| value << 8 | u64::from(*octet))
}

fn with_number(case: &Case, at: usize, width: usize, value: u64) -> Case {
    let mut case = case.clone();
    case.input[at..at + width].copy_from_slice(&value.to_be_bytes()[8 - width..]);
    case
}

fn without(case: &Case, from: usize, to: usize) -> Case {
    let mut case = case.clone();
    case.input.drain(from..to);
    case
}

/// The parts of `length` items to leave out: halves, quarters and so on down to one.
fn cuts(length: usize) -> Vec<(usize, usize)> {
    let mut cuts = Vec::new();
    let mut size = length;
    while size > 0 {
        let mut from = 0;
        while from < length {
            cuts.push((from, (from + size).min(length)));
            from += size;
        }
        size /= 2;
    }
    cuts
}

/// Smaller inputs of one call.
fn smaller(case: &Case) -> Vec<Case> {
    let mut found = Vec::new();
    let mut at = 0;
    for field in fields(case.op) {
        let rest = case.input.len().saturating_sub(at);
        match field {
            Number(width) if rest >= width => {
                let value = number(&case.input[at..at + width]);
                let lower = [0, 1, value / 2, value.saturating_sub(1)];
                let lower = lower.into_iter().filter(|lower| *lower < value);
                found.extend(lower.map(|lower| with_number(case, at, width, lower)));
                at += width;
            }
            Number(width) => at += width,
            Octets => {
                found.extend(
                    cuts(rest)
                        .into_iter()
                        .map(|(from, to)| without(case, at + from, at + to)),
                );
                for place in at..case.input.len() {
                    let value = u64::from(case.input[place]);
                    let lower = [0, value / 2, value.saturating_sub(1)];
                    let lower = lower.into_iter().filter(|lower| *lower < value);
                    found.extend(lower.map(|lower| with_number(case, place, 1, lower)));
                }
            }
            Records(width) => {
                let records = cuts(rest / width);
                found.extend(
                    records
                        .into_iter()
                        .map(|(from, to)| without(case, at + from * width, at + to * width)),
                );
                let places = (at..case.input.len()).step_by(width);
                found.extend(places.flat_map(|place| lower_head(case, place)));
            }
        }
    }
    // Inputs in which two numbers go together: a count of heads or of octets beside them.
    if case.op == 0x02 && case.input.len() > 20 {
        for (from, to) in cuts(case.input.len() - 20) {
            let shorter = without(case, 20 + from, 20 + to);
            let length = (shorter.input.len() - 20) as u64;
            found.push(with_number(&shorter, 18, 2, length));
        }
    }
    if case.op == TRAIN {
        found.extend(shorter_train(case));
    }
    if case.op == 0x11 {
        found.extend(fewer_heads(case, 26));
        found.extend(shorter_data(case, 26));
    }
    if case.op == DELIVER {
        found.extend(fewer_heads(case, DELIVER_HEADS));
        found.extend(shorter_data(case, DELIVER_HEADS));
    }
    if case.op == 0x36 {
        found.extend(fewer_heads(case, 47));
        found.extend(shorter_data(case, 47));
    }
    found
}

/// Lower numbers in a head at a place.
fn lower_head(case: &Case, mut at: usize) -> Vec<Case> {
    let mut found = Vec::new();
    for field in HEAD {
        if let Number(width) = field
            && at + width <= case.input.len()
        {
            let value = number(&case.input[at..at + width]);
            let lower = [0, value / 2, value.saturating_sub(1)];
            let lower = lower.into_iter().filter(|lower| *lower < value);
            found.extend(lower.map(|lower| with_number(case, at, width, lower)));
            at += width;
        }
    }
    found
}

/// A train without some of its segments, or with shorter ones: their lengths, and the lengths of their data, shrink with them.
fn shorter_train(case: &Case) -> Vec<Case> {
    const LENGTHS: usize = 22;
    if case.input.len() < LENGTHS {
        return Vec::new();
    }
    let count = number(&case.input[20..LENGTHS]) as usize;
    let Some(lengths) = case.input.get(LENGTHS..LENGTHS + 2 * count) else {
        return Vec::new();
    };
    let mut octets = &case.input[LENGTHS + 2 * count..];
    let mut segments: Vec<(usize, Vec<u8>)> = Vec::new();
    for length in lengths.chunks(2) {
        let length = number(length) as usize;
        let (segment, rest) = octets.split_at(length.min(octets.len()));
        segments.push((length, segment.to_vec()));
        octets = rest;
    }
    let made = |segments: &[(usize, Vec<u8>)]| {
        let mut input = case.input[..20].to_vec();
        input.extend((segments.len() as u16).to_be_bytes());
        for (length, _) in segments {
            input.extend((*length as u16).to_be_bytes());
        }
        for (_, segment) in segments {
            input.extend(segment);
        }
        Case { op: TRAIN, input }
    };
    let mut found = Vec::new();
    for (from, to) in cuts(segments.len()) {
        let mut fewer = segments.clone();
        fewer.drain(from..to);
        found.push(made(&fewer));
    }
    for place in 0..segments.len() {
        let (length, segment) = &segments[place];
        let data = segment.get(2).map_or(0, |octet| usize::from(*octet));
        let data = data.min(segment.len().saturating_sub(3));
        for (from, to) in cuts(data) {
            let mut shorter = segments.clone();
            shorter[place].1.drain(3 + from..3 + to);
            shorter[place].1[2] -= (to - from) as u8;
            shorter[place].0 = length - (to - from);
            found.push(made(&shorter));
        }
        if !segment.is_empty() {
            let mut shorter = segments.clone();
            shorter[place].1.pop();
            shorter[place].0 = length.saturating_sub(1);
            found.push(made(&shorter));
        }
    }
    found
}

/// A frozen plan without some of its heads: count, message and joined data shrink with them, and the heads after them move up.
fn fewer_heads(case: &Case, heads: usize) -> Vec<Case> {
    let Some(octets) = case.input.get(heads..) else {
        return Vec::new();
    };
    let count = octets.len() / HEAD_AND_LENGTH;
    let data = |place: usize| number(&octets[place * HEAD_AND_LENGTH + 15..][..2]);
    let mut found = Vec::new();
    for (from, to) in cuts(count) {
        let dropped: u64 = (from..to).map(data).sum();
        let fewer = without(
            case,
            heads + from * HEAD_AND_LENGTH,
            heads + to * HEAD_AND_LENGTH,
        );
        let fewer = less(&fewer, 0, 2, (to - from) as u64);
        let mut fewer = shorter_message(&fewer, heads, dropped);
        found.push(fewer.clone());
        for place in from..count - (to - from) {
            let sequence = heads + place * HEAD_AND_LENGTH + 1;
            fewer.input[sequence] = fewer.input[sequence].wrapping_sub((to - from) as u8);
        }
        found.push(fewer);
    }
    found
}

/// A frozen plan with fewer data octets in a segment.
fn shorter_data(case: &Case, heads: usize) -> Vec<Case> {
    let mut found = Vec::new();
    for place in (heads..case.input.len()).step_by(HEAD_AND_LENGTH) {
        let data = place + 15;
        let octets = number(&case.input[data..data + 2]);
        for by in [octets, octets.div_ceil(2), 1] {
            if (1..=octets).contains(&by) {
                found.push(shorter_message(&less(case, data, 2, by), heads, by));
            }
        }
    }
    found
}

/// A frozen plan whose message and joined data are shorter; heads that state the message's length state what is left of it.
fn shorter_message(case: &Case, heads: usize, by: u64) -> Case {
    let whole = number(&case.input[2..6]);
    let mut shorter = less(&less(case, 2, 4, by), 16, 4, by);
    for place in (heads..case.input.len()).step_by(HEAD_AND_LENGTH) {
        if number(&case.input[place + 4..place + 6]) == whole {
            shorter = less(&shorter, place + 4, 2, by);
        }
    }
    shorter
}

/// A number of an input, lowered.
fn less(case: &Case, at: usize, width: usize, by: u64) -> Case {
    let value = number(&case.input[at..at + width]);
    with_number(case, at, width, value.saturating_sub(by))
}

/// Where an op's input has readings.
fn readings(op: u8) -> Vec<usize> {
    match op {
        0x20 => vec![22],
        DELIVER => vec![DELIVER_OPENING + 22],
        TRAIN => vec![12],
        0x21 => vec![35],
        0x22 | 0x23 | 0x31 | 0x37 | RELEASE => vec![0],
        0x30 => vec![29],
        0x32 => vec![9, 17],
        0x33 => vec![9],
        0x34 => vec![11],
        0x35 => vec![55],
        0x36 => vec![39],
        _ => vec![],
    }
}

/// The whole list at lower readings.
fn earlier(list: &[Case], by: u64) -> Option<Vec<Case>> {
    let mut list = list.to_vec();
    for case in &mut list {
        for at in readings(case.op) {
            let value = number(case.input.get(at..at + 8)?);
            *case = with_number(case, at, 8, value.checked_sub(by)?);
        }
    }
    Some(list)
}

/// Where an op's input has a peer and a protocol, and where a transaction.
fn origin(op: u8) -> (Option<usize>, Option<usize>) {
    match op {
        0x20 | 0x21 | 0x35 => (Some(0), Some(12)),
        TRAIN => (Some(0), None),
        DELIVER => (Some(DELIVER_OPENING), None),
        0x30 => (Some(16), Some(13)),
        0x36 => (Some(26), None),
        _ => (None, None),
    }
}

/// The list with the least peer and protocol, or the least transaction, in all calls that have the first call's.
fn plainer(list: &[Case]) -> Vec<Vec<Case>> {
    const LEAST: [u8; 12] = [0, 1, 0, 0, 0, 0, 0, 0, 0, 1, 0, 0];
    let Some(first) = list.first() else {
        return Vec::new();
    };
    let (peer, transaction) = origin(first.op);
    let part = |case: &Case, at: Option<usize>, octets: usize| {
        at.and_then(|at| case.input.get(at..at + octets).map(<[u8]>::to_vec))
    };
    let mut found = Vec::new();
    for (own, octets, least) in [
        (part(first, peer, 12), 12, &LEAST[..]),
        (part(first, transaction, 1), 1, &LEAST[..1]),
    ] {
        let Some(own) = own.filter(|own| own != least) else {
            continue;
        };
        let mut list = list.to_vec();
        for case in &mut list {
            let (peer, transaction) = origin(case.op);
            let at = if octets == 1 { transaction } else { peer };
            if part(case, at, octets).as_ref() == Some(&own) {
                let at = at.unwrap_or(0);
                case.input[at..at + octets].copy_from_slice(least);
            }
        }
        found.push(list);
    }
    found
}

fn smaller_lists(list: &[Case]) -> Vec<Vec<Case>> {
    let mut found = Vec::new();
    for (from, to) in cuts(list.len()) {
        let mut fewer = list.to_vec();
        fewer.drain(from..to);
        found.push(fewer);
    }
    let first = list.iter().flat_map(|case| {
        let values = readings(case.op).into_iter();
        values.filter_map(|at| case.input.get(at..at + 8).map(number))
    });
    if let Some(least) = first.min().filter(|least| *least > 0) {
        found.extend(earlier(list, least));
        found.extend(earlier(list, least / 2));
    }
    found.extend(plainer(list));
    for (place, case) in list.iter().enumerate() {
        for smaller in smaller(case) {
            let mut list = list.to_vec();
            list[place] = smaller;
            found.push(list);
        }
    }
    found
}

/// How many lists are tried at the most.
const TRIES: usize = 200_000;

/// The smallest list found, and how the two sides differ on it.
pub fn shrink<C: Checker>(disagreement: Disagreement) -> Disagreement {
    let hook = panic::take_hook();
    panic::set_hook(Box::new(|_| {}));
    let mut best = disagreement;
    let mut tries = 0;
    'again: while tries < TRIES {
        for list in smaller_lists(&best.list) {
            tries += 1;
            if tries > TRIES {
                break;
            }
            if let Some((place, what)) = replay::<C>(&list) {
                let list = list[..=place].to_vec();
                best = Disagreement { list, what, ..best };
                continue 'again;
            }
        }
        break;
    }
    panic::set_hook(hook);
    best
}
