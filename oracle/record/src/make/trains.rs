//! Trains for a receiver, and the ways in which a repeat can differ.

use super::codec::state_length;
use super::heads::any_length;
use super::receiver_run::Part;
use crate::fields::services;
use crate::play::plan::Wanted;
use crate::random::Random;
use bts136::l3::tsar::{MessageCrc, OptionalServices, Segment, SegmentKind};

pub fn begin(transaction: u8, services: Option<OptionalServices>) -> Segment {
    let kind = SegmentKind::Begin {
        message_length: None,
        services,
    };
    segment(transaction, 0, kind)
}

pub fn continuing(transaction: u8, sequence: u8) -> Segment {
    segment(
        transaction,
        sequence,
        SegmentKind::Continue {
            message_length: None,
        },
    )
}

pub fn end(transaction: u8, sequence: u8) -> Segment {
    segment(
        transaction,
        sequence,
        SegmentKind::End {
            message_length: None,
            crc: None,
        },
    )
}

fn segment(transaction_id: u8, sequence_number: u8, kind: SegmentKind) -> Segment {
    Segment {
        transaction_id,
        sequence_number,
        segment_data: Vec::new(),
        kind,
    }
}

/// Services that ask for the window alone; Prohibited is also asked for by their absence.
pub fn window_services(random: &mut Random, window: u8) -> Option<OptionalServices> {
    (window != 0 || random.once_in(2)).then(|| services([0, window, 0]))
}

/// The planner's train for a message of `count` segments or a few more.
pub fn planned(random: &mut Random, transaction: u8, window: u8, count: usize) -> Vec<Part> {
    let budget = random.pick(&[8, 9, 12, 20, 60, 258]);
    let wanted = Wanted {
        message_octets: budget + 1 + random.below(count * (budget - 3)),
        seed: 0,
        budget,
        ceiling: budget,
        transaction,
        window,
        version: 1,
    };
    let plan = wanted.segmented().expect("the budget is large enough");
    let part = |segment: &Segment| {
        let head = Segment {
            segment_data: Vec::new(),
            ..segment.clone()
        };
        Part::new(head, segment.segment_data.len(), random.octet())
    };
    plan.segments().iter().map(part).collect()
}

/// A train of `count` segments with data of at most `longest` octets, without stated lengths.
pub fn cut(
    random: &mut Random,
    transaction: u8,
    window: u8,
    count: usize,
    longest: usize,
) -> Vec<Part> {
    let services = window_services(random, window);
    let part = |index: usize| {
        let segment = match index {
            0 => begin(transaction, services),
            _ if index + 1 == count => end(transaction, index as u8),
            _ => continuing(transaction, index as u8),
        };
        Part::new(segment, random.below(longest + 1), random.octet())
    };
    (0..count).map(part).collect()
}

pub fn total(train: &[Part]) -> usize {
    train.iter().map(|part| part.data.octets).sum()
}

/// States the train's length on about one segment in `share`.
pub fn state_lengths(random: &mut Random, train: &mut [Part], share: usize) {
    let length = total(train) as u16;
    for part in train {
        if random.once_in(share) {
            state_length(&mut part.segment, length);
        }
    }
}

pub fn any_train(random: &mut Random, transaction: u8, window: u8, count: usize) -> Vec<Part> {
    if random.once_in(2) {
        return planned(random, transaction, window, count);
    }
    let longest = random.pick(&[0, 1, 3, 40, 255]);
    let mut train = cut(random, transaction, window, count.max(2), longest);
    if total(&train) < 4096 && random.once_in(2) {
        let share = random.pick(&[1, 2, 3]);
        state_lengths(random, &mut train, share);
    }
    train
}

/// The Begin first, the others in any order.
pub fn shuffled(random: &mut Random, train: &[Part]) -> Vec<usize> {
    let mut order: Vec<usize> = (0..train.len()).collect();
    match random.below(4) {
        0 => {}
        1 => order[1..].reverse(),
        _ => random.shuffle(&mut order[1..]),
    }
    order
}

pub const DIFFERENCES: usize = 16;
pub const LONGER: usize = 4;

/// A copy that differs from `part` in one way, if the part's kind has that way.
pub fn differing(random: &mut Random, part: &Part, difference: usize) -> Part {
    let mut copy = part.clone();
    let octets = part.data.octets;
    match difference {
        0..3 => {
            let last = octets.max(1) - 1;
            copy.data.patch_position = [0, last, last / 2][difference];
            copy.data.patch_change = 1 << random.below(8);
        }
        3 => copy.data.octets = octets.max(1) - 1,
        LONGER => copy.data.octets = octets + 1,
        5 => copy.data.seed ^= 1 << random.below(8),
        6 => toggle_length(&mut copy.segment),
        7 => {
            let length = any_length(random);
            state_length(&mut copy.segment, length);
        }
        8..13 => change_kind(random, &mut copy.segment, difference),
        13 => {
            copy.segment.kind = SegmentKind::Continue {
                message_length: None,
            }
        }
        14 => {
            copy.segment.kind = SegmentKind::End {
                message_length: None,
                crc: None,
            }
        }
        _ => {
            copy.data.octets = octets + 1;
            toggle_length(&mut copy.segment);
        }
    }
    copy
}

fn toggle_length(segment: &mut Segment) {
    match &mut segment.kind {
        SegmentKind::Begin { message_length, .. }
        | SegmentKind::Continue { message_length }
        | SegmentKind::End { message_length, .. } => {
            *message_length = if message_length.is_some() {
                None
            } else {
                Some(0)
            };
        }
    }
}

/// The services of a Begin or the CRC of an End.
fn change_kind(random: &mut Random, segment: &mut Segment, difference: usize) {
    match &mut segment.kind {
        SegmentKind::Begin {
            services: place, ..
        } => {
            let old = place.unwrap_or_default();
            let window = old.acknowledgment_window as u8;
            *place = match difference {
                8 if place.is_some() => None,
                8 => Some(old),
                9 => Some(services([0, (window + 1) % 6, 0])),
                10 => Some(services([1, window, 0])),
                11 => Some(services([0, window, random.within(1, 2) as u8])),
                _ => Some(services([1, window, 1])),
            };
        }
        SegmentKind::End { crc, .. } => {
            *crc = Some(match difference % 2 {
                0 => MessageCrc::Crc16(random.next() as u16),
                _ => MessageCrc::Crc24(random.next() as u32 >> 8),
            });
        }
        SegmentKind::Continue { .. } => {}
    }
}
