//! Inputs for op 11: true cuttings, and cuttings with up to three faults.

use super::codec::state_length;
use super::heads::WINDOWS;
use crate::fields::services;
use crate::list::Recorder;
use crate::play::plan::{FROZEN, Frozen, Head, MAX_SEGMENTS, NO_PATCH, Plans, Wanted};
use crate::random::Random;
use bts136::l3::tsar::{MessageCrc, Segment, SegmentKind};

type Record = Recorder<Plans>;

pub fn make(record: &mut Record) {
    corners(record);
    counts(record);
    faults_in_one_head(record);
    every_fault(record, 12);
    random_checks(record, 2200);
    large(record, 40);
}

pub fn check(record: &mut Record, frozen: &Frozen) {
    let mut input = Vec::new();
    frozen.put_fixed(&mut input);
    frozen.put_heads(&mut input);
    record.call(FROZEN, &input);
}

/// Two empty segments for an empty message, then the tests that come before the data.
fn corners(record: &mut Record) {
    let empty = cutting(&mut record.random, &[0, 0], 0);
    check(record, &empty);
    for version in [0, 1, 5, 255] {
        for first in 0..3 {
            let mut frozen = cutting(&mut record.random, &[1, 2, 3], 0);
            frozen.version = version;
            frozen.heads[0].segment.kind = bare_kind(first);
            check(record, &frozen);
        }
    }
}

/// Every count at the edges, sums right and wrong, budget within the ceiling and above it.
fn counts(record: &mut Record) {
    for count in [0, 1, 2, 3, 255, 256, 257, 300, 512, 65_535] {
        for (sums, within) in [(true, true), (false, true), (true, false)] {
            let lengths = vec![1; count.min(MAX_SEGMENTS)];
            let mut frozen = cutting(&mut record.random, &lengths, 0);
            frozen.count = count;
            frozen.joined_octets += usize::from(!sums);
            frozen.ceiling = if within {
                frozen.budget
            } else {
                frozen.budget - 1
            };
            check(record, &frozen);
        }
    }
}

/// One segment with a fault for the codec, for the budget and for the rest at once.
fn faults_in_one_head(record: &mut Record) {
    for place in 0..3 {
        for codec_fault in 0..6 {
            for short_budget in [false, true] {
                for other_fault in 0..5 {
                    let mut lengths = [1, 1, 1];
                    lengths[place] = if codec_fault == 5 { 256 } else { 50 };
                    let mut frozen = cutting(&mut record.random, &lengths, 1);
                    break_for_codec(&mut frozen, place, codec_fault);
                    if short_budget {
                        frozen.budget = 20;
                    }
                    break_for_rest(&mut frozen, place, other_fault);
                    check(record, &frozen);
                }
            }
        }
    }
}

fn break_for_codec(frozen: &mut Frozen, place: usize, fault: usize) {
    let segment = &mut frozen.heads[place].segment;
    match fault {
        1 => frozen.version = 0,
        2 => segment.transaction_id |= 8,
        3 => state_length(segment, 4096),
        4 => {
            if let SegmentKind::End { crc, .. } = &mut segment.kind {
                *crc = Some(MessageCrc::Crc24(1 << 24));
            }
        }
        _ => {}
    }
}

fn break_for_rest(frozen: &mut Frozen, place: usize, fault: usize) {
    let offset: usize = frozen.heads[..place]
        .iter()
        .map(|head| head.data_octets)
        .sum();
    let segment = &mut frozen.heads[place].segment;
    match fault {
        1 => segment.sequence_number ^= 2,
        2 => segment.transaction_id ^= 1,
        3 => segment.kind = bare_kind(1),
        4 => {
            frozen.patch_position = offset;
            frozen.patch_change = 1;
        }
        _ => {}
    }
}

fn every_fault(record: &mut Record, rounds: usize) {
    for _ in 0..rounds {
        for fault in 0..FAULTS {
            let mut frozen = any_cutting(&mut record.random);
            break_it(&mut record.random, &mut frozen, fault);
            check(record, &frozen);
        }
    }
}

fn random_checks(record: &mut Record, count: usize) {
    for _ in 0..count {
        let random = &mut record.random;
        let mut frozen = any_cutting(random);
        for _ in 0..random.pick(&[0, 1, 1, 1, 2, 2, 3]) {
            let fault = random.below(FAULTS);
            break_it(random, &mut frozen, fault);
        }
        check(record, &frozen);
    }
}

/// Close to 256 segments, whole and with a fault.
fn large(record: &mut Record, count: usize) {
    for _ in 0..count {
        let random = &mut record.random;
        let mut frozen = large_cutting(random);
        if random.once_in(2) {
            let fault = random.below(FAULTS);
            break_it(random, &mut frozen, fault);
        }
        check(record, &frozen);
    }
}

/// A true cutting into 254 to 256 segments.
pub fn large_cutting(random: &mut Random) -> Frozen {
    let most = random.pick(&[1, 2, 255]);
    let lengths = (0..random.within(254, 256)).map(|_| random.within(most.min(2) - 1, most));
    let lengths: Vec<usize> = lengths.collect();
    let window = any_window(random);
    cutting(random, &lengths, window)
}

fn any_window(random: &mut Random) -> u8 {
    random.below(usize::from(WINDOWS)) as u8
}

/// A true cutting: half of them the planner's, half with random boundaries.
pub fn any_cutting(random: &mut Random) -> Frozen {
    if random.once_in(2) {
        planned(random)
    } else {
        let longest = random.pick(&[1, 3, 20, 255]);
        let lengths = (0..random.within(2, 9)).map(|_| random.below(longest + 1));
        let lengths: Vec<usize> = lengths.collect();
        let window = any_window(random);
        let mut frozen = cutting(random, &lengths, window);
        if random.once_in(2) {
            state_some_lengths(random, &mut frozen);
        }
        frozen
    }
}

fn planned(random: &mut Random) -> Frozen {
    let budget = random.within(6, 40);
    let wanted = Wanted {
        message_octets: budget + random.within(1, 5 * budget),
        seed: random.octet(),
        budget,
        ceiling: budget,
        transaction: random.below(8) as u8,
        window: any_window(random),
        version: 1,
    };
    train_of(&wanted)
}

/// The frozen form of what the original's planner makes of a message under version 1.
pub fn train_of(wanted: &Wanted) -> Frozen {
    let plan = wanted.segmented();
    let plan = plan.expect("the message is cut into segments");
    frozen_from(plan.segments(), wanted.seed, wanted.budget)
}

/// The frozen form of segments whose joined data are the pattern of `seed`.
fn frozen_from(segments: &[Segment], seed: u8, budget: usize) -> Frozen {
    let heads = segments.iter().map(|segment| Head {
        data_octets: segment.segment_data.len(),
        segment: Segment {
            segment_data: Vec::new(),
            ..segment.clone()
        },
    });
    let heads: Vec<Head> = heads.collect();
    let message_octets = heads.iter().map(|head| head.data_octets).sum();
    Frozen {
        count: heads.len(),
        message_octets,
        message_seed: seed,
        budget,
        version: 1,
        ceiling: budget,
        joined_octets: message_octets,
        joined_seed: seed,
        patch_position: NO_PATCH,
        patch_change: 0,
        heads,
    }
}

/// A train with the given data lengths and a budget that its longest segment just fits.
pub fn cutting(random: &mut Random, lengths: &[usize], window: u8) -> Frozen {
    let transaction_id = random.below(8) as u8;
    let spelled = services([0, window, 0]);
    let absent = window == 0 && random.once_in(2);
    let segment = |(index, length): (usize, &usize)| Segment {
        transaction_id,
        sequence_number: index as u8,
        segment_data: vec![0; *length],
        kind: match index {
            0 => SegmentKind::Begin {
                message_length: None,
                services: (!absent).then_some(spelled),
            },
            _ if index + 1 == lengths.len() => bare_kind(2),
            _ => bare_kind(1),
        },
    };
    let segments: Vec<Segment> = lengths.iter().enumerate().map(segment).collect();
    let mut frozen = frozen_from(&segments, random.octet(), 0);
    fit_budget(&mut frozen);
    frozen
}

fn bare_kind(tag: u8) -> SegmentKind {
    match tag {
        0 => SegmentKind::Begin {
            message_length: None,
            services: None,
        },
        1 => SegmentKind::Continue {
            message_length: None,
        },
        _ => SegmentKind::End {
            message_length: None,
            crc: None,
        },
    }
}

fn encoded_octets(head: &Head) -> usize {
    let parameters = match head.segment.kind {
        SegmentKind::Begin {
            message_length,
            services,
        } => 2 * usize::from(message_length.is_some()) + 2 * usize::from(services.is_some()),
        SegmentKind::Continue { message_length } | SegmentKind::End { message_length, .. } => {
            2 * usize::from(message_length.is_some())
        }
    };
    3 + head.data_octets + parameters
}

fn fit_budget(frozen: &mut Frozen) {
    frozen.budget = frozen.heads.iter().map(encoded_octets).max().unwrap_or(3);
    frozen.ceiling = frozen.budget;
}

/// States the right length on some segments, which stays a true cutting up to 4,095 octets.
fn state_some_lengths(random: &mut Random, frozen: &mut Frozen) {
    let share = random.pick(&[1, 2, 4]);
    for index in 0..frozen.heads.len() {
        if random.once_in(share) {
            state_length(
                &mut frozen.heads[index].segment,
                frozen.message_octets as u16,
            );
        }
    }
    fit_budget(frozen);
    frozen.ceiling += random.below(3);
}

pub const FAULTS: usize = 30;

pub fn break_it(random: &mut Random, frozen: &mut Frozen, fault: usize) {
    let count = frozen.heads.len();
    let last = count - 1;
    let middle = random.below(count);
    let place = random.pick(&[0, last, middle]);
    match fault {
        0..10 => break_head(
            random,
            &mut frozen.heads[place],
            fault,
            frozen.message_octets,
        ),
        10 => break_services(random, &mut frozen.heads[0]),
        11 => break_crc(random, &mut frozen.heads[last]),
        12..17 => break_data(random, frozen, fault),
        17 => move_boundary(random, frozen, place),
        18 => frozen.heads[place].data_octets += random.pick(&[1, 256]),
        19 => frozen.heads[place].data_octets = frozen.heads[place].data_octets.max(1) - 1,
        20 => overfill(frozen, place),
        21 => frozen.budget -= 1,
        22 => frozen.ceiling = frozen.budget - 1,
        23 => frozen.version = 0,
        24 => frozen.heads.swap(0, place),
        25 => frozen.heads.swap(middle, last),
        26 => frozen.count -= 1,
        27 => drop_last(frozen),
        28 => repeat_last(frozen),
        _ => frozen.budget += random.pick(&[1, 5, 1000]),
    }
}

/// Kind, sequence, transaction or stated length of one head.
fn break_head(random: &mut Random, head: &mut Head, fault: usize, message_octets: usize) {
    let segment = &mut head.segment;
    let right = message_octets as u16;
    match fault {
        0..3 => segment.kind = bare_kind(fault as u8),
        3 => segment.sequence_number ^= random.pick(&[1, 2, 255]),
        4 => segment.sequence_number = segment.sequence_number.wrapping_add(1),
        5 => segment.transaction_id ^= random.pick(&[1, 2, 4]),
        6 => segment.transaction_id |= 8,
        7 => state_length(segment, right),
        8 => state_length(segment, right.wrapping_add(random.pick(&[1, 65_535]))),
        _ => state_length(segment, random.pick(&[4095, 4096, 65_535])),
    }
}

fn break_services(random: &mut Random, head: &mut Head) {
    if let SegmentKind::Begin {
        services: place, ..
    } = &mut head.segment.kind
    {
        let window = any_window(random);
        *place = Some(services(random.pick(&[
            [1, window, 0],
            [0, window, 1],
            [0, window, 2],
        ])));
    }
}

fn break_crc(random: &mut Random, head: &mut Head) {
    if let SegmentKind::End { crc, .. } = &mut head.segment.kind {
        *crc = Some(random.pick(&[
            MessageCrc::Crc16(0x1234),
            MessageCrc::Crc24(0x12_3456),
            MessageCrc::Crc24(1 << 24),
        ]));
    }
}

/// Message and joined data that differ in an octet, in all, or in length.
fn break_data(random: &mut Random, frozen: &mut Frozen, fault: usize) {
    match fault {
        12 => {
            let last = frozen.joined_octets.max(1) - 1;
            frozen.patch_position = random.pick(&[0, last, last / 2]);
            frozen.patch_change = 1 << random.below(8);
        }
        13 => frozen.joined_seed ^= 1,
        14 => frozen.message_octets += 1,
        15 => frozen.message_octets = frozen.message_octets.max(1) - 1,
        _ => frozen.joined_octets += 1,
    }
}

/// One octet goes from a segment to the next: still a cutting, if the budget allows it.
fn move_boundary(random: &mut Random, frozen: &mut Frozen, place: usize) {
    let next = (place + 1) % frozen.heads.len();
    if frozen.heads[place].data_octets > 0 {
        frozen.heads[place].data_octets -= 1;
        frozen.heads[next].data_octets += 1;
    }
    if random.once_in(2) {
        fit_budget(frozen);
    }
}

/// The train without its last segment; the message is whole, unless that segment was empty.
fn drop_last(frozen: &mut Frozen) {
    if frozen.heads.len() > 2 {
        let dropped = frozen.heads.pop().expect("more than two");
        frozen.count -= 1;
        frozen.joined_octets = frozen.joined_octets.saturating_sub(dropped.data_octets);
    }
}

/// The last segment twice, the second time with the next sequence number and without data.
fn repeat_last(frozen: &mut Frozen) {
    let mut head = frozen.heads.last().expect("at least two").clone();
    head.segment.sequence_number = head.segment.sequence_number.wrapping_add(1);
    head.data_octets = 0;
    frozen.heads.push(head);
    frozen.count += 1;
}

/// A segment of 256 octets of data, all lengths right otherwise.
fn overfill(frozen: &mut Frozen, place: usize) {
    frozen.heads[place].data_octets = 256;
    frozen.joined_octets = frozen.heads.iter().map(|head| head.data_octets).sum();
    frozen.message_octets = frozen.joined_octets;
    fit_budget(frozen);
}
