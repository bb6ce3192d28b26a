//! Inputs for ops 01 and 02.

use super::heads::{any_kind, any_segment, any_services};
use crate::fields::put_head;
use crate::list::Recorder;
use crate::octets::Put;
use crate::play::codec::{Codec, DECODE, ENCODE};
use crate::random::Random;
use bts136::l3::broadcast::ProtocolVersion;
use bts136::l3::tsar::{MessageCrc, Segment, SegmentKind};

type Record = Recorder<Codec>;

const VERSIONS: [u8; 7] = [0, 1, 2, 4, 5, 6, 255];
/// The first two octets of a Begin, a Continue and an End that reading takes.
const OPENINGS: [[u8; 2]; 3] = [[0x03, 0], [0x0b, 1], [0x16, 255]];

/// The corners of document 01, section l3/tsar.rs, under version 1.
const CORNERS: [&[u8]; 22] = [
    &[0x00, 0x00, 0x00],
    &[0x0b, 0x01, 0x02, 0x41, 0x42],
    &[0x10, 0x01, 0x00, 0x21, 0x23, 0x40],
    &[0x10, 0x01, 0x00, 0x21, 0x23, 0x41],
    &[0x00, 0x00, 0x00, 0x20, 0x08],
    &[0x00, 0x00, 0x00, 0x20, 0x09],
    &[0x08, 0x01, 0x00, 0x20, 0x08],
    &[0x00, 0x00, 0x00, 0x10, 0x05, 0x10, 0x05],
    &[0x00, 0x00, 0x00, 0x10],
    &[],
    &[0x18],
    &[0x20],
    &[0x40],
    &[0x00, 0x01],
    &[0x00, 0x01, 0x00],
    &[0x00, 0x00, 0x00, 0x20, 0x08, 0x10, 0x05],
    &[0x00, 0x00, 0x00, 0x10, 0x05, 0x20, 0x08],
    &[0x00, 0x00, 0x00, 0x1f, 0xff],
    &[0x10, 0x01, 0x00, 0x2f, 0xff, 0xf0, 0x20],
    &[0x10, 0x01, 0x00, 0x2f, 0xff, 0xf0, 0x30],
    &[0x10, 0x01, 0x00, 0x3f, 0xff, 0xff, 0xf0, 0x20],
    &[0x10, 0x01, 0x00, 0x3f, 0xff, 0xff, 0xf0, 0x30],
];

pub fn make(record: &mut Record) {
    corners(record);
    short_inputs(record);
    headers(record);
    service_words(record);
    crc_words(record);
    length_words(record);
    parameter_trains(record);
    data_boundaries(record);
    damaged(record, 1500);
    loose(record, 1500);
    faulty_encodes(record, 3);
    boundary_encodes(record);
    random_encodes(record, 900);
}

fn decode(record: &mut Record, version: u8, octets: &[u8]) {
    let mut input = vec![version];
    input.put_all(octets);
    record.call(DECODE, &input);
}

/// Mostly 1: the other versions differ in the first test alone.
fn any_version(random: &mut Random) -> u8 {
    if random.once_in(8) {
        random.pick(&VERSIONS)
    } else {
        1
    }
}

fn corners(record: &mut Record) {
    for octets in CORNERS {
        for version in VERSIONS {
            decode(record, version, octets);
        }
    }
}

fn short_inputs(record: &mut Record) {
    for first in 0..=255 {
        decode(record, 0, &[first]);
        decode(record, 1, &[first]);
        for second in [0, 1, 255] {
            decode(record, 1, &[first, second]);
        }
        let second = record.random.octet();
        let version = any_version(&mut record.random);
        decode(record, version, &[first, second]);
    }
}

fn headers(record: &mut Record) {
    for first in 0..24 {
        for sequence in [0, 1, 2, 254, 255] {
            for data_octets in [0, 1, 2, 255] {
                decode(record, 1, &[first, sequence, data_octets]);
            }
        }
    }
    for first in 24..=255 {
        let rest = [record.random.octet(), 0];
        decode(record, 1, &[first, rest[0], rest[1]]);
    }
}

/// Every services parameter on a Begin, and some of them on the other kinds.
fn service_words(record: &mut Record) {
    for word in 0x2000u16..0x3000 {
        let [high, low] = word.to_be_bytes();
        decode(record, 1, &[0, 0, 0, high, low]);
        if word % 61 == 0 {
            decode(record, 1, &[8, 1, 0, high, low]);
            decode(record, 1, &[16, 1, 0, high, low]);
        }
    }
}

fn crc_words(record: &mut Record) {
    for name in [0x20, 0x30] {
        for reserved in 0..16 {
            for value in [0, 0xff, record.random.octet()] {
                let mut octets = vec![0x11, 2, 0, name | (value & 15), value, value];
                if name == 0x30 {
                    octets.put8(value);
                }
                *octets.last_mut().expect("not empty") = (value & 0xf0) | reserved;
                decode(record, 1, &octets);
            }
        }
    }
}

fn length_words(record: &mut Record) {
    for [first, sequence] in OPENINGS {
        for word in (0x1000u16..0x2000)
            .step_by(97)
            .chain([0x10ff, 0x1100, 0x1fff])
        {
            let [high, low] = word.to_be_bytes();
            decode(record, 1, &[first, sequence, 0, high, low]);
        }
    }
}

/// Every train of up to three parameters from five sorts, after each header, cut at every place.
fn parameter_trains(record: &mut Record) {
    const SORTS: usize = 5;
    for kind in 0..OPENINGS.len() {
        for count in 1..=3 {
            for train in 0..SORTS.pow(count) {
                let sorts = (0..count).map(|place| train / SORTS.pow(place) % SORTS);
                let sorts: Vec<usize> = sorts.collect();
                cut_everywhere(record, kind, &sorts);
            }
        }
    }
}

fn cut_everywhere(record: &mut Record, kind: usize, sorts: &[usize]) {
    let data_octets = if record.random.once_in(4) { 2 } else { 0 };
    let mut octets = OPENINGS[kind].to_vec();
    octets.put8(data_octets);
    octets.extend((0..data_octets).map(|_| record.random.octet()));
    let without_parameters = octets.len();
    for sort in sorts {
        let parameter = parameter(&mut record.random, kind, *sort);
        octets.put_all(&parameter);
    }
    for length in without_parameters + 1..=octets.len() {
        let version = any_version(&mut record.random);
        decode(record, version, &octets[..length]);
    }
}

/// One parameter of the given sort; one in six of those with reserved bits has one of them set.
fn parameter(random: &mut Random, kind: usize, sort: usize) -> Vec<u8> {
    let low = random.octet();
    let wrong = random.once_in(6);
    match (sort, kind) {
        (0, _) => vec![0x10 | random.below(16) as u8, low],
        (1, 0) => services_parameter(random, wrong),
        (1, _) => vec![
            0x20 | random.below(16) as u8,
            low,
            (low & 0xf0) | u8::from(wrong),
        ],
        (2, _) => {
            let reserved = u8::from(wrong) << random.below(4);
            vec![
                0x30 | random.below(16) as u8,
                low,
                random.octet(),
                (low & 0xf0) | reserved,
            ]
        }
        (3, _) => vec![random.below(16) as u8],
        _ => vec![random.within(4, 15) as u8 * 16 + random.below(16) as u8],
    }
}

fn services_parameter(random: &mut Random, wrong: bool) -> Vec<u8> {
    let services = any_services(random);
    let mut word = 0x2000
        | (services.compression as u16) << 9
        | (services.acknowledgment_window as u16) << 3
        | (services.crc_status as u16) << 1;
    if wrong {
        word ^= 1 << random.below(12);
    }
    word.to_be_bytes().to_vec()
}

/// Data of the lengths at which a rule changes, cut, complete and followed by something.
fn data_boundaries(record: &mut Record) {
    for [first, sequence] in OPENINGS {
        for data_octets in [0, 1, 2, 127, 128, 254, 255] {
            let mut octets = vec![first, sequence, data_octets];
            octets.extend((0..data_octets).map(|_| record.random.octet()));
            let whole = octets.len();
            octets.put_all(&[0x10, 0x07, 0x40]);
            for length in [whole - 1, whole, whole + 1, whole + 2, whole + 3] {
                decode(record, 1, &octets[..length]);
            }
        }
    }
}

/// Copies of what writing gives, each changed in one way.
fn damaged(record: &mut Record, count: usize) {
    for _ in 0..count {
        let random = &mut record.random;
        let longest = if random.once_in(50) { 255 } else { 6 };
        let data_octets = random.below(longest + 1);
        let segment = any_segment(random, data_octets);
        let version = ProtocolVersion(1);
        let mut octets = segment.encode(version).expect("writing accepts it");
        damage(random, &mut octets);
        let version = any_version(random);
        decode(record, version, &octets);
    }
}

fn damage(random: &mut Random, octets: &mut Vec<u8>) {
    let place = random.below(octets.len());
    match random.below(8) {
        0 => {}
        1 => octets[place] ^= 1 << random.below(8),
        2 => octets[place] = random.octet(),
        3 => drop(octets.remove(place)),
        4 => octets.insert(place, random.octet()),
        5 => octets.truncate(place),
        6 => octets.put8(random.octet()),
        _ => octets[2] = octets[2].wrapping_add(random.pick(&[1, 255])),
    }
}

/// Headers that reading takes, then octets whose upper halves are mostly parameter names.
fn loose(record: &mut Record, count: usize) {
    for _ in 0..count {
        let random = &mut record.random;
        let kind = random.below(3) as u8;
        let sequence = if kind == 0 { 0 } else { random.octet() };
        let mut octets = vec![
            kind * 8 + random.below(8) as u8,
            sequence,
            random.below(4) as u8,
        ];
        for _ in 0..random.below(14) {
            let name = random.pick(&[0, 1, 1, 2, 2, 3, 3, 4, 15]);
            octets.put8(name << 4 | random.pick(&[0, 0, 0, 8, 1, 15]));
        }
        let version = any_version(random);
        decode(record, version, &octets);
    }
}

fn encode(record: &mut Record, version: u8, segment: &Segment, room: usize) {
    let mut input = vec![version];
    put_head(&mut input, segment);
    input.put16(room);
    input.put16(segment.segment_data.len());
    input.put_all(&segment.segment_data);
    record.call(ENCODE, &input);
}

/// What the encoding would take, faults aside.
fn encoded_octets(segment: &Segment) -> usize {
    let length = |stated: Option<u16>| if stated.is_some() { 2 } else { 0 };
    let parameters = match segment.kind {
        SegmentKind::Begin {
            message_length,
            services,
        } => length(message_length) + if services.is_some() { 2 } else { 0 },
        SegmentKind::Continue { message_length } => length(message_length),
        SegmentKind::End {
            message_length,
            crc,
        } => {
            let crc = match crc {
                None => 0,
                Some(MessageCrc::Crc16(_)) => 3,
                Some(MessageCrc::Crc24(_)) => 4,
            };
            length(message_length) + crc
        }
    };
    3 + segment.segment_data.len() + parameters
}

const VERSION_FAULT: usize = 1;
const TRANSACTION_FAULT: usize = 2;
const DATA_FAULT: usize = 4;
const SEQUENCE_FAULT: usize = 8;
const LENGTH_FAULT: usize = 16;
const CRC_FAULT: usize = 32;
const ROOM_FAULT: usize = 64;
const FAULT_SETS: usize = 128;

/// Every set of faults at once, which shows the order of the tests.
fn faulty_encodes(record: &mut Record, rounds: usize) {
    for faults in (0..FAULT_SETS).cycle().take(rounds * FAULT_SETS) {
        for tag in 0..3 {
            faulty_encode(record, faults, tag);
        }
    }
}

fn faulty_encode(record: &mut Record, faults: usize, tag: u8) {
    let random = &mut record.random;
    let has = |fault| faults & fault != 0;
    let data_octets = if has(DATA_FAULT) {
        random.pick(&[256, 257])
    } else {
        random.below(4)
    };
    let mut segment = any_segment(random, data_octets);
    segment.kind = any_kind(random, tag);
    segment.sequence_number = if tag == 0 { 0 } else { random.octet() };
    if has(TRANSACTION_FAULT) {
        segment.transaction_id = random.pick(&[8, 9, 128, 255]);
    }
    if has(SEQUENCE_FAULT) {
        segment.sequence_number = random.pick(&[1, 2, 255]);
    }
    if has(LENGTH_FAULT) {
        let wrong = random.pick(&[4096, 4097, 65535]);
        state_length(&mut segment, wrong);
    }
    if has(CRC_FAULT)
        && let SegmentKind::End { crc, .. } = &mut segment.kind
    {
        *crc = Some(MessageCrc::Crc24(random.pick(&[
            1 << 24,
            (1 << 24) + 1,
            u32::MAX,
        ])));
    }
    let whole = encoded_octets(&segment);
    let room = if has(ROOM_FAULT) {
        random.pick(&[0, 2, whole - 1])
    } else {
        whole + random.pick(&[0, 0, 1, 5])
    };
    let version = if has(VERSION_FAULT) {
        0
    } else {
        random.pick(&[1, 2, 255])
    };
    encode(record, version, &segment, room);
}

pub fn state_length(segment: &mut Segment, length: u16) {
    match &mut segment.kind {
        SegmentKind::Begin { message_length, .. }
        | SegmentKind::Continue { message_length }
        | SegmentKind::End { message_length, .. } => *message_length = Some(length),
    }
}

/// Each kind with each set of parameters, in an output one short, exactly full and longer.
fn boundary_encodes(record: &mut Record) {
    let lengths = [None, Some(0), Some(1), Some(4095), Some(4096)];
    let crcs = [0, 1, (1 << 24) - 1, 1 << 24].map(MessageCrc::Crc24);
    let crcs = crcs
        .into_iter()
        .chain([0, 1, 0x1234, 0xffff].map(MessageCrc::Crc16));
    let crcs: Vec<_> = crcs.map(Some).chain([None]).collect();
    let mut kinds: Vec<SegmentKind> = Vec::new();
    for message_length in lengths {
        kinds.push(SegmentKind::Continue { message_length });
        kinds.push(SegmentKind::Begin {
            message_length,
            services: None,
        });
        kinds.extend(crcs.iter().map(|crc| SegmentKind::End {
            message_length,
            crc: *crc,
        }));
        for _ in 0..8 {
            let services = Some(any_services(&mut record.random));
            kinds.push(SegmentKind::Begin {
                message_length,
                services,
            });
        }
    }
    for kind in kinds {
        let data_octets = record.random.pick(&[0, 1, 2, 5]);
        rooms(record, kind, data_octets);
    }
    for data_octets in [0, 1, 127, 128, 254, 255, 256] {
        for tag in 0..3 {
            let kind = any_kind(&mut record.random, tag);
            rooms(record, kind, data_octets);
        }
    }
}

fn rooms(record: &mut Record, kind: SegmentKind, data_octets: usize) {
    let mut segment = any_segment(&mut record.random, data_octets);
    segment.kind = kind;
    if matches!(kind, SegmentKind::Begin { .. }) {
        segment.sequence_number = 0;
    }
    let whole = encoded_octets(&segment);
    for room in [0, whole - 1, whole, whole + 1, whole + 7] {
        encode(record, 1, &segment, room);
    }
}

fn random_encodes(record: &mut Record, count: usize) {
    for _ in 0..count {
        let random = &mut record.random;
        let longest = if random.once_in(20) { 258 } else { 9 };
        let data_octets = random.below(longest + 1);
        let mut segment = any_segment(random, data_octets);
        if random.once_in(6) {
            segment.transaction_id = random.octet();
        }
        if random.once_in(6) {
            segment.sequence_number = random.octet();
        }
        if random.once_in(6) {
            let length = random.next() as u16;
            state_length(&mut segment, length);
        }
        let room = (encoded_octets(&segment) + random.below(5)).saturating_sub(random.below(4));
        let version = any_version(random);
        encode(record, version, &segment, room);
    }
}
