//! Lists of calls with whole trains in them.

use crate::receiver::{TRAIN, Trains};
use crate::table::WORD_EDGES;
use bts136::l3::broadcast::ProtocolVersion;
use bts136::l3::tsar::Segment;
use record::fields::{put_peer, put_protocol};
use record::list::{DONE, Recorder};
use record::make::heads::WINDOWS;
use record::make::receiver::{changed_peer, changed_protocol};
use record::make::receiver_run::{LAST_READING, Part, REASSEMBLY_MS, any_opening};
use record::make::trains::{DIFFERENCES, any_train, cut, differing, shuffled};
use record::octets::{Put, Take, patched};
use record::play::receiver::{ADVANCE, CANCEL, OPEN, Opening};
use record::random::Random;

type Record = Recorder<Trains>;

pub fn make(record: &mut Record, count: usize) {
    for _ in 0..count {
        list(record);
    }
    full(record);
    edges(record);
}

/// A segment's octets. Data of more than 255 octets cannot be written: they are cut.
fn encoded(part: &Part) -> Vec<u8> {
    let data = part.data;
    let octets = patched(
        data.octets.min(255),
        data.seed,
        data.patch_position,
        data.patch_change,
    );
    let segment = Segment {
        segment_data: octets,
        ..part.segment.clone()
    };
    segment.encode(ProtocolVersion(1)).unwrap_or_default()
}

/// Makes the call, and gives how many segments were received if it gave 0.
fn train(
    record: &mut Record,
    opening: &Opening,
    reading: u64,
    octets: &[u8],
    lengths: &[u16],
) -> Option<usize> {
    let mut input = Vec::new();
    put_peer(&mut input, opening.peer);
    put_protocol(&mut input, opening.protocol);
    input.put64(reading);
    input.put16(lengths.len());
    for length in lengths {
        input.put16(usize::from(*length));
    }
    input.put_all(octets);
    let answer = record.call(TRAIN, &input);
    (answer[0] == DONE).then(|| Take(&answer[3..]).take64() as usize)
}

/// A train, and its rest as long as a call gives 0 and some are left; now and then the rest is dropped.
fn go_on(
    record: &mut Record,
    opening: &Opening,
    reading: u64,
    octets: &[u8],
    lengths: &[u16],
    drops: bool,
) {
    let (mut octets, mut lengths) = (octets, lengths);
    loop {
        let received = train(record, opening, reading, octets, lengths);
        let Some(received) = received.filter(|received| *received > 0) else {
            return;
        };
        let (taken, rest) = lengths.split_at(received);
        for length in taken {
            octets = &octets[usize::from(*length).min(octets.len())..];
        }
        lengths = rest;
        if lengths.is_empty() || drops && record.random.once_in(4) {
            return;
        }
    }
}

fn lengths(segments: &[Vec<u8>]) -> Vec<u16> {
    segments.iter().map(|octets| octets.len() as u16).collect()
}

fn list(record: &mut Record) {
    let random = &mut record.random;
    let mut opening = any_opening(random);
    if random.once_in(6) {
        opening.reading = LAST_READING - random.pick(&[0, 1, 700, REASSEMBLY_MS]);
    }
    if random.once_in(6) {
        opening.maximum = random.pick(&[0, 3, 40, 300]);
    }
    let mut input = Vec::new();
    opening.put(&mut input);
    if record.call(OPEN, &input)[0] != DONE {
        return;
    }
    let random = &mut record.random;
    let window = random.below(usize::from(WINDOWS)) as u8;
    let count = random.pick(&[2, 3, 4, 6, 10, 20]);
    let parts = any_train(random, opening.transaction, window, count);
    let order = shuffled(random, &parts);
    let mut reading = opening.reading;
    let mut sent = 0;
    for _ in 0..random.within(1, 4) {
        let random = &mut record.random;
        let take = random.within(1, order.len());
        if sent >= order.len() {
            sent = 0;
        }
        let indices: Vec<usize> = order.iter().copied().skip(sent).take(take).collect();
        sent += indices.len();
        let mut segments: Vec<Vec<u8>> = indices
            .iter()
            .map(|index| encoded(&parts[*index]))
            .collect();
        let mut other = opening.clone();
        change(random, &parts, &mut segments, &mut other);
        let mut lengths = lengths(&segments);
        if random.once_in(6) {
            change_lengths(random, &mut lengths);
        }
        reading = any_reading(random, reading);
        go_on(record, &other, reading, &segments.concat(), &lengths, true);
        match record.random.below(8) {
            0 => drop(record.call(
                ADVANCE,
                &reading.saturating_add(REASSEMBLY_MS).to_be_bytes(),
            )),
            1 if sent >= order.len() => drop(record.call(CANCEL, &reading.to_be_bytes())),
            _ => {}
        }
    }
}

fn any_reading(random: &mut Random, last: u64) -> u64 {
    match random.below(12) {
        0 => last.saturating_sub(1),
        1 => last.saturating_add(REASSEMBLY_MS),
        2 => last.saturating_add(REASSEMBLY_MS + 1),
        3 => last.saturating_add(1),
        _ => last,
    }
}

/// Makes the train another one, now and then.
fn change(random: &mut Random, parts: &[Part], segments: &mut Vec<Vec<u8>>, opening: &mut Opening) {
    if random.once_in(2) {
        return;
    }
    let place = random.below(segments.len() + 1);
    let at = place.min(segments.len() - 1);
    let part = &parts[random.below(parts.len())];
    match random.below(13) {
        0 => segments[at].push(random.octet()),
        1 => drop(segments[at].pop()),
        2 => {
            let octet = random.below(segments[at].len().max(1));
            if let Some(octet) = segments[at].get_mut(octet) {
                *octet ^= 1 << random.below(8);
            }
        }
        3 => segments.insert(place, encoded(part)),
        4 => {
            let difference = random.below(DIFFERENCES);
            segments.insert(place, encoded(&differing(random, part, difference)));
        }
        5 => segments.insert(place, Vec::new()),
        6 => {
            let length = random.below(12);
            segments.insert(place, (0..length).map(|_| random.octet()).collect());
        }
        7 => segments[at][0] ^= random.pick(&[1, 2, 4]),
        8 => opening.peer = changed_peer(random, opening.peer),
        9 => opening.protocol = changed_protocol(random, opening.protocol),
        10 => segments[at].put_all(&[0x10, 0x07, 0x10, 0x07]),
        11 => segments.insert(
            place,
            vec![random.pick(&[0x18, 0x1f, 0x20, 0x38, 0x40, 0x80])],
        ),
        _ => segments[at].put_all(&[0x20, random.octet(), random.octet()]),
    }
}

fn change_lengths(random: &mut Random, lengths: &mut Vec<u16>) {
    let place = random.below(lengths.len());
    match random.below(5) {
        0 => lengths[place] = lengths[place].wrapping_add(random.pick(&[1, 65_535])),
        1 => lengths[place] = random.pick(&[0, 1, 65_535]),
        2 => lengths.push(random.pick(&[0, 3, 300])),
        3 => drop(lengths.pop()),
        _ => lengths.clear(),
    }
}

/// Opens a receiver of at most 65,280 octets.
fn open_full(record: &mut Record) -> Option<Opening> {
    let mut opening = any_opening(&mut record.random);
    opening.maximum = 65_280;
    let mut input = Vec::new();
    opening.put(&mut input);
    (record.call(OPEN, &input)[0] == DONE).then_some(opening)
}

/// 256 segments of 255 octets, from one call on and from two.
fn full(record: &mut Record) {
    for (window, cut_at) in [(0, 256), (3, 256), (4, 100), (5, 255)] {
        let Some(opening) = open_full(record) else {
            continue;
        };
        let transaction = opening.transaction;
        let mut parts = cut(&mut record.random, transaction, window, 256, 0);
        for part in &mut parts {
            part.data.octets = 255;
        }
        let segments: Vec<Vec<u8>> = parts.iter().map(encoded).collect();
        for segments in [&segments[..cut_at], &segments[cut_at..]] {
            go_on(
                record,
                &opening,
                opening.reading,
                &segments.concat(),
                &lengths(segments),
                false,
            );
        }
    }
}

/// The number of the window Last.
const LAST: u8 = 4;

/// 256 segments without one at a word's edge, so that the End's response and the timeout answer have it missing; then that one.
fn edges(record: &mut Record) {
    for (edge, _) in WORD_EDGES {
        let Some(opening) = open_full(record) else {
            continue;
        };
        let parts = cut(&mut record.random, opening.transaction, LAST, 256, 1);
        let mut segments: Vec<Vec<u8>> = parts.iter().map(encoded).collect();
        let missing = segments.remove(edge);
        let (octets, lengths) = (segments.concat(), lengths(&segments));
        train(record, &opening, opening.reading, &octets, &lengths);
        let reading = opening.reading + REASSEMBLY_MS;
        record.call(ADVANCE, &reading.to_be_bytes());
        let length = missing.len() as u16;
        train(record, &opening, reading, &missing, &[length]);
    }
}
