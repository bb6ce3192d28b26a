//! Inputs for ops 20 to 23. A list opens with op 20 and runs to the next one.

use super::codec::state_length;
use super::heads::{WINDOWS, any_crc, any_kind};
use super::receiver_run::{
    AWAITING_BEGIN, LAST_READING, Part, REASSEMBLY_MS, ReceiverRun, any_opening,
};
use super::trains::{
    DIFFERENCES, LONGER, any_train, begin, continuing, cut, differing, end, planned, shuffled,
    state_lengths, total, window_services,
};
use crate::fields::services;
use crate::list::Recorder;
use crate::play::receiver::{OPEN, Opening, Receiving};
use crate::random::Random;
use bts136::l3::relay::HigherLayerProtocol;
use bts136::l3::tsar::{MessageCrc, Segment, SegmentKind};
use bts136::link::rach::MobileIdentity;

type Record = Recorder<Receiving>;

pub fn make(record: &mut Record) {
    corners(record);
    openings(record, 160);
    refused_services(record);
    differing_repeats(record);
    clock_edges(record);
    timeouts(record, 250);
    late_clocks(record, 170);
    faults_at_once(record, 300);
    stated_lengths(record, 400);
    ends(record, 270);
    segment_faults(record);
    train_walks(record, 880);
    odd_walks(record, 370);
    periods(record);
    full_trains(record);
}

fn any_window(random: &mut Random) -> u8 {
    random.below(usize::from(WINDOWS)) as u8
}

fn open(record: &mut Record, opening: Opening) -> ReceiverRun<'_> {
    ReceiverRun::open(record, opening).expect("try_new accepts these arguments")
}

fn open_any(record: &mut Record) -> ReceiverRun<'_> {
    let opening = any_opening(&mut record.random);
    open(record, opening)
}

/// Calls after the part of a list that it was made for, until the list has ten.
fn fill(run: &mut ReceiverRun, train: &[Part]) {
    while run.calls < 10 {
        let reading = run.any();
        let index = run.random().below(train.len());
        match run.random().below(4) {
            0 => run.advance(reading),
            1 => faulty_call(run, train),
            _ => run.receive(&train[index], reading),
        }
    }
}

/// The corners of document 01, section link/tsar/receiver.rs, under each window.
fn corners(record: &mut Record) {
    for window in 0..WINDOWS {
        empty_message(record, window);
        continue_at_255(record, window);
        unheld_when_complete(record, window);
    }
}

fn empty_message(record: &mut Record, window: u8) {
    let mut run = open_any(record);
    let transaction = run.opening.transaction;
    let services = window_services(run.random(), window);
    run.receive(&Part::new(end(transaction, 1), 0, 0), run.now);
    run.receive(&Part::new(begin(transaction, services), 0, 0), run.now);
    run.receive(&Part::new(end(transaction, 1), 0, 0), run.now + 1);
    run.receive(
        &Part::new(end(transaction, 1), 0, 0),
        run.now + REASSEMBLY_MS + 2,
    );
    run.cancel(run.now);
    run.receive(&Part::new(end(transaction, 1), 1, 0), run.now);
}

fn continue_at_255(record: &mut Record, window: u8) {
    for octets in [0, 1] {
        let mut run = open_any(record);
        let transaction = run.opening.transaction;
        let services = window_services(run.random(), window);
        run.receive(&Part::new(begin(transaction, services), octets, 1), run.now);
        run.receive(&Part::new(continuing(transaction, 254), octets, 1), run.now);
        run.advance(run.now + REASSEMBLY_MS);
        if run.is_open() {
            run.receive(&Part::new(continuing(transaction, 255), octets, 1), run.now);
        }
        run.receive(&Part::new(continuing(transaction, 255), octets, 1), run.now);
    }
}

/// In Complete an unheld sequence gives 38 and yet takes the reading: a lower one is then 33.
fn unheld_when_complete(record: &mut Record, window: u8) {
    let mut run = open_any(record);
    let transaction = run.opening.transaction;
    let train = cut(run.random(), transaction, window, 3, 2);
    for part in &train {
        run.receive(part, run.now + 1);
    }
    let start = run.now;
    run.receive(&Part::new(continuing(transaction, 3), 1, 1), start + 50);
    run.advance(start + 49);
    run.receive(&train[1], start + 49);
    run.receive(&train[1], start + 50);
    run.receive(&Part::new(end(transaction, 255), 1, 1), start + 60);
    run.cancel(start + 59);
    run.cancel(start + 60);
    let longer = differing(run.random(), &train[2], LONGER);
    run.receive(&longer, start + 70);
    run.advance(start + 70);
}

/// try_new alone: each reason to refuse, and several at once.
fn openings(record: &mut Record, count: usize) {
    for _ in 0..count {
        let mut opening = any_opening(&mut record.random);
        let random = &mut record.random;
        if random.once_in(2) {
            opening.peer = any_wrong_peer(random);
        }
        if random.once_in(2) {
            opening.protocol = any_wrong_protocol(random);
        }
        if random.once_in(3) {
            opening.transaction = random.pick(&[7, 8, 9, 255]);
        }
        if random.once_in(3) {
            opening.version = random.pick(&[0, 1, 5]);
        }
        let mut input = Vec::new();
        opening.put(&mut input);
        record.call(OPEN, &input);
    }
}

/// Peers at the edges of what is served, some within.
pub fn any_wrong_peer(random: &mut Random) -> MobileIdentity {
    let width = random.pick(&[0, 1, 34, 62, 63, 64, 65, 127, 128, 255]);
    let least_outside = if width < 64 { 1u64 << width } else { 1 };
    let value = random.pick(&[0, 1, least_outside - 1, least_outside, u64::MAX]);
    MobileIdentity {
        kind: random.octet(),
        width,
        value,
    }
}

pub fn any_wrong_protocol(random: &mut Random) -> HigherLayerProtocol {
    let octet = random.pick(&[0, 0x3f, 0x40, 0x7f, 0x80, 0xbf, 0xc0, 0xff]);
    match random.below(3) {
        0 => HigherLayerProtocol::Segmented(octet),
        1 => HigherLayerProtocol::CarrierSpecific(octet),
        _ => HigherLayerProtocol::Other(octet),
    }
}

/// Every services field on the first Begin, under the versions around 5.
fn refused_services(record: &mut Record) {
    for version in [1, 4, 5, 6] {
        for window in 0..WINDOWS {
            for (compression, crc_status) in [(1, 0), (0, 1), (0, 2), (1, 1), (1, 2)] {
                let mut opening = any_opening(&mut record.random);
                opening.version = version;
                let mut run = open(record, opening);
                let transaction = run.opening.transaction;
                let asked = Some(services([compression, window, crc_status]));
                let mut part = Part::new(begin(transaction, asked), 2, 9);
                if run.random().once_in(3) {
                    state_length(&mut part.segment, 7);
                }
                run.receive(&part, run.now + 3);
                run.receive(&part, run.now + 2);
                run.advance(run.now + 5);
                run.cancel(run.now + 5);
            }
        }
    }
}

/// A train without its End, or with it, then each segment again in each way that differs.
fn differing_repeats(record: &mut Record) {
    for window in 0..WINDOWS {
        for difference in 0..DIFFERENCES {
            for complete in [false, true] {
                for place in [0, 1, 3] {
                    let unchanged = place == 1 && (8..13).contains(&difference);
                    if !unchanged {
                        differing_repeat(record, window, difference, complete, place);
                    }
                }
            }
        }
    }
}

fn differing_repeat(
    record: &mut Record,
    window: u8,
    difference: usize,
    complete: bool,
    place: usize,
) {
    let mut run = open_any(record);
    let transaction = run.opening.transaction;
    let longest = run.random().pick(&[1, 4, 30]);
    let mut train = cut(run.random(), transaction, window, 4, longest);
    if run.random().once_in(2) {
        state_lengths(run.random(), &mut train, 2);
    }
    // An incomplete train lacks segment 2.
    for index in [0, 3, 1, 2].into_iter().take(if complete { 4 } else { 3 }) {
        let reading = run.soon();
        run.receive(&train[index], reading);
    }
    let reading = run.safe();
    run.receive(&train[place], reading);
    let changed = differing(run.random(), &train[place], difference);
    let reading = run.safe();
    run.receive(&changed, reading);
    let reading = run.safe();
    run.receive(&train[place], reading);
    fill(&mut run, &train);
}

/// receive and advance at D − 1, D and D + 1, first one, then the other.
fn clock_edges(record: &mut Record) {
    for window in 0..WINDOWS {
        for held in 1..4 {
            for first in 0..3 {
                for advance_first in [false, true] {
                    clock_edge(record, window, held, first, advance_first);
                }
            }
        }
    }
}

fn clock_edge(record: &mut Record, window: u8, held: usize, first: u64, advance_first: bool) {
    let mut run = open_any(record);
    let transaction = run.opening.transaction;
    let train = cut(run.random(), transaction, window, 5, 3);
    for part in &train[..held] {
        let reading = run.soon();
        run.receive(part, reading);
    }
    let edge = run.now + REASSEMBLY_MS - 1 + first;
    if advance_first {
        run.advance(edge);
    } else {
        run.receive(&train[held], edge);
    }
    run.advance(run.now);
    run.receive(&train[0], edge);
    run.advance(edge + 1);
    let reading = run.any();
    run.receive(&train[held], reading);
    let reading = run.any();
    run.receive(&train[4], reading);
    fill(&mut run, &train);
}

/// Partial trains whose deadline passes once or more often, then the rest.
fn timeouts(record: &mut Record, count: usize) {
    for _ in 0..count {
        let window = any_window(&mut record.random);
        let mut run = open_any(record);
        let transaction = run.opening.transaction;
        let segments = run.random().within(3, 9);
        let train = any_train(run.random(), transaction, window, segments);
        let order = shuffled(run.random(), &train);
        for index in order {
            let reading = run.soon();
            run.receive(&train[index], reading);
            if run.random().once_in(3) {
                let reading = run.deadline.unwrap_or(run.now);
                run.advance(reading);
                let reading = run.any();
                run.receive(&train[0], reading);
            }
        }
        let reading = run.any();
        run.advance(reading);
        fill(&mut run, &train);
    }
}

/// Readings around the last one at which a deadline fits.
fn late_clocks(record: &mut Record, count: usize) {
    for _ in 0..count {
        let mut opening = any_opening(&mut record.random);
        let early = [0, 1, 2, 700, REASSEMBLY_MS, REASSEMBLY_MS + 1];
        opening.reading = LAST_READING - record.random.pick(&early);
        let window = any_window(&mut record.random);
        let mut run = open(record, opening);
        let transaction = run.opening.transaction;
        let train = cut(run.random(), transaction, window, 4, 2);
        for step in 0..12 {
            let index = if step == 0 { 0 } else { run.random().below(4) };
            let reading = late_reading(&mut run);
            match run.random().below(6) {
                0 => run.advance(reading),
                1 if step > 8 => run.cancel(reading),
                _ => run.receive(&train[index], reading),
            }
        }
    }
}

fn late_reading(run: &mut ReceiverRun) -> u64 {
    match run.random().below(9) {
        0 => LAST_READING,
        1 => LAST_READING - 1,
        2 => LAST_READING + 1,
        3 => u64::MAX,
        4 => u64::MAX - 1,
        5 => run.deadline.unwrap_or(run.now),
        _ => run.now,
    }
}

/// In every state, calls with several reasons to refuse, then one without.
fn faults_at_once(record: &mut Record, count: usize) {
    for number in 0..count {
        let window = any_window(&mut record.random);
        let mut run = open_any(record);
        let transaction = run.opening.transaction;
        let train = cut(run.random(), transaction, window, 4, 3);
        reach(&mut run, &train, number % 6);
        for _ in 0..6 {
            faulty_call(&mut run, &train);
        }
        let reading = run.safe();
        let index = run.random().below(4);
        run.receive(&train[index], reading);
        fill(&mut run, &train);
    }
}

/// Brings the receiver into AwaitingBegin, Receiving, Complete, Failed, Expired or Canceled.
fn reach(run: &mut ReceiverRun, train: &[Part], state: usize) {
    if state == 0 {
        return;
    }
    let held = [0, 2, 4, 2, 1, 2][state];
    for part in &train[..held] {
        let reading = run.soon();
        run.receive(part, reading);
    }
    match state {
        3 => {
            let longer = differing(run.random(), &train[1], LONGER);
            run.receive(&longer, run.now);
        }
        4 => run.advance(run.now.saturating_add(REASSEMBLY_MS)),
        5 => run.cancel(run.now),
        _ => {}
    }
}

fn faulty_call(run: &mut ReceiverRun, train: &[Part]) {
    let index = run.random().below(train.len());
    let reading = run.soon();
    let mut delivery = run.delivery(&train[index], reading);
    for _ in 0..run.random().within(1, 4) {
        match run.random().below(10) {
            0 => delivery.reading = run.now.saturating_sub(1),
            1 => delivery.peer = changed_peer(run.random(), delivery.peer),
            2 => delivery.protocol = changed_protocol(run.random(), delivery.protocol),
            3 => delivery.segment.transaction_id ^= run.random().pick(&[1, 2, 4, 8, 128]),
            4 => delivery.data.octets = run.random().pick(&[256, 257, 300]),
            5 => state_length(&mut delivery.segment, run.random().pick(&[4096, 65_535])),
            6 => delivery.unparsed = run.random().pick(&[1, 2, 300]),
            7 => delivery.reading = LAST_READING + run.random().within(1, 3) as u64,
            8 => delivery.reading = run.now.saturating_add(REASSEMBLY_MS + 1),
            _ => break_codec(run.random(), &mut delivery.segment),
        }
    }
    run.deliver(&delivery);
}

fn break_codec(random: &mut Random, segment: &mut Segment) {
    if random.once_in(2) {
        segment.kind = SegmentKind::Begin {
            message_length: None,
            services: None,
        };
        segment.sequence_number = random.pick(&[1, 255]);
    } else {
        let crc = Some(MessageCrc::Crc24(1 << 24));
        segment.kind = SegmentKind::End {
            message_length: None,
            crc,
        };
    }
}

pub fn changed_peer(random: &mut Random, peer: MobileIdentity) -> MobileIdentity {
    match random.below(3) {
        0 => MobileIdentity {
            kind: peer.kind ^ 1,
            ..peer
        },
        1 => MobileIdentity {
            width: peer.width ^ random.pick(&[1, 64, 128]),
            ..peer
        },
        _ => MobileIdentity {
            value: peer.value ^ (1 << random.below(64)),
            ..peer
        },
    }
}

pub fn changed_protocol(random: &mut Random, from: HigherLayerProtocol) -> HigherLayerProtocol {
    match (from, random.below(3)) {
        (HigherLayerProtocol::Segmented(octet), 0) => HigherLayerProtocol::Segmented(octet ^ 1),
        (HigherLayerProtocol::Segmented(octet), 1) => HigherLayerProtocol::CarrierSpecific(octet),
        (HigherLayerProtocol::CarrierSpecific(octet), 0) => {
            HigherLayerProtocol::CarrierSpecific(octet ^ 1)
        }
        (HigherLayerProtocol::CarrierSpecific(octet), 1) => HigherLayerProtocol::Segmented(octet),
        (_, _) => HigherLayerProtocol::Other(random.octet()),
    }
}

/// Stated lengths that agree, clash or are wrong, and maxima around the message's length.
fn stated_lengths(record: &mut Record, count: usize) {
    for _ in 0..count {
        let random = &mut record.random;
        let window = any_window(random);
        let mut opening = any_opening(random);
        let segments = random.within(2, 7);
        let longest = random.pick(&[1, 2, 5, 100]);
        let mut train = cut(random, opening.transaction, window, segments, longest);
        let whole = total(&train);
        opening.maximum = match random.below(6) {
            0 => whole as u64,
            1 => whole as u64 + 1,
            2 => (whole as u64).saturating_sub(1),
            3 => random.below(whole + 2) as u64,
            _ => 65_280,
        };
        let lengths = [
            whole,
            whole,
            whole + 1,
            whole.saturating_sub(1),
            random.below(whole + 2),
        ];
        let share = random.pick(&[1, 2, 4]);
        let steady = random.pick(&lengths);
        for part in &mut train {
            if random.once_in(share) {
                let other = random.pick(&lengths);
                let length = if random.once_in(5) { other } else { steady };
                state_length(&mut part.segment, length as u16);
            }
        }
        let order = shuffled(random, &train);
        run_train(record, opening, &train, &order);
    }
}

const CRC: usize = 1;
const BELOW_HELD: usize = 2;
const PAST_END: usize = 4;
const CLASH: usize = 8;
const TOO_LONG: usize = 16;
const ABOVE_MAXIMUM: usize = 32;
const PASSES_LENGTH: usize = 64;
const FAULT_SETS: usize = 128;

/// A new segment with every set of reasons to fail, which shows the order of the tests.
fn segment_faults(record: &mut Record) {
    for faults in 0..FAULT_SETS {
        segment_fault(record, faults, true);
        if faults & (CRC | BELOW_HELD) == 0 {
            segment_fault(record, faults, false);
        }
    }
}

fn segment_fault(record: &mut Record, faults: usize, ends: bool) {
    let has = |fault| faults & fault != 0;
    let window = any_window(&mut record.random);
    let mut opening = any_opening(&mut record.random);
    opening.maximum = 10;
    let mut run = open(record, opening);
    let transaction = run.opening.transaction;
    let services = window_services(run.random(), window);
    let mut train = vec![Part::new(begin(transaction, services), 1, 1)];
    if has(CLASH) || has(PASSES_LENGTH) {
        state_length(&mut train[0].segment, 5);
    }
    train.push(Part::new(continuing(transaction, 2), 1, 2));
    if has(PAST_END) {
        train.push(Part::new(end(transaction, 3), 1, 3));
    }
    train.push(faulty_part(run.random(), transaction, faults, ends));
    for part in &train {
        let reading = run.soon();
        run.receive(part, reading);
    }
    fill(&mut run, &train);
}

/// The last segment of a list of `segment_fault`: the maximum is 10, a stated length is 5.
fn faulty_part(random: &mut Random, transaction: u8, faults: usize, ends: bool) -> Part {
    let has = |fault| faults & fault != 0;
    let sequence = match (has(PAST_END), has(BELOW_HELD)) {
        (true, _) => 4,
        (false, true) => 1,
        (false, false) => 5,
    };
    let mut segment = if ends {
        end(transaction, sequence)
    } else {
        continuing(transaction, sequence)
    };
    if ends && has(CRC) {
        let crc = Some(any_crc(random));
        segment.kind = SegmentKind::End {
            message_length: None,
            crc,
        };
    }
    if has(ABOVE_MAXIMUM) {
        state_length(&mut segment, 11);
    } else if has(CLASH) {
        state_length(&mut segment, 6);
    }
    let octets = if has(TOO_LONG) {
        20
    } else if has(PASSES_LENGTH) {
        6
    } else {
        1
    };
    Part::new(segment, octets, 4)
}

/// Delivers in order with an occasional repeat, then a few calls more.
fn run_train(record: &mut Record, opening: Opening, train: &[Part], order: &[usize]) {
    let mut run = open(record, opening);
    for index in order {
        let reading = run.safe();
        run.receive(&train[*index], reading);
        if run.random().once_in(5) {
            let repeated = order[run.record.random.below(order.len())];
            let reading = run.safe();
            run.receive(&train[repeated], reading);
        }
    }
    let reading = run.any();
    run.advance(reading);
    fill(&mut run, train);
}

/// Ends below, at and past what is held, several Ends, and what comes past a known end.
fn ends(record: &mut Record, count: usize) {
    for _ in 0..count {
        let window = any_window(&mut record.random);
        let mut run = open_any(record);
        let transaction = run.opening.transaction;
        let services = window_services(run.random(), window);
        run.receive(&Part::new(begin(transaction, services), 1, 1), run.now);
        let last = run.random().pick(&[1, 2, 3, 5, 254, 255]);
        for _ in 0..run.record.random.within(7, 11) {
            let part = any_near_end(run.random(), transaction, last);
            let reading = run.safe();
            run.receive(&part, reading);
        }
        let reading = run.any();
        run.advance(reading);
    }
}

fn any_near_end(random: &mut Random, transaction: u8, last: u8) -> Part {
    let low = random.pick(&[0, 1, 2, 3, 4]).min(last);
    let sequence = match random.below(6) {
        0 => last,
        1 => last.saturating_add(1),
        2 => last - 1,
        _ => low,
    };
    let ends = if sequence == last {
        random.once_in(2)
    } else {
        random.once_in(9)
    };
    let mut segment = if ends {
        end(transaction, sequence)
    } else {
        continuing(transaction, sequence)
    };
    if ends && random.once_in(7) {
        let crc = Some(any_crc(random));
        segment.kind = SegmentKind::End {
            message_length: None,
            crc,
        };
    }
    if sequence == 0 && !random.once_in(4) {
        segment = continuing(transaction, 1);
    }
    Part::new(segment, 1, sequence)
}

/// Trains in any order with repeats, timeouts, refusals and, towards the end, damage.
fn train_walks(record: &mut Record, count: usize) {
    for _ in 0..count {
        let window = any_window(&mut record.random);
        let mut opening = any_opening(&mut record.random);
        let segments = record.random.pick(&[2, 3, 4, 5, 6, 8, 10, 20]);
        let train = any_train(&mut record.random, opening.transaction, window, segments);
        if record.random.once_in(4) {
            let whole = total(&train) as u64;
            opening.maximum = record.random.pick(&[whole, whole + 1, whole.max(1) - 1]);
        }
        let calls = record.random.pick(&[9, 10, 11, 12, 14, 24]);
        let mut order = shuffled(&mut record.random, &train).into_iter();
        let mut run = open(record, opening);
        for step in 0..calls {
            let risky = step + 4 >= calls;
            let next = if run.random().once_in(3) {
                None
            } else {
                order.next()
            };
            walk_step(&mut run, &train, next, risky);
        }
    }
}

fn walk_step(run: &mut ReceiverRun, train: &[Part], next: Option<usize>, risky: bool) {
    let reading = if risky { run.any() } else { run.safe() };
    if let Some(index) = next {
        return run.receive(&train[index], reading);
    }
    let index = run.random().below(train.len());
    match run.random().below(if risky { 8 } else { 5 }) {
        0 => faulty_call(run, train),
        1 => run.advance(reading),
        2..4 => run.receive(&train[index], reading),
        4 => run.receive(&train[0], reading),
        5 => {
            let difference = run.random().below(DIFFERENCES);
            let changed = differing(run.random(), &train[index], difference);
            run.receive(&changed, reading);
        }
        6 => run.cancel(reading),
        _ => run.advance(reading),
    }
}

/// Segments that belong to no train: few sequences, any kind, short data, a small maximum.
fn odd_walks(record: &mut Record, count: usize) {
    for _ in 0..count {
        let random = &mut record.random;
        let mut opening = any_opening(random);
        opening.maximum = random.pick(&[0, 1, 2, 3, 5, 8, 65_280]);
        let window = any_window(random);
        let asked = window_services(random, window);
        let mut run = open(record, opening);
        let transaction = run.opening.transaction;
        let first = Part::new(begin(transaction, asked), 0, 0);
        for step in 0..12 {
            let reading = if step > 8 { run.any() } else { run.safe() };
            if run.state == AWAITING_BEGIN && run.random().once_in(2) {
                run.receive(&first, reading);
            } else if run.random().once_in(9) {
                run.advance(reading);
            } else {
                let part = any_odd(run.random(), transaction);
                run.receive(&part, reading);
            }
        }
    }
}

fn any_odd(random: &mut Random, transaction: u8) -> Part {
    let sequence = random.pick(&[1, 1, 2, 2, 3, 4, 253, 254, 255, 0]);
    let tag = if sequence == 0 {
        random.pick(&[0, 0, 1, 2])
    } else {
        random.pick(&[1, 1, 1, 1, 2])
    };
    let mut segment = continuing(transaction, sequence);
    segment.kind = if random.once_in(6) {
        any_kind(random, tag)
    } else {
        match tag {
            0 => begin(transaction, None).kind,
            1 => segment.kind,
            _ => end(transaction, sequence).kind,
        }
    };
    if random.once_in(4) {
        state_length(&mut segment, random.pick(&[0, 1, 2, 3, 4]));
    }
    Part::new(segment, random.pick(&[0, 0, 1, 1, 2]), sequence)
}

/// Long trains in order under each window, so that every period is passed several times.
fn periods(record: &mut Record) {
    for window in 0..WINDOWS {
        for longest in [1, 9] {
            let opening = any_opening(&mut record.random);
            let segments = record.random.within(34, 52);
            let transaction = opening.transaction;
            let train = cut(&mut record.random, transaction, window, segments, longest);
            let order = shuffled(&mut record.random, &train);
            run_train(record, opening, &train, &order);
        }
        let opening = any_opening(&mut record.random);
        let train = planned(&mut record.random, opening.transaction, window, 30);
        let order: Vec<usize> = (0..train.len()).collect();
        run_train(record, opening, &train, &order);
    }
}

/// 256 segments of 255 octets, and of one octet under Every16, with maxima at the edge.
fn full_trains(record: &mut Record) {
    for (window, octets, maximum, shuffle) in [
        (0, 255, 65_280, false),
        (3, 255, 65_280, true),
        (1, 255, 65_279, false),
        (4, 255, u64::MAX, true),
        (5, 1, 256, true),
        (2, 1, 255, false),
    ] {
        let mut opening = any_opening(&mut record.random);
        opening.maximum = maximum;
        let transaction = opening.transaction;
        let mut train = cut(&mut record.random, transaction, window, 256, 0);
        for part in &mut train {
            part.data.octets = octets;
        }
        let mut order: Vec<usize> = (0..train.len()).collect();
        if shuffle {
            record.random.shuffle(&mut order[1..]);
        }
        run_train(record, opening, &train, &order);
    }
}
