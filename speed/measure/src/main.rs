//! Measures the decoding and rebuilding of a train of 256 segments of 255 octets: docs/src, plain Rust of the port's shape, the port, and
//! plain copies of the same octets. All run interleaved, in one process; the table has medians. Then measures repeats (see `repeats`).

mod repeats;
mod shared;

use bts136::l3::relay::HigherLayerProtocol;
use bts136::l3::tsar::{AcknowledgmentWindow, decode_segment};
use bts136::link::rach::MobileIdentity;
use bts136::link::tsar::Receiver;
use catkhize::{calls, layout};
use plain::receiver::Reported;
use shared::{
    Buffers, CONTINUE, END, FILL, HEADER_OCTETS, MESSAGE_OCTETS, ORIGIN, READING, SEGMENT_OCTETS,
    SEGMENTS, TRANSACTION, VERSION, begin, encoded, median,
};
use std::{env, hint::black_box, ops::Range, time::Instant};

/// Trains in one timing, and timings of each program: the median of the latter goes into the table.
const TRAINS: usize = 5;
const ROUNDS: usize = 301;

/// In the answer to a train, where the number of segments received and the number of octets handed over begin: its first and its last
/// number. Between them, the REPLY.
const RECEIVED_AT: usize = 0;
const COUNT_AT: usize = layout::TRAIN - size_of::<u64>();
const REPLY: Range<usize> = layout::train::RECEPTION..layout::train::RECEPTION + layout::REPLY;

/// Encoded segments one after another, with the number of octets of each in two octets.
struct Train {
    octets: Vec<u8>,
    lengths: Vec<u8>,
    message: Vec<u8>,
    /// The calls that the port makes of it: one, and one more behind each response.
    calls: usize,
}

impl Train {
    /// The Begin comes first; the others in `order`.
    fn new(window: AcknowledgmentWindow, order: &[usize]) -> Self {
        let message: Vec<u8> = (0..MESSAGE_OCTETS)
            .map(|i| (i * 31 + i / 255) as u8)
            .collect();
        let mut octets = Vec::new();
        let mut lengths = Vec::new();
        for &index in order {
            let from = SEGMENT_OCTETS * index;
            let kind = if index == 0 {
                begin(window)
            } else if index == SEGMENTS - 1 {
                END
            } else {
                CONTINUE
            };
            let encoded = encoded(index as u8, kind, &message[from..from + SEGMENT_OCTETS]);
            lengths.extend((encoded.len() as u16).to_be_bytes());
            octets.extend(encoded);
        }
        Self {
            octets,
            lengths,
            message,
            calls: 0,
        }
    }

    fn segments(&self) -> impl Iterator<Item = &[u8]> {
        let mut rest = self.octets.as_slice();
        self.lengths.chunks_exact(2).map(move |pair| {
            let (segment, next) =
                rest.split_at(usize::from(u16::from_be_bytes([pair[0], pair[1]])));
            rest = next;
            segment
        })
    }
}

#[derive(Clone, Copy)]
enum Program {
    Original,
    Plain,
    Port,
    Record,
    Copies,
}

impl Program {
    const ALL: [Self; 5] = [
        Self::Original,
        Self::Plain,
        Self::Port,
        Self::Record,
        Self::Copies,
    ];

    /// The number of octets that it rebuilds.
    fn rebuilds(self) -> usize {
        match self {
            Self::Record => 0,
            _ => MESSAGE_OCTETS,
        }
    }

    /// The number of octets of the rebuilt message, which is left in the output.
    fn run(self, train: &Train, buffers: &mut Buffers) -> usize {
        match self {
            Self::Original => {
                let message = original(train);
                let count = message.len();
                buffers.output = message;
                count
            }
            Self::Plain => plain::train::train(
                &train.octets,
                &train.lengths,
                &mut buffers.store,
                &mut buffers.output,
                &mut buffers.responses,
            ),
            Self::Port => port(train, buffers, |_| ()).0,
            Self::Record => record(train, buffers),
            Self::Copies => copies(train, buffers),
        }
    }
}

/// docs/src, compiled unchanged.
#[inline(never)]
fn original(train: &Train) -> Vec<u8> {
    let peer = MobileIdentity {
        kind: ORIGIN.kind,
        width: ORIGIN.width,
        value: ORIGIN.value,
    };
    let protocol = HigherLayerProtocol::Segmented(ORIGIN.octet);
    let mut receiver = Receiver::try_new(
        peer,
        protocol,
        TRANSACTION,
        VERSION,
        MESSAGE_OCTETS,
        READING,
    )
    .expect("these terms are served");
    let mut message = Vec::new();
    for octets in train.segments() {
        let decoded = decode_segment(octets, VERSION).expect("the octets spell a segment");
        let reception = receiver
            .receive(peer, protocol, &decoded, READING)
            .expect("the segment is taken");
        if let Some(octets) = reception.message {
            message = octets;
        }
    }
    message
}

fn number(answer: &[u8; layout::TRAIN], at: usize) -> usize {
    let octets = answer[at..at + size_of::<u64>()]
        .try_into()
        .expect("a number has eight octets");
    u64::from_be_bytes(octets) as usize
}

/// One call on a train.
fn take(octets: &[u8], lengths: &[u8], buffers: &mut Buffers) -> [u8; layout::TRAIN] {
    let mut answer = [FILL; layout::TRAIN];
    let taken = calls::receiver_train(
        &mut buffers.record,
        &mut buffers.store,
        &mut buffers.output,
        ORIGIN,
        octets,
        lengths,
        READING,
        &mut answer,
    );
    assert_eq!(taken, 0, "the train is taken");
    answer
}

/// The exports as firmware calls them: the record is made in octets; a call reads it off them, takes it through the train up to the first
/// reception that carries a response or a message, and puts it back, and firmware goes on with the rest. Gives the number of octets handed
/// over, and the number of calls that it took; `see` is given every answer.
#[inline(never)]
fn port(
    train: &Train,
    buffers: &mut Buffers,
    mut see: impl FnMut(&[u8; layout::TRAIN]),
) -> (usize, usize) {
    buffers.make();
    let (mut octets, mut lengths) = (train.octets.as_slice(), train.lengths.as_slice());
    let mut calls = 0;
    loop {
        let answer = take(octets, lengths, buffers);
        see(&answer);
        calls += 1;
        let (received, rest) = lengths.split_at(2 * number(&answer, RECEIVED_AT));
        for pair in received.chunks_exact(2) {
            octets = &octets[usize::from(u16::from_be_bytes([pair[0], pair[1]]))..];
        }
        lengths = rest;
        if lengths.is_empty() {
            return (number(&answer, COUNT_AT), calls);
        }
    }
}

/// The same with no segments, in as many calls as the train takes: making the record, reading it and putting it back.
#[inline(never)]
fn record(train: &Train, buffers: &mut Buffers) -> usize {
    buffers.make();
    for _ in 0..train.calls {
        take(&[], &[], buffers);
    }
    0
}

/// Each segment's data to its slot, then all slots to the output: the octets that a receiver with a store cannot but copy.
#[inline(never)]
fn copies(train: &Train, buffers: &mut Buffers) -> usize {
    for octets in train.segments() {
        let from = SEGMENT_OCTETS * usize::from(octets[1]);
        let data = &octets[HEADER_OCTETS..HEADER_OCTETS + SEGMENT_OCTETS];
        buffers.store[from..from + SEGMENT_OCTETS].copy_from_slice(data);
    }
    for slot in 0..SEGMENTS {
        let range = SEGMENT_OCTETS * slot..SEGMENT_OCTETS * (slot + 1);
        buffers.output[range.clone()].copy_from_slice(black_box(&buffers.store[range]));
    }
    MESSAGE_OCTETS
}

/// What plain Rust answers, as REPLY: a response, and the figures of its map. It lists no support here.
fn reply(reported: &Reported) -> Vec<u8> {
    let Reported { response, missing } = reported;
    let map = response.acknowledgments;
    let mut octets = vec![1, response.transaction_id, response.status as u8];
    octets.extend(map.bit_count.to_be_bytes());
    octets.extend(map.received.0.map(u64::to_be_bytes).concat());
    assert!(response.optional_services_support.is_none());
    octets.resize(layout::reply::MISSING, 0);
    octets.extend(missing.count.to_be_bytes());
    octets.extend(missing.first.to_be_bytes());
    octets
}

/// Plain Rust and the port answer a train with the same responses and figures.
fn compare_responses(name: &str, train: &Train, buffers: &mut Buffers) {
    buffers.responses.fill(None);
    Program::Plain.run(train, buffers);
    let plain: Vec<Vec<u8>> = buffers.responses.iter().flatten().map(reply).collect();
    let mut answered = Vec::new();
    port(train, buffers, |answer| {
        let reply = &answer[REPLY];
        if reply[0] == 1 {
            answered.push(reply.to_vec());
        }
    });
    assert!(plain == answered, "{name}: other responses or figures");
}

/// 0 to 255, shuffled behind the Begin by splitmix64.
fn shuffled() -> Vec<usize> {
    let mut order: Vec<usize> = (0..SEGMENTS).collect();
    let mut seed: u64 = 136_620;
    for index in (2..SEGMENTS).rev() {
        seed = seed.wrapping_add(0x9e37_79b9_7f4a_7c15);
        let mut mixed = seed;
        mixed = (mixed ^ (mixed >> 30)).wrapping_mul(0xbf58_476d_1ce4_e5b9);
        mixed = (mixed ^ (mixed >> 27)).wrapping_mul(0x94d0_49bb_1331_11eb);
        mixed ^= mixed >> 31;
        order.swap(index, 1 + (mixed % index as u64) as usize);
    }
    order
}

/// Measures the trains.
fn trains() {
    let in_order: Vec<usize> = (0..SEGMENTS).collect();
    let shuffled = shuffled();
    let mut cases = [
        (
            "Prohibited, in order",
            AcknowledgmentWindow::Prohibited,
            &in_order,
        ),
        (
            "Prohibited, shuffled",
            AcknowledgmentWindow::Prohibited,
            &shuffled,
        ),
        (
            "Every16, in order",
            AcknowledgmentWindow::Every16,
            &in_order,
        ),
        (
            "Every16, shuffled",
            AcknowledgmentWindow::Every16,
            &shuffled,
        ),
    ]
    .map(|(name, window, order)| (name, Train::new(window, order)));
    let mut buffers = Buffers::new();
    for (_, train) in &mut cases {
        train.calls = port(train, &mut buffers, |_| ()).1;
    }
    for (name, train) in &cases {
        for program in Program::ALL {
            buffers.store.fill(FILL);
            buffers.output.fill(FILL);
            let count = program.run(train, &mut buffers);
            assert_eq!(count, program.rebuilds(), "{name}");
            assert!(
                buffers.output[..count] == train.message[..count],
                "{name}: another message"
            );
        }
        compare_responses(name, train, &mut buffers);
    }
    let mut times = vec![[const { Vec::new() }; Program::ALL.len()]; cases.len()];
    for _ in 0..ROUNDS {
        for ((_, train), times) in cases.iter().zip(&mut times) {
            for (program, times) in Program::ALL.into_iter().zip(times) {
                let start = Instant::now();
                for _ in 0..TRAINS {
                    black_box(program.run(black_box(train), black_box(&mut buffers)));
                }
                times.push(start.elapsed().as_secs_f64() * 1e6 / TRAINS as f64);
            }
        }
    }
    println!(
        "Microseconds for a train of {SEGMENTS} segments of {SEGMENT_OCTETS} octets: medians of {ROUNDS} timings of {TRAINS} trains each."
    );
    println!();
    println!(
        "| Window and order | docs/src | plain Rust | this port | of it the record's octets | copies | port / plain | without the octets | port / docs/src |"
    );
    println!("|---|---|---|---|---|---|---|---|---|");
    for ((name, train), times) in cases.iter().zip(times) {
        let calls = match train.calls {
            1 => String::from("one call"),
            calls => format!("{calls} calls"),
        };
        let [original, plain, port, record, copies] = times.map(median);
        println!(
            "| {name}; the port in {calls} | {original:.1} | {plain:.1} | {port:.1} | {record:.1} | {copies:.1} | {:.2} | {:.2} | {:.2} |",
            port / plain,
            (port - record) / plain,
            port / original
        );
    }
}

fn main() {
    let words: Vec<String> = env::args().skip(1).collect();
    match *words.iter().map(String::as_str).collect::<Vec<_>>() {
        [] => {
            trains();
            println!();
            repeats::measure();
        }
        ["repeats"] => repeats::measure(),
        ["repeats", row] => repeats::run(row.parse().expect("the number of a row")),
        _ => panic!("usage: measure [repeats [ROW]]"),
    }
}
