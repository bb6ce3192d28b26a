//! Measures repeats: what it costs to receive a segment that is held once more, and how much of that is the comparison with its slot. A row
//! is one call of `catkhize_receiver_receive` as firmware makes it. All rows run interleaved, in one process and on the same buffers.
//!
//! `measure repeats` prints this table alone. `measure repeats ROW` makes the calls of one timing of a row and prints nothing, so that their
//! instructions can be counted, which no other load disturbs. In speed/, after `tools/speed`; the figure behind 'Collected' is the instructions
//! of `CALLS` calls, with the copies:
//!
//! ```sh
//! valgrind --tool=callgrind --callgrind-out-file=/dev/null --toggle-collect='*repeats*again*' target/release/measure repeats 3
//! ```

use crate::shared::{
    Buffers, CONTINUE, END, FILL, MESSAGE_OCTETS, ORIGIN, READING, SEGMENT_OCTETS, TRANSACTION,
    VERSION, begin, encoded, median,
};
use bts136::l3::tsar::{AcknowledgmentWindow, SegmentKind};
use catkhize::{Missing, Status, calls, layout};
use std::{hint::black_box, ops::Range, time::Instant};

/// Calls in one timing, and timings of each row. They are short and many, so that the clock hardly changes within a round.
const CALLS: usize = 20;
const ROUNDS: usize = 3001;

const ROWS: usize = 8;

/// The figures in the answer to a repeat that fails: its map has the Begin's entry and the repeated one, and both slots are held.
const FIGURES: [u8; 4] = {
    let [high, low] = Missing::NONE.to_be_bytes();
    [0, 0, high, low]
};

/// The sequence number that is repeated, and its place in the store.
const REPEATED: u8 = 1;
const SLOT: Range<usize> =
    SEGMENT_OCTETS * REPEATED as usize..SEGMENT_OCTETS * (REPEATED as usize + 1);

/// Rows whose difference says something, and what it is the cost of. Rows count from 1.
const DIFFERENCES: [(usize, usize, &str); 5] = [
    (3, 5, "one octet looked at, over none"),
    (6, 7, "another length with octets, over one without"),
    (4, 3, "all octets looked at, over one"),
    (1, 2, "all octets looked at, over none"),
    (8, 5, "the same call twice, so noise"),
];

/// A segment as decoding gives it.
struct Arrival {
    segment: [u8; layout::SEGMENT],
    data: Vec<u8>,
}

impl Arrival {
    fn new(sequence_number: u8, kind: SegmentKind, data: &[u8]) -> Self {
        let octets = encoded(sequence_number, kind, data);
        let mut answer = [FILL; layout::DECODED];
        let given = calls::decode(&octets, VERSION.code(), &mut answer);
        assert_eq!(given, 0, "the octets spell a segment");
        let mut segment = [0; layout::SEGMENT];
        segment.copy_from_slice(&answer[..layout::SEGMENT]);
        Self {
            segment,
            data: data.to_vec(),
        }
    }

    fn receive(&self, buffers: &mut Buffers, answer: &mut [u8; layout::RECEPTION]) {
        let given = calls::receiver_receive(
            &mut buffers.record,
            &mut buffers.store,
            &mut buffers.output,
            ORIGIN,
            &self.segment,
            &self.data,
            0,
            READING,
            answer,
        );
        assert_eq!(given, 0, "the segment is not refused");
    }
}

/// A repeat.
struct Row {
    name: &'static str,
    /// The number of octets that the slot holds, and the record that says so.
    held: usize,
    record: Vec<u8>,
    repeat: Arrival,
    /// The status with which the reception fails and its store is wiped; none where the repeat is taken and nothing is answered.
    failure: Option<Status>,
}

/// The octets of a slot: not all the same, none of them 0 or `FILL`.
fn octets() -> Vec<u8> {
    (0..SEGMENT_OCTETS).map(|i| 1 + (i % 101) as u8).collect()
}

/// The record of a receiver that was given a Begin and, as `REPEATED`, a Continue with these data. It answered neither.
fn holding(data: &[u8]) -> Vec<u8> {
    let mut buffers = Buffers::new();
    buffers.make();
    for arrival in [
        Arrival::new(0, begin(AcknowledgmentWindow::Every16), &octets()),
        Arrival::new(REPEATED, CONTINUE, data),
    ] {
        let mut answer = [FILL; layout::RECEPTION];
        arrival.receive(&mut buffers, &mut answer);
        assert_eq!(answer, [0; layout::RECEPTION], "nothing is answered");
    }
    buffers.record
}

/// A record's state, and the status with it.
fn state(record: &[u8]) -> (u8, u8) {
    let at = layout::receiver::STATE;
    (record[at], record[at + 1])
}

fn rows() -> [Row; ROWS] {
    const ALL: usize = SEGMENT_OCTETS;
    const LAST: usize = SEGMENT_OCTETS - 1;
    let octets = octets();
    let differing = |at: usize| {
        let mut data = octets.clone();
        data[at] += 1;
        data
    };
    let (first, last) = (differing(0), differing(LAST));
    let (front, none) = (&octets[..LAST], &[]);
    let aborted = Some(Status::Aborted);
    let mismatch = Some(Status::DuplicateSizeMismatch);
    let cases: [(_, _, _, &[u8], _); ROWS] = [
        ("equal", ALL, CONTINUE, &octets, None),
        ("equal", 0, CONTINUE, none, None),
        ("first octet differs", ALL, CONTINUE, &first, aborted),
        ("last octet differs", ALL, CONTINUE, &last, aborted),
        ("another kind", 0, END, none, aborted),
        (
            "another length, its octets equal",
            ALL,
            CONTINUE,
            front,
            mismatch,
        ),
        ("another length", ALL, CONTINUE, none, mismatch),
        ("another kind, the same again", 0, END, none, aborted),
    ];
    cases.map(|(name, held, kind, data, failure)| Row {
        name,
        held,
        record: holding(&octets[..held]),
        repeat: Arrival::new(REPEATED, kind, data),
        failure,
    })
}

/// What a call reads and writes. A row is laid here before it runs, so that all have the same addresses.
struct Place {
    record: Vec<u8>,
    octets: Vec<u8>,
    repeat: Arrival,
    buffers: Buffers,
    answer: [u8; layout::RECEPTION],
}

impl Place {
    fn new() -> Self {
        Self {
            record: vec![FILL; layout::RECEIVER],
            octets: octets(),
            repeat: Arrival::new(REPEATED, CONTINUE, &octets()),
            buffers: Buffers::new(),
            answer: [FILL; layout::RECEPTION],
        }
    }

    fn lay(&mut self, row: &Row) {
        self.record.copy_from_slice(&row.record);
        self.repeat.segment = row.repeat.segment;
        self.repeat.data.clone_from(&row.repeat.data);
    }

    /// One call, behind the copies that put back what a failure empties: the record and the slot. Every row makes both copies.
    fn call(&mut self) {
        self.buffers.record.copy_from_slice(&self.record);
        self.buffers.store[SLOT].copy_from_slice(&self.octets);
        self.repeat.receive(&mut self.buffers, &mut self.answer);
    }

    /// The calls of one timing.
    #[inline(never)]
    fn again(&mut self) {
        for _ in 0..CALLS {
            black_box(&mut *self).call();
        }
    }

    /// Makes a row's call once and looks at what it left, so that no row measures another outcome than it says.
    fn check(&mut self, row: &Row) {
        let name = row.name;
        self.lay(row);
        self.buffers.store.fill(FILL);
        self.answer.fill(FILL);
        self.call();
        let mut store = [FILL; MESSAGE_OCTETS];
        store[SLOT].copy_from_slice(&self.octets);
        match row.failure {
            None => {
                assert_eq!(self.answer, [0; layout::RECEPTION], "{name}");
                assert_eq!(state(&self.buffers.record), state(&row.record), "{name}");
            }
            Some(status) => {
                let response = [1, TRANSACTION, status as u8];
                assert_eq!(self.answer[..response.len()], response, "{name}");
                let figures = &self.answer[layout::reply::MISSING..layout::REPLY];
                assert_eq!(figures, FIGURES, "{name}: other figures");
                let message = self.answer[layout::reception::MESSAGE];
                assert_eq!(message, 0, "{name}: a message");
                let (failed, with) = state(&self.buffers.record);
                assert_ne!(failed, state(&row.record).0, "{name}");
                assert_eq!(with, status as u8, "{name}");
                store.fill(0);
            }
        }
        assert!(self.buffers.store == store, "{name}: another store");
        let output = [FILL; MESSAGE_OCTETS];
        assert!(self.buffers.output == output, "{name}: another output");
    }
}

/// The rows, each tried once, and the place where they run.
fn tried() -> ([Row; ROWS], Place) {
    let rows = rows();
    let mut place = Place::new();
    for row in &rows {
        place.check(row);
    }
    (rows, place)
}

/// Makes the calls of one timing of a row.
pub fn run(number: usize) {
    let (rows, mut place) = tried();
    place.lay(&rows[number - 1]);
    place.again();
}

/// Nanoseconds a call: for each row its timings, one of each round. Each round begins with another row. A first call is not timed: it finds
/// in the caches what the row before it left there.
fn timings(rows: &[Row; ROWS], place: &mut Place) -> [Vec<f64>; ROWS] {
    let mut times = [const { Vec::new() }; ROWS];
    for round in 0..ROUNDS {
        for turn in 0..ROWS {
            let index = (round + turn) % ROWS;
            place.lay(&rows[index]);
            place.call();
            let start = Instant::now();
            place.again();
            times[index].push(start.elapsed().as_secs_f64() * 1e9 / CALLS as f64);
        }
    }
    times
}

fn smallest(times: &[f64]) -> f64 {
    times.iter().copied().fold(f64::INFINITY, f64::min)
}

pub fn measure() {
    let (rows, mut place) = tried();
    let times = timings(&rows, &mut place);
    println!(
        "Nanoseconds for receiving a repeat, the copies that put back its record and its slot included: median and smallest of {ROUNDS} timings of {CALLS} calls each."
    );
    println!();
    println!("| Row | Repeat | its octets | the slot's | Answer | Median | Smallest |");
    println!("|---|---|---|---|---|---|---|");
    for (number, (row, times)) in (1..).zip(rows.iter().zip(&times)) {
        let answer = row
            .failure
            .map_or(String::from("nothing"), |status| format!("{status:?}"));
        println!(
            "| {number} | {} | {} | {} | {answer} | {:.0} | {:.0} |",
            row.name,
            row.repeat.data.len(),
            row.held,
            median(times.clone()),
            smallest(times)
        );
    }
    println!();
    println!("Differences in nanoseconds, medians over the rounds:");
    println!();
    for (one, other, cost) in DIFFERENCES {
        let pairs = times[one - 1].iter().zip(&times[other - 1]);
        let difference = median(pairs.map(|(one, other)| one - other).collect());
        println!("- {one} - {other}, {cost}: {difference:+.0}");
    }
}
