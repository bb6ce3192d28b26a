//! A receiver on the bench. Each call is made on what the call before it left, and is a case: the number that it gives, its whole answer,
//! the whole record and every lent octet are compared with what has to come of it.

use super::record::{Record, State, noted};
use super::rows::{
    Call, Kind, Map, OWN, Outcome, Row, STORE, TRANSACTION, advance, cancel, later, release,
};
use crate::octets::{FILL, PAST, at_front, difference, filled, flagged, pattern, refusal};
use crate::profiles::{IN_RECEIVER, ONE};
use crate::tally::Group;
use catkhize::{calls, layout};

/// The octets of a slot.
const SLOT: usize = 255;

/// Where services, end and stated length stand in a record.
const NOTED: std::ops::Range<usize> = 26..34;

/// Where the figures of a response's map stand in an answer.
const FIGURES: std::ops::Range<usize> = layout::reply::MISSING..layout::REPLY;

/// What stands for the first missing entry where none is missing.
const NONE_MISSING: u16 = 256;

/// What REPLY has behind its flag: RESPONSE, and the figures of its map.
pub type Reported = [u8; layout::REPLY - 1];

/// The list of what is supported: no compression, encryption, windows, no CRC.
const SUPPORTED: [u8; 4] = [0, 1, 1, 0];

/// The statuses of responses that are no failure's.
const CONTINUING: u8 = 0;
const INTER_SEGMENT_TIMEOUT: u8 = 1;
const RECEIVED: u8 = 10;

/// The buffers of a call. Each is longer than what the call uses or is lent.
#[derive(Clone)]
pub struct Lent {
    pub answer: Vec<u8>,
    pub record: Vec<u8>,
    pub store: Vec<u8>,
    pub output: Vec<u8>,
}

impl Lent {
    pub fn new() -> Self {
        Self {
            answer: filled(layout::RECEPTION + PAST),
            record: filled(layout::RECEIVER + PAST),
            store: filled(STORE),
            output: filled(layout::STORE + PAST),
        }
    }

    pub fn differences(&self, wanted: &Self) -> [Option<String>; 4] {
        [
            difference(&self.answer, &wanted.answer),
            difference(&self.record, &wanted.record),
            difference(&self.store, &wanted.store),
            difference(&self.output, &wanted.output),
        ]
    }

    /// What a call with this outcome does to the store.
    pub fn leave_store(&mut self, call: &Call, data: &[u8], outcome: Outcome) {
        match outcome {
            Outcome::Holds | Outcome::HandsOver => {
                let at = SLOT * usize::from(call.sequence);
                self.store[at..at + data.len()].copy_from_slice(data);
            }
            Outcome::Fails(_)
            | Outcome::Expires
            | Outcome::Lapses
            | Outcome::Cancels
            | Outcome::Releases => self.store[..layout::STORE].fill(0),
            _ => {}
        }
    }

    /// Makes a call, with so many octets of what is lent.
    fn call(&mut self, call: &Call, data: &[u8]) -> u32 {
        let record = &mut self.record;
        let store = &mut self.store[..call.store];
        let answer = &mut self.answer;
        match call.kind {
            Kind::Advance => calls::receiver_advance(record, store, call.reading, answer),
            Kind::Cancel => calls::receiver_cancel(record, store, call.reading),
            Kind::Release => calls::receiver_release(record, store, call.reading),
            _ => calls::receiver_receive(
                record,
                store,
                &mut self.output[..call.output],
                call.from,
                &call.segment(),
                data,
                call.unparsed,
                call.reading,
                answer,
            ),
        }
    }
}

/// The receiver, the record that it has to have, the seed of its data, and what the last answer had where figures stand and the last record where the
/// profile stands.
struct Bench<'a> {
    group: &'a mut Group,
    seed: u8,
    record: Record,
    lent: Lent,
    figures: Vec<u8>,
    profile: u8,
}

/// How many entries of a map are missing, and the first of them: entry by entry.
fn figures(map: Map) -> [u16; 2] {
    let (mut missing, mut first) = (0, NONE_MISSING);
    for entry in 0..map.entries {
        if map.marks[usize::from(entry / 64)] >> (entry % 64) & 1 == 0 {
            missing += 1;
            first = first.min(entry);
        }
    }
    [missing, first]
}

/// RESPONSE and figures. The status says how the reception stands, or that nothing came in time.
pub fn reported(outcome: Outcome, state: State, map: Map) -> Reported {
    let status = match (outcome, state) {
        (Outcome::Asks, _) => INTER_SEGMENT_TIMEOUT,
        (_, State::Complete) => RECEIVED,
        (_, State::Failed(status)) => status,
        _ => CONTINUING,
    };
    let mut octets = vec![TRANSACTION, status];
    octets.extend(map.entries.to_be_bytes());
    octets.extend(map.marks.iter().flat_map(|word| word.to_be_bytes()));
    octets.extend(flagged(map.lists.then_some(SUPPORTED)));
    octets.extend(figures(map).iter().flat_map(|figure| figure.to_be_bytes()));
    octets
        .try_into()
        .expect("the octets of a RESPONSE and two figures")
}

/// RECEPTION of a receive, REPLY of an advance; a cancel and a release have no answer.
pub fn answer(kind: Kind, reported: Option<Reported>, message: Option<u64>) -> Vec<u8> {
    match kind {
        Kind::Cancel | Kind::Release => Vec::new(),
        Kind::Advance => flagged(reported),
        _ => [flagged(reported), flagged(message.map(u64::to_be_bytes))].concat(),
    }
}

impl Bench<'_> {
    /// The data of slot s: a pattern of its own.
    fn data(&self, s: u8, octets: usize) -> Vec<u8> {
        pattern(octets, self.seed.wrapping_add(s))
    }

    /// The data of all segments that are held, in order. Slots that are not held have no octets in the record.
    fn message(&self) -> Vec<u8> {
        (0..=255)
            .flat_map(|s| self.data(s, self.record.lengths[usize::from(s)].into()))
            .collect()
    }

    /// Makes a call and compares what comes of it.
    fn call(&mut self, call: Call, outcome: Outcome, map: Option<Map>) {
        let mut data = self.data(call.sequence, call.octets);
        if let (true, Some(last)) = (call.altered, data.last_mut()) {
            *last ^= 0xff;
        }
        self.lent.answer.fill(FILL);
        self.record.leave(&call, outcome);
        let mut wanted = self.lent.clone();
        wanted.record = at_front(&self.record.octets(), wanted.record.len());
        let message = self.change(&mut wanted, &call, &data, outcome);
        let number = match outcome {
            Outcome::Refused(n, m) => refusal(n.into(), m.into()),
            Outcome::Closes | Outcome::Expires => refusal(38, 0),
            _ => 0,
        };
        if number == 0 {
            let reported = map.map(|map| reported(outcome, self.record.state, map));
            let answer = answer(call.kind, reported, message);
            wanted.answer = at_front(&answer, wanted.answer.len());
        }
        let given = self.lent.call(&call, &data);
        let differences = self.lent.differences(&wanted);
        let none = <[Option<String>; 4]>::default();
        self.group.case((given, differences), (number, none));
        self.figures = self.lent.answer[FIGURES].to_vec();
        self.profile = self.lent.record[IN_RECEIVER];
        // The next call is made on what had to be left, so that a case that differs does not spoil the others.
        self.lent = wanted;
    }

    /// What a call has to do to store and output, and how many octets it hands over.
    fn change(&self, lent: &mut Lent, call: &Call, data: &[u8], outcome: Outcome) -> Option<u64> {
        lent.leave_store(call, data, outcome);
        let Outcome::HandsOver = outcome else {
            return None;
        };
        let message = self.message();
        lent.output[..message.len()].copy_from_slice(&message);
        Some(message.len() as u64)
    }

    /// A new receiver, made at reading 0.
    fn start(&mut self, version: u8, profile: u8, maximum: u64) {
        let record = &mut self.lent.record;
        calls::receiver_new(record, OWN, TRANSACTION, version, profile, maximum, 0);
        self.profile = record[IN_RECEIVER];
        self.record = Record::new(OWN, TRANSACTION, version, profile, maximum, 0);
    }

    /// The same, with every lent octet A5.
    fn start_anew(&mut self, version: u8, profile: u8, maximum: u64) {
        self.lent = Lent::new();
        self.seed = 0;
        self.start(version, profile, maximum);
    }

    /// The record is set by hand.
    fn make(&mut self, edit: impl FnOnce(&mut Record)) {
        edit(&mut self.record);
        self.lent.record = at_front(&self.record.octets(), self.lent.record.len());
    }

    fn step(&mut self, row: Row) {
        match row {
            Row::Start(version, maximum) => self.start_anew(version, ONE.number, maximum),
            Row::Under(profile) => self.start_anew(1, profile, 100),
            Row::Again(seed) => {
                self.seed = seed;
                self.start(1, ONE.number, 100);
            }
            Row::Make(edit) => self.make(edit),
            Row::Profile(profile) => self.make(|record| record.profile = profile),
            Row::Refill => self.lent.store.fill(FILL),
            Row::RefillOutput => self.lent.output.fill(FILL),
            Row::Left(edit) => {
                let Record {
                    version,
                    profile,
                    maximum,
                    ..
                } = self.record;
                let mut left = Record::new(OWN, TRANSACTION, version, profile, maximum, 0);
                edit(&mut left);
                let wanted = at_front(&left.octets(), self.lent.record.len());
                self.group
                    .case(difference(&self.lent.record, &wanted), None);
            }
            Row::Keeps(end, services, length) => {
                let wanted = noted(services.unwrap_or_default(), end, length);
                let given = self.lent.record[NOTED].to_vec();
                self.group.case(given, wanted);
            }
            Row::KeepsProfile(wanted) => self.group.case(self.profile, wanted),
            Row::Figures(wanted) => self.group.case(&self.figures[..], &wanted[..]),
            Row::Wrong => {
                self.step(later(1, 1, 5_000).refused(62));
                self.step(advance(5_000).refused(62));
                self.step(cancel(5_000).refused(62));
                self.step(release(5_000).refused(62));
            }
            Row::Call(call, outcome, map) => self.call(call, outcome, map),
        }
    }
}

/// Runs the tables, each on a store and an output of its own.
pub fn run(group: &mut Group, tables: &[&[Row]]) {
    for table in tables {
        let mut bench = Bench {
            group,
            seed: 0,
            record: Record::new(OWN, TRANSACTION, 1, ONE.number, 0, 0),
            lent: Lent::new(),
            figures: Vec::new(),
            profile: FILL,
        };
        for row in *table {
            bench.step(*row);
        }
    }
}
