//! Receivers: try_new, receive, advance, cancel and trains, with every octet of record, store and output; and release, which the original
//! has not.

mod release;

pub use release::RELEASE;

use crate::made_up;
use crate::profiles::{self, IN_RECEIVER, Making, NEITHER};
use crate::spell::{self, FILLING, KIND, RECEIVER_LENGTHS, RECEIVER_SLOTS, Terms, filled};
use crate::spells;
use crate::table::{
    Area, BEGIN_MISSING, EXCEPTIONS_HANDED, FULL_MAP, FULL_MAP_RECEIVED, FULL_TRAIN,
    LATE_RECEPTION, LONG_MAP_GAPS, LONG_STORE, MADE, NEITHER_ADVANCE, NEITHER_AND_CLOCK,
    NEITHER_CANCEL, NEITHER_RECEIVE, NEITHER_TRAIN, NONE_MISSING, Table, WIPED, WORD_EDGES,
};
use crate::watch::{Case, Checked, Checker, by_document_02, given, same, same_figures, same_given};
use bts136::l3::broadcast::ProtocolVersion;
use bts136::l3::tsar::{AcknowledgmentWindow, decode_segment};
use bts136::link::tsar::{Receiver, Reception};
use catkhize::{calls, layout};
use record::fields::{take_peer, take_protocol};
use record::list::{DONE, Player};
use record::make::receiver_run::LAST_READING;
use record::octets::{Put, Take};
use record::play::receiver::{ADVANCE, CANCEL, Delivery, OPEN, Opening, RECEIVE, Receiving};
use record::profiles::PROFILE;
use record::random::Random;
use record::refusals;

/// A train, which RECORDED.md has not: peer (10), protocol (2), reading u64, number of lengths u16, the lengths, then the octets.
pub const TRAIN: u8 = 0x2e;

/// Probes: wrong lengths of store and output; octets of the record changed; wrong lengths of the other buffers, and wrong numbers.
const SHORT: u8 = 0x80;
const DAMAGED: u8 = 0x81;
const BUFFERS: u8 = 0x82;
const PROBE_NUMBERS: usize = 24;

/// The area of calls on records that no list of calls reached, or that one did.
const MADE_UP: &str = "receivers made up";

const CLOSED: std::ops::RangeInclusive<u8> = 3..=5;
const SLOT_OCTETS: usize = 255;
/// Where REPLY has the figures of the response's map: how many entries are missing, and the first of them.
const FIGURES: usize = layout::reply::MISSING;
/// Where a record has the maximum, behind its profile.
const MAXIMUM: usize = IN_RECEIVER + 1;

/// The port's receiver, and what its buffers should hold.
struct Port {
    terms: Terms,
    record: Vec<u8>,
    store: Vec<u8>,
    output: Vec<u8>,
    expected_store: Vec<u8>,
    expected_output: Vec<u8>,
    held: Vec<bool>,
    state: u8,
    /// The record before the call, where it was made up: slots that are not held may have something in them.
    left_over: Option<Vec<u8>>,
}

#[derive(Default)]
pub struct Receivers {
    port: Option<Port>,
}

/// A train, taken from a case's input.
struct Train<'a> {
    origin: calls::Origin,
    reading: u64,
    lengths: &'a [u8],
    octets: &'a [u8],
}

impl<'a> Train<'a> {
    fn take(input: &'a [u8]) -> Self {
        let mut take = Take(input);
        let peer = take_peer(&mut take);
        let protocol = take_protocol(&mut take);
        let reading = take.take64();
        let count = take.take16();
        Self {
            origin: spell::origin(peer, protocol),
            reading,
            lengths: take.octets(2 * count),
            octets: take.rest(),
        }
    }
}

/// The buffers of a call.
struct Lent<'a> {
    record: &'a mut [u8],
    store: &'a mut [u8],
    output: &'a mut [u8],
    answer: &'a mut [u8],
}

/// What a probe changes of a call beside the buffers.
#[derive(Default)]
struct Wrong {
    segment_octets: Option<usize>,
    /// An octet of the segment, and what it becomes.
    segment: Option<(usize, u8)>,
    protocol: Option<u8>,
}

fn answer_octets(op: u8) -> usize {
    match op {
        RECEIVE => layout::RECEPTION,
        ADVANCE => layout::REPLY,
        TRAIN => layout::TRAIN,
        _ => 0,
    }
}

/// Makes the call of a case on the port.
fn call(case: &Case, lent: Lent, wrong: &Wrong) -> u32 {
    let mut take = Take(&case.input);
    match case.op {
        RECEIVE => {
            let delivery = Delivery::take(&mut take);
            let decoded = delivery.decoded();
            let mut origin = spell::origin(delivery.peer, delivery.protocol);
            origin.protocol = wrong.protocol.unwrap_or(origin.protocol);
            let mut segment = spell::segment(&decoded.segment);
            if let Some((at, octet)) = wrong.segment {
                segment[at] = octet;
            }
            let octets = wrong.segment_octets.unwrap_or(segment.len());
            calls::receiver_receive(
                lent.record,
                lent.store,
                lent.output,
                origin,
                &segment[..octets],
                &decoded.segment.segment_data,
                delivery.unparsed as u64,
                delivery.reading,
                lent.answer,
            )
        }
        ADVANCE => calls::receiver_advance(lent.record, lent.store, take.take64(), lent.answer),
        CANCEL => calls::receiver_cancel(lent.record, lent.store, take.take64()),
        TRAIN => {
            let mut train = Train::take(&case.input);
            train.origin.protocol = wrong.protocol.unwrap_or(train.origin.protocol);
            calls::receiver_train(
                lent.record,
                lent.store,
                lent.output,
                train.origin,
                train.octets,
                train.lengths,
                train.reading,
                lent.answer,
            )
        }
        op => panic!("op {op:02x}"),
    }
}

/// RECEPTION of what the recorder wrote of a reception, or REPLY of a response alone. The recorder has no figures.
fn answered(op: u8, answer: &[u8]) -> Vec<u8> {
    let mut out = Vec::new();
    if op == CANCEL {
        return out;
    }
    let mut take = Take(&answer[1..]);
    let front = take.octets(5);
    let map = take.octets(32);
    out.put_all(front);
    for octets in map.chunks(8) {
        let octets = octets.try_into().expect("eight octets");
        out.put64(u64::from_le_bytes(octets));
    }
    out.put_all(take.octets(5));
    if front[0] == 1 {
        let entries = 0..Take(&front[3..]).take16();
        let received = |entry: usize| map[entry / 8] >> (entry % 8) & 1 == 1;
        spell::put_figures(&mut out, entries.map(received));
    } else {
        out.put_all(&[0; layout::REPLY - FIGURES]);
    }
    if op == RECEIVE {
        out.put_all(take.octets(1));
        out.put64(take.take32() as u64);
    }
    out
}

/// Whether a RECEPTION has a message; one that was refused is empty.
fn has_message(reception: &[u8]) -> bool {
    reception.get(layout::reception::MESSAGE) == Some(&1)
}

/// Whether what the recorder wrote of a reception hands a message over.
pub fn hands_over(recorded: &[u8]) -> bool {
    recorded[0] == DONE && has_message(&answered(RECEIVE, recorded))
}

fn reception(out: &mut Vec<u8>, reception: Option<&Reception>) {
    spell::put_reply(
        out,
        reception.and_then(|reception| reception.response.as_ref()),
    );
    let message = reception.and_then(|reception| reception.message.as_ref());
    out.put8(u8::from(message.is_some()));
    out.put64(message.map_or(0, Vec::len) as u64);
}

/// What a run has to see of the maps of responses.
fn seen(reply: &[u8], area: &mut Area) {
    let Some([1, _, _, front @ ..]) = reply.get(..layout::REPLY) else {
        return;
    };
    let entries = Take(front).take16();
    let mut figures = Take(&reply[FIGURES..]);
    let (missing, first) = (figures.take16(), figures.take16());
    let mut see = |seen: bool, name| {
        if seen {
            area.input(name);
        }
    };
    see(entries == 256, FULL_MAP);
    see(missing == 0, NONE_MISSING);
    see(entries == 256 && missing == 0, FULL_MAP_RECEIVED);
    see(entries >= 255 && missing > 0, LONG_MAP_GAPS);
    see(first == 0, BEGIN_MISSING);
    for (edge, name) in WORD_EDGES {
        see(first == edge, name);
    }
}

/// Compares an answer that has REPLY at a place: what comes before the figures, then these, then all of it.
fn same_answer(answer: &[u8], expected: &[u8], reply: usize) -> Checked {
    let figures = reply + FIGURES..reply + layout::REPLY;
    let front = figures.start.min(answer.len());
    same("answer", &answer[..front], &expected[..front])?;
    if let Some(found) = answer.get(figures.clone()) {
        same_figures(found, &expected[figures])?;
    }
    same("answer", answer, expected)
}

/// A receiver that takes no segments.
fn closed(original: &Receiver) -> bool {
    CLOSED.contains(&spell::receiver_state(original.state())[0])
}

/// The recorder's receivers, which take trains too.
#[derive(Default)]
pub struct Trains {
    receiving: Receiving,
    /// The message that the last train handed over.
    message: Option<Vec<u8>>,
}

impl Player for Trains {
    /// A train stops behind the first reception that carries a response or a message, or that closes the receiver, and at a refusal. Its
    /// answer opens as any; then comes TRAIN.
    fn play(&mut self, op: u8, input: &[u8]) -> Vec<u8> {
        self.message = None;
        if op != TRAIN {
            return self.receiving.play(op, input);
        }
        let receiver = self.receiving.receiver.as_mut();
        let receiver = receiver.expect("try_new made a receiver");
        let mut take = Take(input);
        let (peer, protocol) = (take_peer(&mut take), take_protocol(&mut take));
        let train = Train::take(input);
        let mut octets = train.octets;
        let mut stopped = None;
        let mut received = Vec::new();
        for length in train.lengths.chunks(2) {
            let length = usize::from(length[0]) << 8 | usize::from(length[1]);
            let (next, rest) = octets.split_at(length.min(octets.len()));
            octets = rest;
            let version = ProtocolVersion(receiver.version_code());
            let result = match decode_segment(next, version) {
                Err(error) => Err(refusals::codec(error)),
                Ok(decoded) => receiver
                    .receive(peer, protocol, &decoded, train.reading)
                    .map_err(refusals::receiving),
            };
            match result {
                Ok(reception) => {
                    let ends = reception.response.is_some()
                        || reception.message.is_some()
                        || closed(receiver);
                    self.message = reception.message.clone();
                    received.push(reception);
                    if ends {
                        break;
                    }
                }
                Err(refusal) => {
                    stopped = Some(refusal);
                    break;
                }
            }
        }
        let mut answer = match stopped {
            None => vec![0, 0, 0],
            Some((n, m)) => vec![1, n, m],
        };
        answer.put64(received.len() as u64);
        // Beside a refusal nothing stands: what was received before it carried nothing.
        reception(&mut answer, received.last());
        answer
    }
}

impl Port {
    fn open(
        input: &[u8],
        expected: u32,
        original: Option<&Receiver>,
        area: &mut Area,
    ) -> Result<Option<Self>, String> {
        let opening = Opening::take(&mut Take(input));
        let mark = input
            .iter()
            .fold(0usize, |sum, octet| sum + usize::from(*octet));
        let more = [0, 1, 64][mark % 3];
        let mut record = filled(layout::RECEIVER + more);
        let origin = spell::origin(opening.peer, opening.protocol);
        let found = calls::receiver_new(
            &mut record,
            origin,
            opening.transaction,
            opening.version,
            PROFILE,
            opening.maximum,
            opening.reading,
        );
        area.count(found);
        same_given(found, expected)?;
        let Some(original) = original else {
            same("record", &record, &filled(layout::RECEIVER + more))?;
            return Ok(None);
        };
        let terms = Terms {
            origin,
            transaction: opening.transaction,
            version: opening.version,
            maximum: opening.maximum,
        };
        let needed = opening.maximum.min(layout::STORE as u64) as usize;
        let store = filled(layout::STORE + [0, 1, 64][mark / 3 % 3]);
        let output = filled(needed + [0, 1, 9][mark / 9 % 3]);
        let mut port = Self {
            terms,
            record,
            expected_store: store.clone(),
            expected_output: output.clone(),
            store,
            output,
            held: vec![false; 256],
            state: 0,
            left_over: None,
        };
        port.compare(original, area)?;
        area.input(MADE);
        Ok(Some(port))
    }

    /// Compares record, store and output with what the original's receiver says they hold.
    fn compare(&mut self, original: &Receiver, area: &mut Area) -> Checked {
        let mut expected = spell::receiver(self.terms, original);
        let [state, status] = spell::receiver_state(original.state());
        area.state([state, status, 0, 0]);
        let closes = CLOSED.contains(&state) && !CLOSED.contains(&self.state);
        if let Some(before) = self.left_over.as_ref().filter(|_| !closes) {
            let held = original.segments();
            for index in (0..256).filter(|index| held[*index].is_none()) {
                let length = (RECEIVER_LENGTHS + 2 * index, 2);
                for (at, octets) in [length, (RECEIVER_SLOTS + KIND * index, KIND)] {
                    expected[at..at + octets].copy_from_slice(&before[at..at + octets]);
                }
            }
        }
        expected.resize(self.record.len(), FILLING);
        same("record", &self.record, &expected)?;
        for (index, segment) in original.segments().iter().enumerate() {
            if let Some(segment) = segment.as_ref().filter(|_| !self.held[index]) {
                let data = &segment.segment_data;
                self.expected_store[SLOT_OCTETS * index..][..data.len()].copy_from_slice(data);
            }
            self.held[index] = segment.is_some();
        }
        if closes {
            self.expected_store[..layout::STORE].fill(0);
            area.input(WIPED);
        }
        self.state = state;
        if self.store.len() > layout::STORE {
            area.input(LONG_STORE);
        }
        same("store", &self.store, &self.expected_store)?;
        same("output", &self.output, &self.expected_output)
    }

    fn hand_over(&mut self, message: &[u8], original: &Receiver, area: &mut Area) {
        self.expected_output[..message.len()].copy_from_slice(message);
        if original.services().acknowledgment_window == AcknowledgmentWindow::Exceptions {
            area.input(EXCEPTIONS_HANDED);
        }
        if message.len() == layout::STORE {
            area.input(FULL_TRAIN);
        }
    }

    /// `message` is what the original handed over, where that is known; else it is what its receiver holds.
    fn check(
        &mut self,
        original: &Receiver,
        message: Option<&[u8]>,
        case: &Case,
        recorded: &[u8],
        area: &mut Area,
    ) -> Checked {
        let mut answer = filled(answer_octets(case.op) + 2);
        let lent = Lent {
            record: &mut self.record,
            store: &mut self.store,
            output: &mut self.output,
            answer: &mut answer,
        };
        let found = call(case, lent, &Wrong::default());
        area.count(found);
        same_given(found, given(recorded))?;
        let mut expected = if case.op == TRAIN {
            recorded[3..].to_vec()
        } else if recorded[0] == 0 {
            answered(case.op, recorded)
        } else {
            Vec::new()
        };
        if let Some(message) = message {
            self.hand_over(message, original, area);
        } else if case.op == RECEIVE && has_message(&expected) {
            self.hand_over(&held_message(original), original, area);
        }
        let reply = if case.op == TRAIN {
            layout::train::RECEPTION
        } else {
            0
        };
        seen(expected.get(reply..).unwrap_or(&[]), area);
        expected.resize(answer.len(), FILLING);
        same_answer(&answer, &expected, reply)?;
        if reading(case).is_some_and(|reading| reading.abs_diff(LAST_READING) <= 3) {
            area.input(LATE_RECEPTION);
        }
        self.compare(original, area)
    }

    /// Makes a call that is to be refused with `expected` and to change nothing.
    fn refused(
        &mut self,
        call: impl FnOnce(&mut Self, &mut [u8]) -> u32,
        answer: usize,
        expected: u32,
        area: &mut Area,
    ) -> Checked {
        let before = self.record.clone();
        let mut lent = filled(answer);
        let found = call(self, &mut lent);
        area.count(found);
        same_given(found, expected)?;
        same("answer", &lent, &filled(answer))?;
        same("record", &self.record, &before)?;
        same("store", &self.store, &self.expected_store)?;
        same("output", &self.output, &self.expected_output)
    }

    fn short(&mut self, which: u64, case: &Case, area: &mut Area) -> Checked {
        let needed = self.terms.maximum.min(layout::STORE as u64) as usize;
        let receives = case.op == RECEIVE || case.op == TRAIN;
        let (store, output) = match which % 5 {
            0 => (layout::STORE - 1, self.output.len()),
            1 => (self.store.len(), needed.saturating_sub(1)),
            2 => (layout::STORE - 1, needed.saturating_sub(1)),
            3 => (0, self.output.len()),
            _ => (self.store.len(), 0),
        };
        let expected = if store < layout::STORE {
            60
        } else if receives && output < needed {
            61
        } else {
            return Ok(());
        };
        if case.op == TRAIN {
            return self.short_train(store, output, expected, case, area);
        }
        let answer = answer_octets(case.op);
        let make = |port: &mut Self, answer: &mut [u8]| {
            let lent = Lent {
                record: &mut port.record,
                store: &mut port.store[..store],
                output: &mut port.output[..output],
                answer,
            };
            call(case, lent, &Wrong::default())
        };
        self.refused(make, answer, 256 * expected, area)
    }

    /// A train's answer is written with a refusal too: no segment was received. A segment that decoding refuses comes first.
    fn short_train(
        &mut self,
        store: usize,
        output: usize,
        expected: u32,
        case: &Case,
        area: &mut Area,
    ) -> Checked {
        let train = Train::take(&case.input);
        let first = train.lengths.chunks(2).next();
        let Some(length) = first.map(|length| usize::from(length[0]) << 8 | usize::from(length[1]))
        else {
            return Ok(());
        };
        let next = &train.octets[..length.min(train.octets.len())];
        if decode_segment(next, ProtocolVersion(self.terms.version)).is_err() {
            return Ok(());
        }
        let before = self.record.clone();
        let mut answer = filled(layout::TRAIN);
        let lent = Lent {
            record: &mut self.record,
            store: &mut self.store[..store],
            output: &mut self.output[..output],
            answer: &mut answer,
        };
        let found = call(case, lent, &Wrong::default());
        area.count(found);
        same_given(found, 256 * expected)?;
        same("answer", &answer, &[0; layout::TRAIN])?;
        same("record", &self.record, &before)?;
        same("store", &self.store, &self.expected_store)?;
        same("output", &self.output, &self.expected_output)
    }

    /// The call on a record with an octet changed: 257 where it spells none, 62 where it spells an impossible one.
    fn damaged(
        &mut self,
        (at, change, also): (u64, u64, u64),
        case: &Case,
        table: &mut Table,
        name: &'static str,
    ) -> Checked {
        let at = at as usize % layout::RECEIVER;
        let right = self.record.clone();
        self.record[at] = change as u8;
        if also > 0 {
            let at = (also - 1) as usize % layout::RECEIVER;
            self.record[at] ^= (change >> 8) as u8;
        }
        let expected = if !spells::receiver(&self.record) {
            spells::SPELLS_NONE
        } else if spells::receiver_impossible(&self.record) {
            62
        } else {
            let checked = self.made_up(case, table.area(MADE_UP));
            self.record = right;
            return checked;
        };
        let checked = self.refused_record(expected, case, table.area(name));
        self.record = right;
        checked
    }

    /// The call on a record for which it is to be refused with 257 or 62.
    fn refused_record(&mut self, expected: u32, case: &Case, area: &mut Area) -> Checked {
        if case.op == TRAIN && expected == 62 {
            return self.impossible_train(case, area);
        }
        // The output that a damaged maximum asks for may be longer: 61 comes before 62.
        let receives = case.op == RECEIVE;
        let expected = if expected == 62 && receives && self.output.len() < self.needed() {
            61
        } else {
            expected
        };
        if expected == 62 {
            self.seen_neither(case, area);
        }
        let answer = answer_octets(case.op);
        let make = |port: &mut Self, answer: &mut [u8]| {
            let lent = Lent {
                record: &mut port.record,
                store: &mut port.store,
                output: &mut port.output,
                answer,
            };
            call(case, lent, &Wrong::default())
        };
        self.refused(make, answer, 256 * expected, area)
    }

    /// The octets of the output that the record's maximum asks for.
    fn needed(&self) -> usize {
        let maximum = Take(&self.record[MAXIMUM..]).take64();
        maximum.min(layout::STORE as u64) as usize
    }

    /// The call on a record of neither profile, and a release of it: 62, behind 60 and 61.
    fn neither(
        &mut self,
        (profile, lengths, _): (u64, u64, u64),
        case: &Case,
        table: &mut Table,
        name: &'static str,
    ) -> Checked {
        let profile = profile as u8;
        if profiles::known(profile) {
            return Ok(());
        }
        let right = self.record.clone();
        self.record[IN_RECEIVER] = profile;
        let checked = self.refused_neither(lengths, case, table, name);
        self.record = right;
        checked.map_err(|what| format!("a record of profile {profile}: {}", by_document_02(what)))
    }

    fn refused_neither(
        &mut self,
        lengths: u64,
        case: &Case,
        table: &mut Table,
        name: &'static str,
    ) -> Checked {
        self.short(lengths, case, table.area(name))?;
        self.refused_record(62, case, table.area(name))?;
        let reading = reading(case).unwrap_or(0);
        self.release((reading, 0, lengths), case, table)
    }

    /// What a run has to see of records of neither profile.
    fn seen_neither(&self, case: &Case, area: &mut Area) {
        if profiles::known(self.record[IN_RECEIVER]) {
            return;
        }
        area.input(match case.op {
            RECEIVE => NEITHER_RECEIVE,
            ADVANCE => NEITHER_ADVANCE,
            CANCEL => NEITHER_CANCEL,
            _ => NEITHER_TRAIN,
        });
        let last = release::last_reading(&self.record);
        if reading(case).is_some_and(|reading| reading < last) {
            area.input(NEITHER_AND_CLOCK);
        }
    }

    /// The call on a record that spells a possible receiver, reached by calls or not: the original with those fields does the same. One of
    /// the other profile is no case.
    fn made_up(&self, case: &Case, area: &mut Area) -> Checked {
        if self.record[IN_RECEIVER] != PROFILE || self.output.len() < self.needed() {
            return Ok(());
        }
        let original = made_up::receiver(&self.record, &self.store);
        let terms = Terms {
            origin: calls::Origin {
                kind: self.record[1],
                width: self.record[2],
                value: Take(&self.record[3..]).take64(),
                protocol: self.record[11],
                octet: self.record[12],
            },
            transaction: self.record[13],
            version: self.record[14],
            maximum: Take(&self.record[MAXIMUM..]).take64(),
        };
        let mut copy = Self {
            terms,
            record: self.record.clone(),
            store: self.store.clone(),
            output: self.output.clone(),
            expected_store: self.store.clone(),
            expected_output: self.output.clone(),
            held: original.segments().iter().map(Option::is_some).collect(),
            state: self.record[layout::receiver::STATE],
            left_over: Some(self.record.clone()),
        };
        let mut player = Trains {
            receiving: Receiving {
                receiver: Some(original),
            },
            message: None,
        };
        let recorded = player.play(case.op, &case.input);
        let receiver = player.receiving.receiver.as_ref();
        let receiver = receiver.expect("a call leaves a receiver");
        copy.check(receiver, player.message.as_deref(), case, &recorded, area)
    }

    /// A train on an impossible record: 62 for its first segment, unless decoding refuses that under the record's version.
    fn impossible_train(&mut self, case: &Case, area: &mut Area) -> Checked {
        let train = Train::take(&case.input);
        let Some(length) = train.lengths.chunks(2).next() else {
            return Ok(());
        };
        let length = usize::from(length[0]) << 8 | usize::from(length[1]);
        let next = &train.octets[..length.min(train.octets.len())];
        let version = ProtocolVersion(self.record[14]);
        let needed = self.needed();
        let expected = match decode_segment(next, version) {
            Err(error) => {
                let (n, m) = refusals::codec(error);
                256 * u32::from(n) + u32::from(m)
            }
            Ok(_) if self.output.len() < needed => 256 * 61,
            Ok(_) => 256 * 62,
        };
        if expected == 256 * 62 {
            self.seen_neither(case, area);
        }
        let before = self.record.clone();
        let mut answer = filled(layout::TRAIN);
        let lent = Lent {
            record: &mut self.record,
            store: &mut self.store,
            output: &mut self.output,
            answer: &mut answer,
        };
        let found = call(case, lent, &Wrong::default());
        area.count(found);
        same_given(found, expected)?;
        same("answer", &answer, &[0; layout::TRAIN])?;
        same("record", &self.record, &before)?;
        same("store", &self.store, &self.expected_store)?;
        same("output", &self.output, &self.expected_output)
    }

    /// A buffer that is shorter than its layout (256), a segment that spells none (257), a protocol that names no case (258).
    fn buffers(&mut self, (which, by): (u64, u64), case: &Case, area: &mut Area) -> Checked {
        let receives = case.op == RECEIVE || case.op == TRAIN;
        let shorter = |octets: usize| octets - 1 - by as usize % octets;
        let answer = answer_octets(case.op);
        let mut wrong = Wrong::default();
        let (mut record, mut lent_answer, mut expected) =
            (self.record.len(), answer, spells::TOO_SHORT);
        match which % 5 {
            0 => record = shorter(layout::RECEIVER),
            1 if answer > 0 => lent_answer = shorter(answer),
            2 if case.op == RECEIVE => wrong.segment_octets = Some(shorter(layout::SEGMENT)),
            3 if receives => {
                wrong.protocol = Some(3 + (by % 253) as u8);
                expected = spells::NAMES_NONE;
            }
            4 if case.op == RECEIVE => {
                let delivery = Delivery::take(&mut Take(&case.input));
                let mut segment = spell::segment(&delivery.segment);
                let change = (by as usize % layout::SEGMENT, (by >> 8) as u8);
                segment[change.0] = change.1;
                if spells::segment(&segment) {
                    return Ok(());
                }
                wrong.segment = Some(change);
                expected = spells::SPELLS_NONE;
            }
            _ => return Ok(()),
        }
        let make = |port: &mut Self, answer: &mut [u8]| {
            let lent = Lent {
                record: &mut port.record[..record],
                store: &mut port.store,
                output: &mut port.output,
                answer,
            };
            call(case, lent, &wrong)
        };
        self.refused(make, lent_answer, 256 * expected, area)
    }
}

/// The message that a receiver has put together.
fn held_message(original: &Receiver) -> Vec<u8> {
    let end = usize::from(original.end_sequence().expect("a whole message has an end"));
    let held = original.segments()[..=end].iter().flatten();
    held.flat_map(|segment| segment.segment_data.iter().copied())
        .collect()
}

/// The reading of a call.
fn reading(case: &Case) -> Option<u64> {
    let at = match case.op {
        RECEIVE => 35,
        ADVANCE | CANCEL => 0,
        TRAIN => 12,
        _ => return None,
    };
    Some(Take(&case.input[at..]).take64())
}

impl Receivers {
    pub fn check_in(
        &mut self,
        original: Option<&Receiver>,
        message: Option<&[u8]>,
        case: &Case,
        answer: &[u8],
        area: &mut Area,
    ) -> Checked {
        if case.op == OPEN {
            self.port = Port::open(&case.input, given(answer), original, area)?;
            return Ok(());
        }
        let port = self.port.as_mut().expect("try_new made a receiver");
        let original = original.expect("try_new made a receiver");
        port.check(original, message, case, answer, area)
    }

    /// The opening under other profiles, where it gave this number.
    fn makings(&self, case: &Case, given: u32, area: &mut Area) -> Checked {
        let opening = Opening::take(&mut Take(&case.input));
        let origin = spell::origin(opening.peer, opening.protocol);
        let make = move |record: &mut [u8], protocol: u8, profile: u8| {
            calls::receiver_new(
                record,
                calls::Origin { protocol, ..origin },
                opening.transaction,
                opening.version,
                profile,
                opening.maximum,
                opening.reading,
            )
        };
        let making = Making {
            make: Box::new(make),
            protocol: origin.protocol,
            given,
            made: self.port.as_ref().map_or(&[], |port| &port.record),
            octets: layout::RECEIVER,
            place: IN_RECEIVER,
        };
        making.check(&case.input, area)
    }

    fn probe_in(&mut self, case: &Case, table: &mut Table, name: &'static str) -> Checked {
        let Some(port) = &mut self.port else {
            return Ok(());
        };
        let mut take = Take(&case.input);
        let numbers = (take.take64(), take.take64(), take.take64());
        let inner = Case {
            op: take.take8(),
            input: take.rest().to_vec(),
        };
        match case.op {
            SHORT => port.short(numbers.0, &inner, table.area(name)),
            DAMAGED => port.damaged(numbers, &inner, table, name),
            RELEASE => port.release(numbers, &inner, table),
            NEITHER => port.neither(numbers, &inner, table, name),
            _ => port.buffers((numbers.0, numbers.1), &inner, table.area(name)),
        }
    }
}

/// One probe for about so many calls.
const PROBES: usize = 5;
/// Where a record has what 62 asks about, up to the slots.
const RECORD_FRONT: usize = RECEIVER_SLOTS;

/// A place in a record, most often before the slots.
fn any_place(random: &mut Random) -> usize {
    match random.below(4) {
        0 => random.below(layout::RECEIVER),
        1 => random.below(RECORD_FRONT),
        _ => random.below(RECEIVER_LENGTHS),
    }
}

fn any_probe(random: &mut Random, next: Option<&Case>) -> Option<Case> {
    let next = next?;
    if !random.once_in(PROBES) {
        return None;
    }
    let op = random.pick(&[SHORT, DAMAGED, DAMAGED, BUFFERS]);
    let at = any_place(random);
    let change = match random.below(3) {
        0 => random.below(4) as u64,
        _ => random.next() & 0xffff,
    };
    let also = if random.once_in(3) {
        random.below(RECORD_FRONT) + 1
    } else {
        0
    };
    let mut input = Vec::with_capacity(PROBE_NUMBERS + 1 + next.input.len());
    if op == DAMAGED {
        input.put64(at as u64);
        input.put64(change);
        input.put64(also as u64);
    } else {
        input.put64(random.below(60) as u64);
        input.put64(random.next() >> 40);
        input.put64(0);
    }
    input.put8(next.op);
    input.put_all(&next.input);
    Some(Case { op, input })
}

impl Checker for Receivers {
    type Original = Receiving;

    const NAME: &'static str = "receiver";

    fn opens(op: u8) -> bool {
        op == OPEN
    }

    fn check(
        &mut self,
        original: &mut Receiving,
        case: &Case,
        answer: &[u8],
        table: &mut Table,
    ) -> Checked {
        let area = table.area(Self::NAME);
        self.check_in(original.receiver.as_ref(), None, case, answer, area)?;
        if case.op == OPEN {
            return self.makings(case, given(answer), area);
        }
        Ok(())
    }

    fn probe(&mut self, _: &mut Receiving, case: &Case, table: &mut Table) -> Checked {
        self.probe_in(case, table, Self::NAME)
    }

    fn any_probe(&self, random: &mut Random, next: Option<&Case>) -> Option<Case> {
        self.port.as_ref().and_then(|_| any_probe(random, next))
    }

    fn any_other(&self, random: &mut Random, last: &Case) -> Option<Case> {
        let port = self.port.as_ref()?;
        release::any(random, &port.record, last)
    }

    fn any_neither(&self, random: &mut Random, next: &Case) -> Option<Case> {
        self.port.as_ref()?;
        profiles::any_neither(random, next)
    }
}

/// The same over receivers that take trains.
#[derive(Default)]
pub struct TrainChecker(Receivers);

impl Checker for TrainChecker {
    type Original = Trains;

    const NAME: &'static str = "train";

    fn opens(op: u8) -> bool {
        op == OPEN
    }

    fn check(
        &mut self,
        original: &mut Trains,
        case: &Case,
        answer: &[u8],
        table: &mut Table,
    ) -> Checked {
        let receiver = original.receiving.receiver.as_ref();
        let area = table.area(Self::NAME);
        self.0
            .check_in(receiver, original.message.as_deref(), case, answer, area)
    }

    fn probe(&mut self, _: &mut Trains, case: &Case, table: &mut Table) -> Checked {
        self.0.probe_in(case, table, Self::NAME)
    }

    fn any_probe(&self, random: &mut Random, next: Option<&Case>) -> Option<Case> {
        self.0.port.as_ref().and_then(|_| any_probe(random, next))
    }

    fn any_other(&self, random: &mut Random, last: &Case) -> Option<Case> {
        self.0.any_other(random, last)
    }

    fn any_neither(&self, random: &mut Random, next: &Case) -> Option<Case> {
        self.0.any_neither(random, next)
    }
}
