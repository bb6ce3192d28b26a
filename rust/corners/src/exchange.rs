//! Frozen trains under Exceptions, converted ones, and trains under each profile, from a sender to a receiver: what the sender offers is encoded,
//! decoded and received, singly and as a train, and what the receiver answers goes to the sender. Under Exceptions it answers timeouts and failures,
//! and neither the message nor a repeat.

mod profiles;

use self::By::{Singly, Train};
use crate::dialects::{self, BOTH, EMPTY, MOST, ROOM, SERVED, TWO, WINDOWS};
use crate::exceptions::{ALL, Cutting, SIX, THREE};
use crate::octets::{FILL, PAST, Segment, at_front, difference, filled, head, pattern, stated};
use crate::profiles::{ONE, Profile};
use crate::receiver::arrivals::brings;
use crate::receiver::bench::{Lent, Reported, answer, reported};
use crate::receiver::record::Record;
use crate::receiver::rows::{self, Call, Kind, Map, Outcome, Row, TRANSACTION};
use crate::sender::bench::{
    EXCEPTION_INTERVAL_ELAPSED, LOWER_LAYER_ACCEPTED, ORIGIN, OWN, PEER_RECEIVED, Response, Sent,
    VERSION, awaiting_accept, awaiting_response, case, ended, marks, peer_failed, prepared,
    try_new_under,
};
use crate::sender::plan::{Plan, converted_of, frozen_of};
use crate::tally::{Group, Tally};
use catkhize::AcknowledgmentWindow::{self, Exceptions, Last, Prohibited};
use catkhize::Dialect;
use catkhize::Status::{MessageTooLong, Received};
use catkhize::{calls, layout};

const SEED: u8 = 61;

/// When both are made, when the segments are sent and received, and when those that were lost are.
const MADE: u64 = 500;
const SENT: u64 = 1_000;
const AGAIN: u64 = 302_000;

/// How the receiver is given segments.
#[derive(Clone, Copy)]
enum By {
    Singly,
    Train,
}

/// A plan: the window that it asks for, its segments and its message.
struct Planned {
    asked: AcknowledgmentWindow,
    heads: Vec<(Segment, u64)>,
    message: Vec<u8>,
    plan: Plan,
}

/// A sender and a receiver, with what the one has to show and the other's record has to be.
struct Exchange<'a> {
    group: &'a mut Group,
    by: By,
    /// From a queued reading to the sender's deadline.
    interval: u64,
    asked: AcknowledgmentWindow,
    heads: Vec<(Segment, u64)>,
    message: Vec<u8>,
    sent: Sent,
    deadline: Option<u64>,
    submissions: u64,
    record: Record,
    lent: Lent,
}

/// What a reception carries: a response, and the number of octets handed over.
type Carried = (Option<Reported>, Option<u64>);

impl<'a> Exchange<'a> {
    /// A frozen train under Exceptions, and a receiver of messages of up to so many octets.
    fn new(group: &'a mut Group, by: By, cutting: Cutting, maximum: usize) -> Self {
        let heads = cutting.heads(TRANSACTION);
        let message = pattern(cutting.octets, SEED);
        let plan = frozen_of(&heads, &message, cutting.budget);
        let planned = Planned {
            asked: Exceptions,
            heads,
            message,
            plan,
        };
        Self::of(group, by, planned, maximum, [ONE, ONE])
    }

    /// A train that was converted, and a receiver of messages of just its octets.
    fn converted(
        group: &'a mut Group,
        by: By,
        cutting: dialects::Cutting,
        (read, written): (Dialect, Dialect),
    ) -> Self {
        let message = pattern(cutting.octets, SEED);
        let plan = converted_of(&cutting.heads(TRANSACTION, read), &message, ROOM, read);
        let planned = Planned {
            asked: cutting.window,
            heads: cutting.heads(TRANSACTION, written),
            message,
            plan,
        };
        Self::of(group, by, planned, cutting.octets, [ONE, ONE])
    }

    /// A plan, a receiver of messages of up to so many octets, and the profiles of sender and receiver.
    fn of(
        group: &'a mut Group,
        by: By,
        planned: Planned,
        maximum: usize,
        [sender, receiver]: [Profile; 2],
    ) -> Self {
        let Planned {
            asked,
            heads,
            message,
            plan,
        } = planned;
        let sent = try_new_under(sender.number, &plan, &message, MADE);
        let (profile, maximum) = (receiver.number, maximum as u64);
        let mut lent = Lent::new();
        let record = &mut lent.record;
        calls::receiver_new(
            record,
            rows::OWN,
            TRANSACTION,
            VERSION,
            profile,
            maximum,
            MADE,
        );
        Self {
            group,
            by,
            interval: sender.sender,
            asked,
            heads,
            message,
            sent,
            deadline: None,
            submissions: 0,
            record: Record::new(rows::OWN, TRANSACTION, VERSION, profile, maximum, MADE),
            lent,
        }
    }

    /// Where the data of a segment begin in the message.
    fn offset(&self, index: usize) -> u64 {
        self.heads[..index].iter().map(|(_, octets)| octets).sum()
    }

    fn data(&self, index: usize) -> &[u8] {
        let octets = self.heads[index].1 as usize;
        &self.message[self.offset(index) as usize..][..octets]
    }

    /// A segment's octets: type and transaction, sequence, data, the length where it is stated, and of the Begin services.
    fn octets(&self, index: usize) -> Vec<u8> {
        let (segment, data) = (self.heads[index].0, self.data(index));
        let kind = segment[2];
        let mut octets = vec![kind << 3 | TRANSACTION, index as u8, data.len() as u8];
        octets.extend(data);
        let length = stated(segment).into_iter();
        octets.extend(length.flat_map(|n| (0x1000 | n).to_be_bytes()));
        if index == 0 && self.asked != Prohibited {
            octets.extend([0x20, (self.asked as u8) << 3]);
        }
        octets
    }

    /// The sender offers a segment, which is encoded.
    fn offers(&mut self, index: usize) {
        let wanted = prepared(
            self.submissions,
            index as u8,
            self.deadline,
            self.submissions,
        );
        case(self.group, self.sent, wanted);
        let (segment, octets) = self.heads[index];
        let offset = self.offset(index).to_be_bytes();
        let part = [&head(segment, octets)[..], &offset].concat();
        let offered = self.sent.sender.offered();
        self.group.case(&offered[..], &part[..]);

        let mut output = filled(layout::ENCODING + PAST);
        let mut written = filled(layout::WRITTEN + PAST);
        let offered = &offered[..layout::SEGMENT];
        let given = calls::encode(
            offered,
            self.data(index),
            VERSION,
            &mut output,
            &mut written,
        );
        let octets = self.octets(index);
        let number = (octets.len() as u64).to_be_bytes();
        let wanted = at_front(&octets, output.len());
        let number = at_front(&number, written.len());
        let differences = [difference(&output, &wanted), difference(&written, &number)];
        self.group.case((given, differences), (0, [None, None]));
    }

    /// What is offered is submitted and accepted at a reading.
    fn sends(&mut self, index: usize, reading: u64) {
        self.offers(index);
        let ticket = self.submissions;
        self.submissions += 1;
        let closes = self.asked == Prohibited && index + 1 == self.heads.len();
        self.deadline = (!closes).then_some(reading + self.interval);
        let handed = self.sent.sender.submitted(OWN, ticket, reading, reading);
        let wanted = awaiting_accept(self.deadline, self.submissions);
        case(self.group, handed, wanted);
        self.sent = handed.sender.accepted(OWN, ticket, reading);
    }

    /// All of these are sent, and the sender awaits a response; under Prohibited it is done.
    fn sends_all(&mut self, indices: &[usize], reading: u64) {
        for index in indices {
            self.sends(*index, reading);
        }
        let wanted = match self.asked {
            Prohibited => ended(LOWER_LAYER_ACCEPTED, self.submissions),
            _ => awaiting_response(self.deadline, self.submissions),
        };
        case(self.group, self.sent, wanted);
    }

    /// The call that brings a segment.
    fn call(&self, index: usize, reading: u64) -> Call {
        brings(&self.heads, self.asked, index, reading)
    }

    /// What the reception of a segment has to leave, and what it carries.
    fn leave(&mut self, wanted: &mut Lent, index: usize, row: Row) -> Carried {
        let Row::Call(call, outcome, map) = row else {
            panic!("a row is a call");
        };
        self.record.leave(&call, outcome);
        wanted.record = at_front(&self.record.octets(), wanted.record.len());
        wanted.leave_store(&call, self.data(index), outcome);
        let response = map.map(|map| reported(outcome, self.record.state, map));
        let Outcome::HandsOver = outcome else {
            return (response, None);
        };
        wanted.output[..self.message.len()].copy_from_slice(&self.message);
        (response, Some(self.message.len() as u64))
    }

    /// What a call gave and left has to be this number and this.
    fn compare(&mut self, given: u32, number: u32, wanted: Lent) {
        let differences = self.lent.differences(&wanted);
        let none = <[Option<String>; 4]>::default();
        self.group.case((given, differences), (number, none));
        // The next call is made on what had to be left, so that a case that differs does not spoil the others.
        self.lent = wanted;
    }

    /// A segment is decoded and received.
    fn receives(&mut self, index: usize, row: Row, reading: u64) -> Carried {
        let (segment, octets) = self.heads[index];
        let mut decoded = filled(layout::DECODED + PAST);
        let given = calls::decode(&self.octets(index), VERSION, &mut decoded);
        let whole = [&head(segment, octets)[..], &[0; 8]].concat();
        let wanted = at_front(&whole, decoded.len());
        self.group.case((given, &decoded), (0, &wanted));

        let mut wanted = self.lent.clone();
        let carried = self.leave(&mut wanted, index, row);
        let reception = answer(Kind::Later, carried.0, carried.1);
        wanted.answer = at_front(&reception, wanted.answer.len());
        let given = self.receive(index, &decoded[..layout::SEGMENT], reading);
        self.compare(given, 0, wanted);
        carried
    }

    /// The call, of a segment that was decoded.
    fn receive(&mut self, index: usize, segment: &[u8], reading: u64) -> u32 {
        let data = self.data(index).to_vec();
        let Lent {
            answer,
            record,
            store,
            output,
        } = &mut self.lent;
        answer.fill(FILL);
        calls::receiver_receive(
            record,
            store,
            &mut output[..layout::STORE],
            rows::OWN,
            segment,
            &data,
            0,
            reading,
            answer,
        )
    }

    /// All of these are received in one call.
    fn receives_train(&mut self, indices: &[usize], rows: &[Row], reading: u64) -> Carried {
        let mut wanted = self.lent.clone();
        let mut carried = (None, None);
        for (index, row) in indices.iter().zip(rows) {
            carried = self.leave(&mut wanted, *index, *row);
        }
        let received = (indices.len() as u64).to_be_bytes();
        let reception = answer(Kind::Later, carried.0, carried.1);
        let train = [&received[..], &reception].concat();
        wanted.answer = at_front(&train, wanted.answer.len());
        let given = self.receive_train(indices, reading);
        self.compare(given, 0, wanted);
        carried
    }

    /// The call.
    fn receive_train(&mut self, indices: &[usize], reading: u64) -> u32 {
        let segments: Vec<Vec<u8>> = indices.iter().map(|index| self.octets(*index)).collect();
        let lengths = segments.iter().map(|octets| octets.len() as u16);
        let lengths: Vec<u8> = lengths.flat_map(u16::to_be_bytes).collect();
        let Lent {
            answer,
            record,
            store,
            output,
        } = &mut self.lent;
        answer.fill(FILL);
        calls::receiver_train(
            record,
            store,
            &mut output[..layout::STORE],
            rows::OWN,
            &segments.concat(),
            &lengths,
            reading,
            answer,
        )
    }

    /// The receiver is given these segments: all but the last one are held. The response to that one, if it has any.
    fn takes(
        &mut self,
        indices: &[usize],
        reading: u64,
        last: impl Fn(Call) -> Row,
    ) -> Option<Reported> {
        let mut rows: Vec<Row> = indices
            .iter()
            .map(|index| self.call(*index, reading).holds())
            .collect();
        if let (Some(row), Some(index)) = (rows.last_mut(), indices.last()) {
            *row = last(self.call(*index, reading));
        }
        let mut carried = (None, None);
        match self.by {
            Train => carried = self.receives_train(indices, &rows, reading),
            Singly => {
                for (index, row) in indices.iter().zip(rows) {
                    carried = self.receives(*index, row, reading);
                }
            }
        }
        carried.0
    }

    /// The receiver waits until its deadline, and then asks for what this map misses.
    fn asks(&mut self, deadline: u64, map: Map) -> Reported {
        let response = reported(Outcome::Asks, self.record.state, map);
        self.due(deadline, Outcome::Asks, Some(response));
        response
    }

    /// The receiver waits until its deadline, and then this comes of an advance.
    fn due(&mut self, deadline: u64, outcome: Outcome, response: Option<Reported>) {
        for (reading, outcome, response) in [
            (deadline - 1, Outcome::Waits, None),
            (deadline, outcome, response),
        ] {
            self.record.leave(&rows::advance(reading), outcome);
            let mut wanted = self.lent.clone();
            wanted.record = at_front(&self.record.octets(), wanted.record.len());
            wanted.leave_store(&rows::advance(reading), &[], outcome);
            let reply = answer(Kind::Advance, response, None);
            wanted.answer = at_front(&reply, wanted.answer.len());
            let Lent {
                answer,
                record,
                store,
                ..
            } = &mut self.lent;
            answer.fill(FILL);
            let given = calls::receiver_advance(record, store, reading, answer);
            self.compare(given, 0, wanted);
        }
    }

    /// The receiver's response goes to the sender.
    fn hears(&mut self, response: Reported, reading: u64) {
        let response = &response[..layout::RESPONSE];
        let sender = self.sent.sender;
        self.sent = sender.receive_octets(ORIGIN, response, 0, reading);
    }

    /// The receiver's answer to a message that is too long fails the sender.
    fn fails(&mut self, response: Option<Reported>) {
        let response = response.expect("a failure is answered");
        self.hears(response, SENT);
        let failed = ended(peer_failed(MessageTooLong), self.submissions);
        case(self.group, self.sent, failed);
    }

    /// With all sent and no response the sender completes at its deadline. With a Received of the peer's it completes before it and at it.
    fn ends(&mut self) {
        let (s, submissions) = (self.sent.sender, self.submissions);
        let deadline = self.deadline.expect("a deadline runs");
        let waits = awaiting_response(self.deadline, submissions);
        let elapsed = ended(EXCEPTION_INTERVAL_ELAPSED, submissions);
        let done = ended(PEER_RECEIVED, submissions);
        let count = self.heads.len();
        let received = Response {
            transaction: TRANSACTION,
            ..Response::new(Received, marks(0..count), count as u16)
        };
        case(self.group, s.advance(deadline - 1), waits);
        case(self.group, s.advance(deadline), elapsed);
        case(self.group, s.hears(received, deadline - 1), done);
        case(self.group, s.hears(received, deadline), done);
    }
}

/// All segments arrive in order: the message is handed over without a response, and a repeat has none.
fn whole(g: &mut Group, by: By) {
    for cutting in ALL {
        let mut e = Exchange::new(g, by, cutting, cutting.octets);
        let all: Vec<usize> = (0..e.heads.len()).collect();
        e.sends_all(&all, SENT);
        e.takes(&all, SENT, Call::hands_over);
        e.takes(&[0], SENT, Call::repeats);
        e.ends();
    }
}

/// Some segments are lost. The receiver's timeout answer has a map of so many entries, and the sender sends what is missing, which is then received.
fn lost(g: &mut Group) {
    for (cutting, lost, entries, marks) in [
        (THREE, &[1][..], 3, 0b101),
        (THREE, &[2], 3, 0b011),
        (THREE, &[1, 2], 2, 0b01),
        (SIX, &[1, 3], 6, 0b110101),
        (SIX, &[4, 5], 5, 0b01111),
        (SIX, &[1, 2, 3, 4, 5], 2, 0b01),
    ] {
        for by in [Singly, Train] {
            let mut e = Exchange::new(g, by, cutting, cutting.octets);
            let all: Vec<usize> = (0..e.heads.len()).collect();
            let arrive = all.iter().copied().filter(|index| !lost.contains(index));
            let arrive: Vec<usize> = arrive.collect();
            e.sends_all(&all, SENT);
            e.takes(&arrive, SENT, Call::holds);
            let map = Map {
                entries,
                marks: [marks, 0, 0, 0],
                lists: false,
            };
            let deadline = SENT + ONE.receiver;
            let response = e.asks(deadline, map);
            e.hears(response, deadline);
            e.sends_all(lost, AGAIN);
            e.takes(lost, AGAIN, Call::hands_over);
            e.ends();
        }
    }
}

/// The message passes the receiver's maximum: by the length that the Begin states, or with the End. The response fails the sender.
fn too_long(g: &mut Group) {
    const TOO_LONG: u8 = MessageTooLong as u8;
    for by in [Singly, Train] {
        let mut e = Exchange::new(g, by, THREE, THREE.octets - 1);
        e.sends(0, SENT);
        let stated = e.takes(&[0], SENT, |begin| begin.fails(TOO_LONG).map(1, 0));
        e.fails(stated);

        let mut e = Exchange::new(g, by, SIX, SIX.octets - 1);
        let all = [0, 1, 2, 3, 4, 5];
        e.sends_all(&all, SENT);
        let held = e.takes(&all, SENT, |end| end.fails(TOO_LONG).map(5, 0b11111));
        e.fails(held);
    }
}

/// These segments, the last ones of a train in which only the last one is answered, if any, are sent and arrive in order: the message is handed over
/// by the last one, which is answered where the window has responses to it, and so is a repeat.
fn arrive(e: &mut Exchange, indices: &[usize], reading: u64) {
    let count = e.heads.len();
    let answered = ![Prohibited, Exceptions].contains(&e.asked);
    let entries = if answered { count as u16 } else { 0 };
    e.sends_all(indices, reading);
    let whole = |row: Row| row.marks(entries, marks(0..count));
    let response = e.takes(indices, reading, |call| whole(call.hands_over()));
    e.takes(&[0], reading, |call| whole(call.repeats()));
    if let Some(response) = response {
        e.hears(response, reading);
        let received = ended(PEER_RECEIVED, e.submissions);
        case(e.group, e.sent, received);
    } else if e.asked == Exceptions {
        e.ends();
    }
}

/// A converted train arrives.
fn arrives(g: &mut Group, by: By, cutting: dialects::Cutting, dialects: (Dialect, Dialect)) {
    let mut e = Exchange::converted(g, by, cutting, dialects);
    let all: Vec<usize> = (0..e.heads.len()).collect();
    arrive(&mut e, &all, SENT);
}

/// Trains in which only the last segment is answered, if any.
fn converted(g: &mut Group, by: By) {
    for dialects in BOTH {
        for window in WINDOWS {
            for cutting in [EMPTY, TWO, SERVED] {
                arrives(g, by, cutting.under(window), dialects);
            }
        }
        arrives(g, by, MOST.under(Last), dialects);
    }
}

pub fn corners(tally: &mut Tally) {
    let title = "exchange: frozen trains under Exceptions, segment by segment";
    tally.group(title, |g| whole(g, Singly));
    let title = "exchange: frozen trains under Exceptions, in one call";
    tally.group(title, |g| whole(g, Train));
    tally.group("exchange: segments lost under Exceptions", lost);
    tally.group("exchange: messages too long under Exceptions", too_long);
    let title = "exchange: converted trains, segment by segment";
    tally.group(title, |g| converted(g, Singly));
    let title = "exchange: converted trains, in one call";
    tally.group(title, |g| converted(g, Train));
    profiles::corners(tally);
}
