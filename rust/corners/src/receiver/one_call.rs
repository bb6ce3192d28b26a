//! Trains in one call. A train stops behind a segment whose reception carries a response or a message, or closes the receiver, with 0 and how
//! many segments were received; at a refusal it stops with that. Each call is made on what the call before it left.

mod profiles;

use super::bench::{Lent, answer, reported};
use super::record::Record;
use super::rows::*;
use crate::octets::{FILL, at_front, hex, refusal};
use crate::profiles::ONE;
use crate::tally::{Group, Tally};
use catkhize::calls::Origin;
use catkhize::{Refusal, calls, layout};

/// The reading of most calls.
const AT: u64 = 1_000;

/// The receivers take messages of up to so many octets.
const MAXIMUM: usize = 10;

/// Segments of one octet of data in transaction 5, by their octets: Begins under windows, Continues, an End.
const BEGIN: &str = "05 00 01 61";
const BEGIN_EVERY4: &str = "05 00 01 61 20 08";
const BEGIN_LAST: &str = "05 00 01 61 20 20";
const BEGIN_EXCEPTIONS: &str = "05 00 01 61 20 28";
const LATER_1: &str = "0d 01 01 62";
const END_1: &str = "15 01 01 62";

/// A call: its segments, and their lengths where these are not what the segments have; who it comes from; and how many octets it is lent.
#[derive(Clone, Copy)]
struct Train<'a> {
    segments: &'a [&'a str],
    lengths: Option<&'a str>,
    reading: u64,
    from: Origin,
    record: usize,
    store: usize,
    output: usize,
    answer: usize,
}

fn train<'a>(segments: &'a [&'a str]) -> Train<'a> {
    Train {
        segments,
        lengths: None,
        reading: AT,
        from: OWN,
        record: layout::RECEIVER,
        store: layout::STORE,
        output: MAXIMUM,
        answer: layout::TRAIN,
    }
}

impl<'a> Train<'a> {
    fn lengths(mut self, octets: &'a str) -> Self {
        self.lengths = Some(octets);
        self
    }

    fn at(mut self, reading: u64) -> Self {
        self.reading = reading;
        self
    }

    fn protocol(mut self, protocol: u8) -> Self {
        self.from.protocol = protocol;
        self
    }

    fn record(mut self, octets: usize) -> Self {
        self.record = octets;
        self
    }

    fn store(mut self, octets: usize) -> Self {
        self.store = octets;
        self
    }

    fn output(mut self, octets: usize) -> Self {
        self.output = octets;
        self
    }

    fn answer(mut self, octets: usize) -> Self {
        self.answer = octets;
        self
    }
}

/// A receiver of messages of up to 10 octets, with every lent octet A5. Most are made under profile 1.
struct Bench<'a> {
    group: &'a mut Group,
    record: Record,
    lent: Lent,
}

impl<'a> Bench<'a> {
    fn new(group: &'a mut Group, transaction: u8) -> Self {
        Self::under(group, ONE.number, transaction)
    }

    /// The same under a profile.
    fn under(group: &'a mut Group, profile: u8, transaction: u8) -> Self {
        let mut lent = Lent::new();
        let maximum = MAXIMUM as u64;
        let record = &mut lent.record;
        calls::receiver_new(record, OWN, transaction, 1, profile, maximum, 0);
        let record = Record::new(OWN, transaction, 1, profile, maximum, 0);
        Self {
            group,
            record,
            lent,
        }
    }

    /// The call gives a number and has received so many segments; the rows say what each does, a refused one too where it changes the
    /// record; the message is what is handed over, if anything is.
    fn gives(&mut self, train: Train, number: u32, received: u64, rows: &[Row], message: &str) {
        let mut wanted = self.lent.clone();
        let message = hex(message);
        let mut carried = (None, None);
        for (segment, row) in train.segments.iter().zip(rows) {
            let Row::Call(call, outcome, map) = *row else {
                panic!("a row is a call");
            };
            self.record.leave(&call, outcome);
            let data = &hex(segment)[3..][..call.octets];
            wanted.leave_store(&call, data, outcome);
            carried.0 = map.map(|map| reported(outcome, self.record.state, map));
            if let Outcome::HandsOver = outcome {
                wanted.output[..message.len()].copy_from_slice(&message);
                carried.1 = Some(message.len() as u64);
            }
        }
        wanted.record = at_front(&self.record.octets(), wanted.record.len());
        let mut octets = received.to_be_bytes().to_vec();
        octets.extend(answer(Kind::Later, carried.0, carried.1));
        wanted.answer = at_front(&octets, wanted.answer.len());
        self.compare(train, number, wanted);
    }

    /// The call gives a refusal of the exports' own and changes nothing.
    fn refuses(&mut self, train: Train, refusal: Refusal) {
        self.lent.answer.fill(FILL);
        let wanted = self.lent.clone();
        self.compare(train, 256 * refusal.number(), wanted);
    }

    fn compare(&mut self, train: Train, number: u32, wanted: Lent) {
        self.lent.answer.fill(FILL);
        let segments: Vec<Vec<u8>> = train.segments.iter().map(|octets| hex(octets)).collect();
        let lengths = match train.lengths {
            Some(octets) => hex(octets),
            None => segments
                .iter()
                .flat_map(|octets| (octets.len() as u16).to_be_bytes())
                .collect(),
        };
        let given = calls::receiver_train(
            &mut self.lent.record[..train.record],
            &mut self.lent.store[..train.store],
            &mut self.lent.output[..train.output],
            train.from,
            &segments.concat(),
            &lengths,
            train.reading,
            &mut self.lent.answer[..train.answer],
        );
        self.case(given, number, wanted);
    }

    /// The receiver, which is complete, is released.
    fn releases(&mut self, reading: u64) {
        let mut wanted = self.lent.clone();
        self.record.leave(&release(reading), Outcome::Releases);
        wanted.record = at_front(&self.record.octets(), wanted.record.len());
        wanted.store[..layout::STORE].fill(0);
        let Lent { record, store, .. } = &mut self.lent;
        let given = calls::receiver_release(record, store, reading);
        self.case(given, 0, wanted);
    }

    fn case(&mut self, given: u32, number: u32, wanted: Lent) {
        let differences = self.lent.differences(&wanted);
        let none = <[Option<String>; 4]>::default();
        self.group.case((given, differences), (number, none));
        // The next call is made on what had to be left, so that a case that differs does not spoil the others.
        self.lent = wanted;
    }
}

/// A train stops behind the message, and is gone on with.
fn messages(g: &mut Group) {
    let first = begin(PLAIN, 1, AT).holds();
    let last = end(1, 1, AT).hands_over();
    let again = end(1, 1, AT).repeats();
    let mut b = Bench::new(g, 0);
    let three = ["00 00 01 61", "10 01 01 62", "10 01 01 62"];
    b.gives(train(&three), 0, 2, &[first, last], "61 62");
    b.gives(train(&three[2..]), 0, 1, &[again], "");
    // The same segments in calls of one and of two.
    let mut b = Bench::new(g, 0);
    b.gives(train(&three[..1]), 0, 1, &[first], "");
    b.gives(train(&three[1..]), 0, 1, &[last], "61 62");
    b.gives(train(&three[2..]), 0, 1, &[again], "");
    let mut b = Bench::new(g, 0);
    b.gives(train(&three[..2]), 0, 2, &[first, last], "61 62");
    b.gives(train(&[]), 0, 0, &[], "");
    // A message of no octets is one too.
    let mut b = Bench::new(g, 5);
    let rows = [
        begin(PLAIN, 0, AT).holds(),
        end(1, 0, AT).hands_over(),
        begin(PLAIN, 0, AT).repeats(),
    ];
    let empty = ["05 00 00", "15 01 00", "05 00 00"];
    b.gives(train(&empty), 0, 2, &rows[..2], "");
    b.gives(train(&empty[2..]), 0, 1, &rows[2..], "");
}

/// A train stops behind each response.
fn responses(g: &mut Group) {
    let mut b = Bench::new(g, 5);
    let six = [
        BEGIN_EVERY4,
        LATER_1,
        "0d 02 01 63",
        "0d 03 01 64",
        "0d 04 01 65",
        "15 05 01 66",
    ];
    let rows = [
        begin(EVERY4, 1, AT).holds(),
        later(1, 1, AT).holds(),
        later(2, 1, AT).holds(),
        later(3, 1, AT).holds().map(4, 0b1111),
        later(4, 1, AT).holds(),
        end(5, 1, AT).hands_over().map(6, 0b11_1111),
    ];
    b.gives(train(&six), 0, 4, &rows[..4], "");
    b.gives(train(&six[4..]), 0, 2, &rows[4..], "61 62 63 64 65 66");
    // Each repeat is now answered.
    let repeats = [later(1, 1, AT).repeats().map(6, 0b11_1111)];
    b.gives(train(&six[1..3]), 0, 1, &repeats, "");
    let repeats = [later(2, 1, AT).repeats().map(6, 0b11_1111)];
    b.gives(train(&six[2..3]), 0, 1, &repeats, "");

    let mut b = Bench::new(g, 5);
    let gap = [BEGIN_LAST, "15 02 01 63", LATER_1];
    let rows = [
        begin(LAST, 1, AT).holds(),
        end(2, 1, AT).holds().map(3, 0b101),
        later(1, 1, AT).hands_over().map(3, 0b111),
    ];
    b.gives(train(&gap), 0, 2, &rows[..2], "");
    b.gives(train(&gap[2..]), 0, 1, &rows[2..], "61 62 63");

    // Under Exceptions nothing but the message stops it.
    let mut b = Bench::new(g, 5);
    let whole = [BEGIN_EXCEPTIONS, LATER_1, "15 02 01 63", LATER_1];
    let rows = [
        begin(EXCEPTIONS, 1, AT).holds(),
        later(1, 1, AT).holds(),
        end(2, 1, AT).hands_over(),
    ];
    b.gives(train(&whole), 0, 3, &rows, "61 62 63");
}

/// A train stops behind a failure, whether that is answered or not.
fn failures(g: &mut Group) {
    let mut b = Bench::new(g, 5);
    let failing = [BEGIN, "0d ff 00", END_1];
    let rows = [begin(PLAIN, 1, AT).holds(), later(255, 0, AT).fails(2)];
    b.gives(train(&failing), 0, 2, &rows, "");
    b.gives(train(&failing[2..]), refusal(38, 0), 0, &[], "");

    let mut b = Bench::new(g, 5);
    let too_long = ["05 00 0b 61 61 61 61 61 61 61 61 61 61 61", END_1];
    b.gives(train(&too_long), 0, 1, &[begin(PLAIN, 11, AT).fails(9)], "");
    b.gives(train(&too_long[1..]), refusal(38, 0), 0, &[], "");

    let mut b = Bench::new(g, 5);
    let answered = [BEGIN_EXCEPTIONS, "0d ff 00", END_1];
    let rows = [
        begin(EXCEPTIONS, 1, AT).holds(),
        later(255, 0, AT).fails(2).map(1, 0b1),
    ];
    b.gives(train(&answered), 0, 2, &rows, "");
    b.gives(train(&answered[2..]), refusal(38, 0), 0, &[], "");

    // A repeat with other data fails a reception that is complete.
    let mut b = Bench::new(g, 5);
    let rows = [
        begin(PLAIN, 1, AT).holds(),
        end(1, 1, AT).hands_over(),
        begin(PLAIN, 1, AT).repeats(),
        end(1, 1, AT).fails(2),
    ];
    b.gives(train(&[BEGIN, END_1]), 0, 2, &rows[..2], "61 62");
    let other = [BEGIN, "15 01 01 63", BEGIN];
    b.gives(train(&other), 0, 2, &rows[2..], "");
    b.gives(train(&other[2..]), refusal(38, 0), 0, &[], "");
}

/// A train stops at a refusal, with those received before it counted and nothing beside the refusal.
fn refusals(g: &mut Group) {
    let first = [begin(PLAIN, 1, AT).holds()];
    for (octets, n, m) in [
        ("45 01 01 62", 3, 0),
        ("25 01 01 62", 4, 0),
        ("1d 01 01 62", 5, 0),
        ("05 01 00", 6, 3),
        ("", 2, 0),
        ("0d 01 01 62 10 01 10 01", 8, 0),
        ("0e 01 01 62", 32, 0),
        ("0d 01 01 62 ff", 35, 0),
    ] {
        let mut b = Bench::new(g, 5);
        let segments = [BEGIN, octets, END_1];
        b.gives(train(&segments), refusal(n, m), 1, &first, "");
        b.gives(train(&segments[1..]), refusal(n, m), 0, &[], "");
        let rows = [end(1, 1, AT).hands_over()];
        b.gives(train(&segments[2..]), 0, 1, &rows, "61 62");
    }
    let mut b = Bench::new(g, 5);
    b.gives(train(&[LATER_1, BEGIN]), refusal(36, 0), 0, &[], "");
    b.gives(train(&[BEGIN]), 0, 1, &first, "");
    b.gives(train(&[LATER_1]).at(AT - 1), refusal(33, 0), 0, &[], "");
}

/// Refusals that change the record: late under Prohibited, and after Complete. Late under another window changes nothing.
fn late(g: &mut Group) {
    let late = AT + 300_001;
    let mut b = Bench::new(g, 5);
    b.gives(train(&[BEGIN]), 0, 1, &[begin(PLAIN, 1, AT).holds()], "");
    let rows = [later(1, 1, late).expires()];
    let segments = [LATER_1, "15 02 01 63"];
    b.gives(train(&segments).at(late), refusal(38, 0), 0, &rows, "");
    b.gives(train(&segments).at(late), refusal(38, 0), 0, &[], "");

    let mut b = Bench::new(g, 5);
    b.gives(
        train(&[BEGIN_LAST]),
        0,
        1,
        &[begin(LAST, 1, AT).holds()],
        "",
    );
    b.gives(train(&segments).at(late), refusal(37, 0), 0, &[], "");

    let mut b = Bench::new(g, 5);
    let rows = [begin(PLAIN, 1, AT).holds(), end(1, 1, AT).hands_over()];
    b.gives(train(&[BEGIN, END_1]), 0, 2, &rows, "61 62");
    let rows = [
        begin(PLAIN, 1, AT + 1).repeats(),
        later(2, 1, AT + 1).closes(),
    ];
    let segments = [BEGIN, "0d 02 01 63", BEGIN];
    b.gives(train(&segments).at(AT + 1), refusal(38, 0), 1, &rows, "");
}

/// A train to a released receiver gets 38 at its first segment, a repeat of what was received or not, and no reading is taken; a segment that
/// decoding or an earlier test refuses gets that.
fn released(g: &mut Group) {
    let mut b = Bench::new(g, 5);
    let rows = [begin(PLAIN, 1, AT).holds(), end(1, 1, AT).hands_over()];
    b.gives(train(&[BEGIN, END_1]), 0, 2, &rows, "61 62");
    b.releases(AT + 1);
    for (segments, reading, n, m) in [
        (&[BEGIN, END_1][..], AT + 1, 38, 0),
        (&[END_1, BEGIN], AT + 9, 38, 0),
        (&["15 01 01 63"], AT + 9, 38, 0),
        (&["0d 02 01 63", END_1], AT + 9, 38, 0),
        (&[BEGIN_LAST, END_1], AT + 1, 38, 0),
        (&[BEGIN, END_1], AT, 33, 0),
        (&["45 01 01 62", BEGIN], AT + 1, 3, 0),
        (&["05 01 00", BEGIN], AT + 1, 6, 3),
        (&["0e 01 01 62", BEGIN], AT + 1, 32, 0),
        (&["0d 01 01 62 ff", BEGIN], AT + 1, 35, 0),
    ] {
        b.gives(train(segments).at(reading), refusal(n, m), 0, &[], "");
    }
    b.gives(train(&[]).at(AT + 1), 0, 0, &[], "");
}

/// Lengths past the octets, short of a segment, none and odd.
fn lengths(g: &mut Group) {
    let first = [begin(PLAIN, 1, AT).holds()];
    let two = [BEGIN, END_1];
    let (none, truncated) = (&[][..], refusal(2, 0));
    for (segments, lengths, number, received, rows) in [
        (&two[..1], "00 05", 0, 1, &first[..]),
        (&two[..1], "ff ff", 0, 1, &first),
        (&two[..1], "00 03", truncated, 0, none),
        (&two[..1], "00 00", truncated, 0, none),
        (&two[..1], "00 04 00 00", truncated, 1, &first),
        (&two[..1], "00 04 00 04", truncated, 1, &first),
        (&two[..1], "00 09 00 04", truncated, 1, &first),
        (&two, "00 04 00 00 00 04", truncated, 1, &first),
        (&two, "00 04 00 03", truncated, 1, &first),
        (&two, "00 08", refusal(35, 0), 0, none),
        (&two, "00 04", 0, 1, &first),
        (&two, "00 04 00", 0, 1, &first),
        (&two, "00 04 04", 0, 1, &first),
        (&two, "04", 0, 0, none),
        (&two, "", 0, 0, none),
        (&[], "00 00", truncated, 0, none),
        (&[], "00", 0, 0, none),
        (&[], "", 0, 0, none),
    ] {
        let mut b = Bench::new(g, 5);
        b.gives(train(segments).lengths(lengths), number, received, rows, "");
    }
    // Past the octets in the last segment; and no segments in between.
    let mut b = Bench::new(g, 5);
    b.gives(train(&two[..1]), 0, 1, &first, "");
    b.gives(train(&[]), 0, 0, &[], "");
    let rows = [end(1, 1, AT).hands_over()];
    b.gives(train(&two[1..]).lengths("01 00"), 0, 1, &rows, "61 62");
}

/// Buffers one octet short, a record that spells none, a protocol that names no case.
fn buffers(g: &mut Group) {
    let (short, none) = (Refusal::BUFFER_TOO_SHORT, Refusal::BUFFER_SPELLS_NONE);
    let two = [BEGIN, END_1];
    let t = train(&two);
    let mut b = Bench::new(g, 5);
    b.refuses(t.record(layout::RECEIVER - 1), short);
    b.refuses(t.answer(layout::TRAIN - 1), short);
    b.refuses(t.record(0).answer(0), short);
    b.refuses(t.record(layout::RECEIVER - 1).protocol(3), short);
    b.refuses(t.protocol(3), Refusal::NUMBER_NAMES_NONE);
    b.refuses(train(&[]).protocol(255), Refusal::NUMBER_NAMES_NONE);
    b.gives(t.store(layout::STORE - 1), refusal(60, 0), 0, &[], "");
    b.gives(t.output(MAXIMUM - 1), refusal(61, 0), 0, &[], "");
    let both = t.store(0).output(0);
    b.gives(both, refusal(60, 0), 0, &[], "");
    // Decoding comes before either; a train of no segments asks for neither.
    let wrong = train(&["45 01 01 62"]).store(0).output(0);
    b.gives(wrong, refusal(3, 0), 0, &[], "");
    b.gives(train(&[]).store(0).output(0), 0, 0, &[], "");
    b.gives(t.protocol(2), refusal(31, 0), 0, &[], "");
    b.lent.record[0] = 1;
    b.refuses(t, none);
    b.refuses(t.protocol(3), none);
    b.refuses(t.answer(layout::TRAIN - 1), short);
    b.lent.record[0] = layout::RECEIVER_VERSION;
    // An impossible record: octets are stored, and no slot is held.
    b.record.stored = 1;
    b.lent.record = at_front(&b.record.octets(), b.lent.record.len());
    b.gives(t, refusal(62, 0), 0, &[], "");
    b.record.stored = 0;
    b.lent.record = at_front(&b.record.octets(), b.lent.record.len());
    let rows = [begin(PLAIN, 1, AT).holds(), end(1, 1, AT).hands_over()];
    b.gives(t, 0, 2, &rows, "61 62");
}

pub fn corners(tally: &mut Tally) {
    tally.group("train: behind a message", messages);
    tally.group("train: behind responses", responses);
    tally.group("train: behind a failure", failures);
    tally.group("train: at a refusal", refusals);
    tally.group("train: refusals that change the record", late);
    tally.group("train: to a released receiver", released);
    tally.group("train: lengths", lengths);
    tally.group("train: buffers", buffers);
    profiles::corners(tally);
}
