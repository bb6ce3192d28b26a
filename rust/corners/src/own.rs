//! The exports' own refusals, as docs/EXPORTS.md has them: 256, a buffer is shorter than its layout; 257, its octets spell no value; 258, a
//! number names no case. They come in this order and before document 01's, and every lent octet stays.

mod layouts;

use crate::octets::{begin, difference, end, filled, window};
use crate::profiles::ONE;
use crate::tally::{Group, Tally};
use catkhize::calls::{self, Origin};
use catkhize::{AcknowledgmentWindow, layout};

pub const TOO_SHORT: u32 = 65_536;
pub const SPELLS_NONE: u32 = 65_792;
pub const NAMES_NONE: u32 = 66_048;

const TRANSACTION: u8 = 2;
const NUMBER: u64 = 9;
/// Under Last the message makes so many segments of at most so many octets, of which the Begin states the length, and of at most so many where every
/// segment does.
const MESSAGE: &[u8] = b"012345678";
const COUNT: u8 = 3;
const BUDGET: u64 = 8;
const WIDER: u64 = 10;
const READING: u64 = 100;

/// The buffers that have a layout, and store and output.
const SEGMENT: usize = 0;
const HEADS: usize = 1;
const RESPONSE: usize = 2;
const PLAN: usize = 3;
const RECEIVER: usize = 4;
/// A receiver that has handed its message over.
const COMPLETE: usize = 5;
/// A sender that offers its first segment.
const OFFERING: usize = 6;
/// A sender whose first segment Layer 3 has.
const TAKEN: usize = 7;
const ANSWER: usize = 8;

/// What a call is lent and the numbers that it is given.
#[derive(Clone)]
struct Lent {
    buffers: [Vec<u8>; 9],
    store: Vec<u8>,
    output: Vec<u8>,
    window: u8,
    dialect: u8,
    protocol: u8,
    failure: u8,
    version: u8,
    profile: u8,
    value: u64,
    reading: u64,
}

/// A number that names a case.
#[derive(Clone, Copy)]
enum Named {
    Window,
    Dialect,
    Protocol,
    Failure,
}

/// An entry: its call, the octets of its answer, the other buffers with a layout, which of them it reads, and a number that names a case.
struct Entry {
    call: fn(&mut Lent) -> u32,
    answer: usize,
    lent: &'static [usize],
    read: &'static [usize],
    named: Option<Named>,
}

const ENTRIES: [Entry; 20] = [
    Entry {
        call: |l| {
            let [segment, .., answer] = &mut l.buffers;
            calls::encode(segment, MESSAGE, l.version, &mut l.output, answer)
        },
        answer: layout::WRITTEN,
        lent: &[SEGMENT],
        read: &[SEGMENT],
        named: None,
    },
    Entry {
        call: |l| calls::decode(&[0, 0, 0], l.version, &mut l.buffers[ANSWER]),
        answer: layout::DECODED,
        lent: &[],
        read: &[],
        named: None,
    },
    Entry {
        call: |l| {
            let plan = &mut l.buffers[PLAN];
            calls::plan_message(
                MESSAGE,
                BUDGET,
                TRANSACTION,
                l.window,
                l.version,
                BUDGET,
                plan,
            )
        },
        answer: 0,
        lent: &[PLAN],
        read: &[],
        named: Some(Named::Window),
    },
    Entry {
        call: |l| {
            let plan = &mut l.buffers[PLAN];
            calls::plan_even(
                MESSAGE,
                BUDGET,
                TRANSACTION,
                l.window,
                l.version,
                BUDGET,
                plan,
            )
        },
        answer: 0,
        lent: &[PLAN],
        read: &[],
        named: Some(Named::Window),
    },
    Entry {
        call: |l| {
            let [_, _, _, plan, .., answer] = &mut l.buffers;
            calls::plan_segment(plan, 0, answer)
        },
        answer: layout::PART,
        lent: &[PLAN],
        read: &[PLAN],
        named: None,
    },
    Entry {
        call: |l| {
            let [_, heads, _, plan, ..] = &mut l.buffers;
            let (count, version) = (COUNT.into(), l.version);
            calls::try_from_frozen(
                heads, count, MESSAGE, MESSAGE, BUDGET, version, BUDGET, plan,
            )
        },
        answer: 0,
        lent: &[HEADS, PLAN],
        read: &[HEADS],
        named: None,
    },
    Entry {
        call: |l| {
            let [_, heads, _, plan, ..] = &mut l.buffers;
            let (count, version, dialect) = (COUNT.into(), l.version, l.dialect);
            calls::convert(
                heads, count, MESSAGE, MESSAGE, WIDER, version, WIDER, dialect, plan,
            )
        },
        answer: 0,
        lent: &[HEADS, PLAN],
        read: &[HEADS],
        named: Some(Named::Dialect),
    },
    Entry {
        call: |l| {
            let from = l.origin();
            let record = &mut l.buffers[RECEIVER];
            let (version, profile) = (l.version, l.profile);
            calls::receiver_new(record, from, TRANSACTION, version, profile, 100, l.reading)
        },
        answer: 0,
        lent: &[RECEIVER],
        read: &[],
        named: Some(Named::Protocol),
    },
    Entry {
        call: |l| {
            let from = l.origin();
            let [segment, _, _, _, record, .., answer] = &mut l.buffers;
            let (store, output) = (&mut l.store, &mut l.output);
            calls::receiver_receive(
                record, store, output, from, segment, MESSAGE, 0, l.reading, answer,
            )
        },
        answer: layout::RECEPTION,
        lent: &[RECEIVER, SEGMENT],
        read: &[RECEIVER, SEGMENT],
        named: Some(Named::Protocol),
    },
    Entry {
        call: |l| {
            let [_, _, _, _, record, .., answer] = &mut l.buffers;
            calls::receiver_advance(record, &mut l.store, l.reading, answer)
        },
        answer: layout::REPLY,
        lent: &[RECEIVER],
        read: &[RECEIVER],
        named: None,
    },
    Entry {
        call: |l| calls::receiver_cancel(&mut l.buffers[RECEIVER], &mut l.store, l.reading),
        answer: 0,
        lent: &[RECEIVER],
        read: &[RECEIVER],
        named: None,
    },
    Entry {
        call: |l| calls::receiver_release(&mut l.buffers[COMPLETE], &mut l.store, l.reading),
        answer: 0,
        lent: &[COMPLETE],
        read: &[COMPLETE],
        named: None,
    },
    Entry {
        call: |l| {
            let from = l.origin();
            let [_, _, _, plan, _, _, record, ..] = &mut l.buffers;
            let (version, profile) = (l.version, l.profile);
            calls::sender_new(
                record, from, plan, MESSAGE, version, profile, NUMBER, l.reading,
            )
        },
        answer: 0,
        lent: &[OFFERING, PLAN],
        read: &[PLAN],
        named: Some(Named::Protocol),
    },
    Entry {
        call: |l| {
            let [.., record, _, answer] = &mut l.buffers;
            calls::sender_advance(record, l.reading, answer)
        },
        answer: layout::STATE,
        lent: &[OFFERING],
        read: &[OFFERING],
        named: None,
    },
    Entry {
        call: |l| {
            let [.., record, _, answer] = &mut l.buffers;
            calls::sender_cancel(record, l.reading, answer)
        },
        answer: layout::STATE,
        lent: &[OFFERING],
        read: &[OFFERING],
        named: None,
    },
    Entry {
        call: |l| {
            let [.., record, _, answer] = &mut l.buffers;
            calls::sender_submitted(record, NUMBER, 0, l.reading, l.reading, answer)
        },
        answer: layout::STATE,
        lent: &[OFFERING],
        read: &[OFFERING],
        named: None,
    },
    Entry {
        call: |l| {
            let [.., record, answer] = &mut l.buffers;
            calls::sender_accepted(record, NUMBER, 0, l.reading, answer)
        },
        answer: layout::STATE,
        lent: &[TAKEN],
        read: &[TAKEN],
        named: None,
    },
    Entry {
        call: |l| {
            let [.., record, answer] = &mut l.buffers;
            calls::sender_lower_failed(record, NUMBER, 0, l.failure, 0, l.reading, answer)
        },
        answer: layout::STATE,
        lent: &[TAKEN],
        read: &[TAKEN],
        named: Some(Named::Failure),
    },
    Entry {
        call: |l| {
            let from = l.origin();
            let [_, _, response, .., record, answer] = &mut l.buffers;
            calls::sender_receive_response(record, from, response, 0, l.reading, answer)
        },
        answer: layout::STATE,
        lent: &[TAKEN, RESPONSE],
        read: &[TAKEN, RESPONSE],
        named: Some(Named::Protocol),
    },
    Entry {
        call: |l| {
            let [.., record, _, answer] = &mut l.buffers;
            calls::sender_submission(record, answer)
        },
        answer: layout::SUBMISSION,
        lent: &[OFFERING],
        read: &[OFFERING],
        named: None,
    },
];

/// Octets of a buffer, each with a value that no value is spelled by: another layout version, tags that name no case, flags above 1, and
/// octets that have to be 0.
fn misspellings(buffer: usize) -> &'static [(usize, u8)] {
    match buffer {
        SEGMENT => &[(2, 3), (3, 2), (4, 1), (7, 2), (8, 6), (9, 3), (10, 1)],
        HEADS => &[(2, 3), (255 * layout::HEAD + 2, 3)],
        RESPONSE => &[(1, 14), (36, 2), (37, 1)],
        PLAN => &[(0, 0), (0, 2), (1, 2), (19, 6), (44, 2)],
        RECEIVER | COMPLETE => &[(0, 0), (0, 1), (11, 3), (24, 6), (25, 1), (27, 6), (42, 2)],
        _ => &[
            (0, 0),
            (0, 1),
            (11, 3),
            (23, 6),
            (27, 2),
            (149, 2),
            (174, 2),
        ],
    }
}

impl Lent {
    /// Buffers with which every entry that has a layout is done.
    fn right() -> Self {
        let last = AcknowledgmentWindow::Last;
        let mut response = vec![0; layout::RESPONSE];
        (response[0], response[3], response[11]) = (TRANSACTION, 1, 1);
        let mut lent = Self {
            buffers: [
                begin(TRANSACTION, None, window(last)).to_vec(),
                vec![0; layout::HEADS],
                response,
                filled(layout::PLAN),
                filled(layout::RECEIVER),
                filled(layout::RECEIVER),
                filled(layout::SENDER),
                filled(layout::SENDER),
                filled(layout::RECEPTION),
            ],
            store: filled(layout::STORE),
            output: filled(layout::STORE),
            window: last as u8,
            dialect: 0,
            protocol: 0,
            failure: 0,
            version: 1,
            profile: ONE.number,
            value: 5,
            reading: READING,
        };
        lent.make();
        lent
    }

    /// Makes plan, heads and machines by calls.
    fn make(&mut self) {
        let (from, window) = (self.origin(), self.window);
        let (version, profile) = (self.version, self.profile);
        let [
            segment,
            heads,
            _,
            plan,
            receiver,
            complete,
            offering,
            taken,
            _,
        ] = &mut self.buffers;
        let planned =
            calls::plan_message(MESSAGE, BUDGET, TRANSACTION, window, version, BUDGET, plan);
        let heads = heads.chunks_mut(layout::HEAD);
        let parts = (0..COUNT).zip(heads).map(|(index, head)| {
            let mut part = filled(layout::PART);
            let given = calls::plan_segment(plan, index, &mut part);
            head.copy_from_slice(&part[..layout::HEAD]);
            given
        });
        let parts: u32 = parts.sum();
        let new = calls::receiver_new(receiver, from, TRANSACTION, version, profile, 100, READING);
        complete.copy_from_slice(receiver);
        let last = end(TRANSACTION, 1, None, None);
        let received = [&segment[..], &last].map(|segment| {
            let (store, output) = (&mut filled(layout::STORE), &mut filled(layout::STORE));
            let answer = &mut filled(layout::RECEPTION);
            calls::receiver_receive(
                complete,
                store,
                output,
                from,
                segment,
                &[],
                0,
                READING,
                answer,
            )
        });
        let made = calls::sender_new(
            offering, from, plan, MESSAGE, version, profile, NUMBER, READING,
        );
        taken.copy_from_slice(offering);
        let mut state = filled(layout::STATE);
        let sent = calls::sender_submitted(taken, NUMBER, 0, READING, READING, &mut state);
        let received: u32 = received.iter().sum();
        assert_eq!([planned, parts, new, received, made, sent], [0; 6]);
    }

    fn origin(&self) -> Origin {
        Origin {
            kind: 0,
            width: 34,
            value: self.value,
            protocol: self.protocol,
            octet: 1,
        }
    }

    /// The same for an entry, whose answer is as long as its layout. RECEPTION is the longest.
    fn of(entry: &Entry) -> Self {
        let mut lent = Self::right();
        lent.buffers[ANSWER].truncate(entry.answer);
        lent
    }

    fn shorten(&mut self, buffer: usize) {
        self.buffers[buffer].pop();
    }

    fn name_none(&mut self, named: Named, above: u8) {
        match named {
            Named::Window => self.window = 6 + above,
            Named::Dialect => self.dialect = 2 + above,
            Named::Protocol => self.protocol = 3 + above,
            Named::Failure => self.failure = 3 + above,
        }
    }

    fn octets(&self) -> Vec<u8> {
        [
            self.buffers.concat(),
            self.store.clone(),
            self.output.clone(),
        ]
        .concat()
    }
}

/// Makes a call that has to give this refusal and to leave every octet.
fn refuses(g: &mut Group, entry: &Entry, mut lent: Lent, number: u32) {
    let before = lent.octets();
    let given = (entry.call)(&mut lent);
    g.case((given, difference(&lent.octets(), &before)), (number, None));
}

/// What the cases below change one thing of.
fn right(g: &mut Group) {
    for entry in &ENTRIES {
        g.case((entry.call)(&mut Lent::of(entry)), 0);
    }
}

fn short(g: &mut Group) {
    for entry in &ENTRIES {
        let answer = (entry.answer > 0).then_some(ANSWER);
        for buffer in entry.lent.iter().copied().chain(answer) {
            let mut lent = Lent::of(entry);
            lent.shorten(buffer);
            refuses(g, entry, lent, TOO_SHORT);
        }
    }
}

fn misspelled(g: &mut Group) {
    for entry in &ENTRIES {
        for buffer in entry.read {
            for (at, value) in misspellings(*buffer) {
                let mut lent = Lent::of(entry);
                lent.buffers[*buffer][*at] = *value;
                refuses(g, entry, lent, SPELLS_NONE);
            }
        }
    }
}

fn unnamed(g: &mut Group) {
    for entry in &ENTRIES {
        for above in [0, 249] {
            if let Some(named) = entry.named {
                let mut lent = Lent::of(entry);
                lent.name_none(named, above);
                refuses(g, entry, lent, NAMES_NONE);
            }
        }
    }
}

/// Faults on top of one another: document 01's, a number, the last buffer that is read, the last that is lent. The last fault is told.
fn order(g: &mut Group) {
    for entry in &ENTRIES {
        let mut lent = Lent::of(entry);
        (lent.version, lent.profile, lent.value, lent.reading) = (0, 0, 0, 0);
        if let Some(named) = entry.named {
            lent.name_none(named, 0);
            refuses(g, entry, lent.clone(), NAMES_NONE);
        }
        if let Some(buffer) = entry.read.last() {
            let (at, value) = misspellings(*buffer)[0];
            lent.buffers[*buffer][at] = value;
            refuses(g, entry, lent.clone(), SPELLS_NONE);
        }
        let answer = (entry.answer > 0).then_some(ANSWER);
        if let Some(buffer) = answer.or(entry.lent.last().copied()) {
            lent.shorten(buffer);
            refuses(g, entry, lent, TOO_SHORT);
        }
    }
}

pub fn corners(tally: &mut Tally) {
    tally.group("exports: buffers as long as their layouts", right);
    tally.group("exports: 256, each buffer one octet short", short);
    tally.group("exports: 257, octets that spell no value", misspelled);
    tally.group("exports: 258, numbers that name no case", unnamed);
    tally.group("exports: each test against the next", order);
    layouts::corners(tally);
}
