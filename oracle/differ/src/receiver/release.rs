//! Release, which the original has not. Any list of calls may end in one: it is made behind a call, on copies, and judged by document 02's
//! words (2026-07) from the record's octets alone. The list itself then goes on without it. On what a release leaves that call is made
//! once more, and has to do what the original's receiver with those fields does.

use super::{Port, any_place};
use crate::profiles::{self, IN_RECEIVER};
use crate::spells;
use crate::table::{
    Area, CLOCK_AND_CLOSED, FULL_RELEASED, IMPOSSIBLE_AND_CLOCK, LAST_RELEASED, LONG_RELEASED,
    NEITHER_RELEASE, RELEASED, SHORT_AND_IMPOSSIBLE, Table,
};
use crate::watch::{Case, Checked, by_document_02, same, same_given};
use catkhize::{calls, layout};
use record::make::receiver_run::REASSEMBLY_MS;
use record::octets::{Put, Take};
use record::play::receiver::OPEN;
use record::random::Random;

/// The probe: the release's reading, a change of the record, the lengths of the buffers, then the call that it comes behind.
pub const RELEASE: u8 = 0x85;

/// The areas of releases, and of calls on released receivers.
const RELEASES: &str = "release";
const AFTER: &str = "receivers released";

/// One release for about so many calls.
const CALLS: usize = 3;

/// Where a record has its state, the octets stored and the deadline, its last reading (behind the deadline's flag and number), and all that
/// is said of slots.
const STATE: usize = layout::receiver::STATE;
const STORED: usize = layout::receiver::STORED_OCTETS;
const LAST_READING: usize = layout::receiver::DEADLINE + 1 + 8;
const SLOTS: usize = LAST_READING + 8;

const COMPLETE: u8 = 2;
const CANCELED: [u8; 2] = [5, 0];

fn number(record: &[u8], at: usize) -> u64 {
    Take(&record[at..]).take64()
}

pub fn last_reading(record: &[u8]) -> u64 {
    number(record, LAST_READING)
}

/// What there is to refuse a release for, in document 02's order: 60, 62, 33, 38.
fn reasons(record: &[u8], store: usize, reading: u64) -> [bool; 4] {
    [
        store < layout::STORE,
        spells::receiver_impossible(record),
        reading < last_reading(record),
        record[STATE] != COMPLETE,
    ]
}

/// The number that a release gives, the exports' own refusals first.
fn gives(record: &[u8], store: usize, reading: u64) -> u32 {
    if record.len() < layout::RECEIVER {
        return 256 * spells::TOO_SHORT;
    }
    if !spells::receiver(record) {
        return 256 * spells::SPELLS_NONE;
    }
    let reasons = reasons(record, store, reading).into_iter();
    let mut refusals = reasons.zip([60, 62, 33, 38]);
    refusals.find(|(due, _)| *due).map_or(0, |(_, n)| 256 * n)
}

/// The record that a release leaves: Canceled, no octet stored, no deadline, its reading, and no slot held.
fn left(record: &[u8], reading: u64) -> Vec<u8> {
    let mut left = record.to_vec();
    left[STATE..STATE + 2].copy_from_slice(&CANCELED);
    left[STORED..LAST_READING].fill(0);
    left[LAST_READING..SLOTS].copy_from_slice(&reading.to_be_bytes());
    left[SLOTS..layout::RECEIVER].fill(0);
    left
}

/// What a run has to see of releases.
fn seen(record: &[u8], store: usize, reading: u64, area: &mut Area) {
    let [short, impossible, early, closed] = reasons(record, store, reading);
    let done = !(short || impossible || early || closed);
    let neither = !profiles::known(record[IN_RECEIVER]);
    if !(short || impossible || early) {
        area.state([record[STATE], record[STATE + 1], 0, 0]);
    }
    for (seen, name) in [
        (short && impossible, SHORT_AND_IMPOSSIBLE),
        (impossible && early, IMPOSSIBLE_AND_CLOCK),
        (early && closed, CLOCK_AND_CLOSED),
        (neither && !short, NEITHER_RELEASE),
        (done, RELEASED),
        (done && store > layout::STORE, LONG_RELEASED),
        (done && reading == u64::MAX, LAST_RELEASED),
        (done && is_full(record), FULL_RELEASED),
    ] {
        if seen {
            area.input(name);
        }
    }
}

/// A message of 65,280 octets has been handed over.
fn is_full(record: &[u8]) -> bool {
    record[STATE] == COMPLETE && number(record, STORED) == layout::STORE as u64
}

/// A release to make behind a call, now and then, and always behind a full train.
pub fn any(random: &mut Random, record: &[u8], behind: &Case) -> Option<Case> {
    let full = is_full(record);
    if !full && !random.once_in(CALLS) {
        return None;
    }
    let last = last_reading(record);
    let reading = match random.below(9) {
        0 => last.saturating_sub(1),
        1 => random.next() % last.max(1),
        2 => last.saturating_add(1),
        3 => last.saturating_add(REASSEMBLY_MS + 1),
        4 => u64::MAX,
        _ => last,
    };
    let place = any_place(random) as u64 + 1;
    let values = random.pick(&[4, 256]);
    let change = place << 8 | random.below(values) as u64;
    let change = if random.once_in(3) { change } else { 0 };
    let lengths = random.below(20) as u64;
    let numbers = if full {
        [reading.max(last), 0, 0]
    } else {
        [reading, change, lengths]
    };
    let mut input = Vec::new();
    for number in numbers {
        input.put64(number);
    }
    input.put8(behind.op);
    input.put_all(&behind.input);
    Some(Case { op: RELEASE, input })
}

impl Port {
    /// Makes a release, and where it is done the call once more, then puts record and store back.
    pub fn release(&mut self, numbers: (u64, u64, u64), then: &Case, table: &mut Table) -> Checked {
        let (record, store) = (self.record.clone(), self.store.clone());
        let checked = self.released(numbers, then, table);
        (self.record, self.store) = (record, store);
        checked
    }

    fn released(
        &mut self,
        (reading, change, lengths): (u64, u64, u64),
        then: &Case,
        table: &mut Table,
    ) -> Checked {
        if let Some(place) = (change >> 8).checked_sub(1) {
            self.record[place as usize % layout::RECEIVER] = change as u8;
        }
        let (record, store) = match lengths {
            1 => (self.record.len(), layout::STORE - 1),
            2 => (self.record.len(), 0),
            3 => (layout::RECEIVER - 1, self.store.len()),
            4 => (0, 0),
            5 => (layout::RECEIVER, layout::STORE),
            _ => (self.record.len(), self.store.len()),
        };
        let expected = gives(&self.record[..record], store, reading);
        let area = table.area(RELEASES);
        if record >= layout::RECEIVER && spells::receiver(&self.record) {
            seen(&self.record, store, reading, area);
        }
        let (mut expected_record, mut expected_store) = (self.record.clone(), self.store.clone());
        if expected == 0 {
            expected_record = left(&expected_record, reading);
            expected_store[..layout::STORE].fill(0);
        }
        let lent = (&mut self.record[..record], &mut self.store[..store]);
        let found = calls::receiver_release(lent.0, lent.1, reading);
        area.count(found);
        let judged = |what: String| format!("release: {}", by_document_02(what));
        same_given(found, expected).map_err(judged)?;
        same("record", &self.record, &expected_record).map_err(judged)?;
        same("store", &self.store, &expected_store).map_err(judged)?;
        if expected == 0 && then.op != OPEN {
            let after = |what| format!("after a release: {what}");
            return self.made_up(then, table.area(AFTER)).map_err(after);
        }
        Ok(())
    }
}
