//! Trains in one call under each profile of document 02 (2026-11): the deadline, 34, and records of neither profile.

use super::*;
use crate::profiles::{BOTH, IN_RECEIVER, NEITHER, Profile, RECEIVER_BEFORE, before};

/// A Begin, silent or under a window that asks for what is missing, and the segments behind it.
const BEGINS: [(&str, Services); 2] = [(BEGIN, PLAIN), (BEGIN_LAST, LAST)];
const BEHIND: [&str; 2] = [LATER_1, "15 02 01 63"];
const MESSAGE: &str = "61 62 63";

/// A receiver that has the Begin.
fn begun<'a>(g: &'a mut Group, p: Profile, first: (&str, Services), at: u64) -> Bench<'a> {
    let (octets, services) = first;
    let mut b = Bench::under(g, p.number, 5);
    let rows = [begin(services, 1, at).holds()];
    b.gives(train(&[octets]).at(at), 0, 1, &rows, "");
    b
}

/// The segments behind the Begin hand the message over.
fn hands_over(b: &mut Bench, services: Services, at: u64) {
    let entries = if services == LAST { 3 } else { 0 };
    let last = end(2, 1, at).hands_over().map(entries, 0b111);
    let rows = [later(1, 1, at).holds(), last];
    b.gives(train(&BEHIND).at(at), 0, 2, &rows, MESSAGE);
}

/// A train at the deadline is taken. Past it the first segment gets 38, and the reception has expired, or 37, and nothing changes.
fn deadlines(g: &mut Group) {
    for p in BOTH {
        for first in BEGINS {
            let services = first.1;
            let d = AT + p.receiver;
            for at in [AT, d - 1, d] {
                let mut b = begun(g, p, first, AT);
                hands_over(&mut b, services, at);
            }
            for at in [d + 1, d + 900_000] {
                let mut b = begun(g, p, first, AT);
                let late = train(&BEHIND).at(at);
                if services == PLAIN {
                    let rows = [later(1, 1, at).expires()];
                    b.gives(late, refusal(38, 0), 0, &rows, "");
                    b.gives(late, refusal(38, 0), 0, &[], "");
                } else {
                    b.gives(late, refusal(37, 0), 0, &[], "");
                    hands_over(&mut b, services, d);
                }
            }
        }
    }
}

/// Each segment of a train sets the deadline, a repeat too.
fn moved(g: &mut Group) {
    for p in BOTH {
        for first in BEGINS {
            let (octets, services) = first;
            let (at, next) = (AT + p.receiver, AT + 2 * p.receiver);
            let mut b = begun(g, p, first, AT);
            let rows = [begin(services, 1, at).repeats(), later(1, 1, at).holds()];
            b.gives(train(&[octets, LATER_1]).at(at), 0, 2, &rows, "");
            let rows = [later(1, 1, next).repeats()];
            b.gives(train(&[LATER_1]).at(next), 0, 1, &rows, "");
            let past = next + p.receiver + 1;
            let segments = [octets, BEHIND[1]];
            let late = train(&segments).at(past);
            if services == PLAIN {
                let rows = [begin(services, 1, past).expires()];
                b.gives(late, refusal(38, 0), 0, &rows, "");
            } else {
                b.gives(late, refusal(37, 0), 0, &[], "");
            }
        }
    }
}

/// 34: at the last reading from which a deadline can be set, and one past it, by a Begin, by what follows it and after Complete.
fn last_readings(g: &mut Group) {
    let overflow = refusal(34, 0);
    for p in BOTH {
        let latest = p.latest_received();
        for first in BEGINS {
            let (octets, services) = first;
            let entries = if services == LAST { 3 } else { 0 };
            let mut b = Bench::under(g, p.number, 5);
            let whole = [octets, BEHIND[0], BEHIND[1]];
            b.gives(train(&whole).at(latest + 1), overflow, 0, &[], "");
            b.gives(train(&whole).at(u64::MAX), overflow, 0, &[], "");
            let mut b = begun(g, p, first, latest);
            b.gives(train(&BEHIND).at(latest + 1), overflow, 0, &[], "");
            b.gives(train(&whole).at(latest + 1), overflow, 0, &[], "");
            hands_over(&mut b, services, latest);
            b.gives(train(&whole).at(latest + 1), overflow, 0, &[], "");
            let again = [begin(services, 1, latest).repeats().map(entries, 0b111)];
            b.gives(train(&whole[..1]).at(latest), 0, 1, &again, "");
        }
        for at in BOTH.map(Profile::latest_received) {
            let mut b = Bench::under(g, p.number, 5);
            if at > latest {
                b.gives(train(&[BEGIN]).at(at), overflow, 0, &[], "");
            } else {
                let rows = [begin(PLAIN, 1, at).holds()];
                b.gives(train(&[BEGIN]).at(at), 0, 1, &rows, "");
            }
        }
    }
}

/// The record's profile is set by hand.
fn set_profile(b: &mut Bench, profile: u8) {
    b.record.profile = profile;
    b.lent.record = at_front(&b.record.octets(), b.lent.record.len());
}

/// A record of neither profile: 62 at the first segment, none of them received. 256 to 258, decoding, 60 and 61 come before it, 33 behind it; a train
/// of no segments asks for nothing.
fn neither(g: &mut Group) {
    let impossible = refusal(62, 0);
    for p in BOTH {
        for neither in NEITHER {
            let mut b = begun(g, p, BEGINS[1], AT);
            set_profile(&mut b, neither);
            let t = train(&BEHIND);
            for at in [AT, AT - 1, 0, AT + p.receiver + 1, u64::MAX] {
                b.gives(t.at(at), impossible, 0, &[], "");
            }
            b.gives(t.protocol(2), impossible, 0, &[], "");
            b.gives(train(&["0e 01 01 62"]), impossible, 0, &[], "");
            b.gives(train(&["0d 01 01 62 ff"]), impossible, 0, &[], "");
            b.gives(t.store(layout::STORE - 1), refusal(60, 0), 0, &[], "");
            b.gives(t.output(MAXIMUM - 1), refusal(61, 0), 0, &[], "");
            b.gives(train(&["45 01 01 62"]), refusal(3, 0), 0, &[], "");
            b.gives(train(&[]), 0, 0, &[], "");
            b.refuses(t.protocol(3), Refusal::NUMBER_NAMES_NONE);
            b.refuses(t.answer(layout::TRAIN - 1), Refusal::BUFFER_TOO_SHORT);
            set_profile(&mut b, p.number);
            hands_over(&mut b, LAST, AT);
        }
    }
}

/// The layouts before: a record without the profile, as long as it was and in a longer buffer, and other layout versions.
fn other_layouts(g: &mut Group) {
    let (short, none) = (Refusal::BUFFER_TOO_SHORT, Refusal::BUFFER_SPELLS_NONE);
    let t = train(&BEHIND);
    for p in BOTH {
        let mut b = begun(g, p, BEGINS[0], AT);
        let whole = b.lent.clone();
        b.lent.record = before(&whole.record, IN_RECEIVER);
        b.refuses(t.record(RECEIVER_BEFORE), short);
        b.refuses(t, none);
        for version in [0, 1, 3, 255] {
            b.lent = whole.clone();
            b.lent.record[0] = version;
            b.refuses(t.record(RECEIVER_BEFORE), short);
            b.refuses(t, none);
        }
        b.lent = whole;
        hands_over(&mut b, PLAIN, AT);
    }
}

pub fn corners(tally: &mut Tally) {
    tally.group("profiles: trains, at and past the deadline", deadlines);
    tally.group("profiles: trains that move the deadline", moved);
    tally.group("profiles: trains, 34 at the last readings", last_readings);
    tally.group("profiles: trains, 62 of a record of neither", neither);
    let title = "profiles: trains, records of other layouts";
    tally.group(title, other_layouts);
}
