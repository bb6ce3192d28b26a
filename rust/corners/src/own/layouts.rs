//! Records of the layouts before the profile (2026-11), and of layout versions that there are not yet: 256 where the buffer is as long as the record
//! was, else 257, from every entry that reads one but for the train's, which is in `receiver::one_call`. A record of neither profile is spelled, and
//! gives 62.

use super::*;
use crate::octets::{FILL, refusal};
use crate::profiles::{IN_RECEIVER, IN_SENDER, NEITHER, RECEIVER_BEFORE, SENDER_BEFORE, before};

/// The machines' records: where the profile stands in each, and how many octets it had without.
const MACHINES: [(usize, usize, usize); 4] = [
    (RECEIVER, IN_RECEIVER, RECEIVER_BEFORE),
    (COMPLETE, IN_RECEIVER, RECEIVER_BEFORE),
    (OFFERING, IN_SENDER, SENDER_BEFORE),
    (TAKEN, IN_SENDER, SENDER_BEFORE),
];

/// Each entry that reads a machine's record, with that record.
fn each(mut cases: impl FnMut(&Entry, (usize, usize, usize))) {
    for entry in &ENTRIES {
        for machine in MACHINES {
            if entry.read.contains(&machine.0) {
                cases(entry, machine);
            }
        }
    }
}

/// A record without a profile: as long as it was, and in buffers that are longer by one octet and by more, which are A5 or 0.
fn without_profile(g: &mut Group) {
    each(|entry, (buffer, profile_at, octets)| {
        let right = Lent::of(entry);
        let record = before(&right.buffers[buffer], profile_at);
        assert_eq!(record.len(), octets);
        for (longer, fill, number) in [
            (0, FILL, TOO_SHORT),
            (1, FILL, SPELLS_NONE),
            (16, FILL, SPELLS_NONE),
            (1, 0, SPELLS_NONE),
            (16, 0, SPELLS_NONE),
        ] {
            let mut lent = right.clone();
            lent.buffers[buffer].clone_from(&record);
            lent.buffers[buffer].resize(octets + longer, fill);
            refuses(g, entry, lent, number);
        }
    });
}

/// Another layout version, in a buffer that is as long as the record and in one that is shorter.
fn versions(g: &mut Group) {
    each(|entry, (buffer, _, octets)| {
        for version in [0, 1, 3, 255] {
            let mut lent = Lent::of(entry);
            lent.buffers[buffer][0] = version;
            refuses(g, entry, lent.clone(), SPELLS_NONE);
            lent.buffers[buffer].truncate(octets);
            refuses(g, entry, lent, TOO_SHORT);
        }
    });
}

/// A profile of neither is 62 and not 257. submission, which has no 62, answers.
fn profiles(g: &mut Group) {
    each(|entry, (buffer, profile_at, _)| {
        for profile in NEITHER {
            let mut lent = Lent::of(entry);
            lent.buffers[buffer][profile_at] = profile;
            if entry.answer == layout::SUBMISSION {
                g.case((entry.call)(&mut lent), 0);
            } else {
                refuses(g, entry, lent, refusal(62, 0));
            }
        }
    });
}

pub fn corners(tally: &mut Tally) {
    let title = "profiles: exports, records without a profile";
    tally.group(title, without_profile);
    tally.group("profiles: exports, other layout versions", versions);
    let title = "profiles: exports, 62 and not 257 for a profile of neither";
    tally.group(title, profiles);
}
