//! Receivers under each profile of document 02 (2026-11): making them, how long they wait, records of neither profile, and that the profile stays.

mod kept;
mod making;
mod neither;
mod timing;

use super::bench::run;
use super::rows::*;
use crate::profiles::{BOTH, Profile};
use crate::tally::{Group, Tally};

/// When the first segment is received.
const AT: u64 = 1_000;

/// Windows under which a reception expires, and windows under which what is missing is asked for.
const SILENT: [Services; 2] = [PLAIN, PROHIBITED];
const ASKING: [Services; 5] = [EVERY4, EVERY8, EVERY16, LAST, EXCEPTIONS];

/// The deadline that a segment sets.
fn deadline(profile: Profile, reading: u64) -> u64 {
    reading + profile.receiver
}

/// Runs the rows on a new receiver of each profile.
fn each_profile<const N: usize>(g: &mut Group, rows: impl Fn(Profile) -> [Row; N]) {
    for profile in BOTH {
        run(g, &[&[&[under(profile)], &rows(profile)[..]].concat()]);
    }
}

pub fn corners(tally: &mut Tally) {
    making::corners(tally);
    timing::corners(tally);
    kept::corners(tally);
    neither::corners(tally);
}
