//! Senders under each profile, to their end, and each call; the profile is the one that the sender was made with, after every call.

use super::super::exceptions::calls;
use super::*;
use crate::dialects::WINDOWS;
use crate::profiles::IN_SENDER;

/// Where peer, service, version, profile and number end in a record.
const TERMS: usize = 23;

fn to_the_end(g: &mut Group) {
    for u in each(WINDOWS) {
        let Under(profile, window) = u;
        let made = try_new_under(profile.number, &plan_under(window), &MESSAGE, MADE);
        drive_until(g, made, &segments(window), window, u.after(Q1));
    }
}

fn each_call(g: &mut Group) {
    for u in each([Exceptions]) {
        cases(g, calls(u.first_offered(), u.0.sender));
    }
}

/// Calls of every outcome, of which some are refused.
fn kept(g: &mut Group) {
    for u in each(WINDOWS) {
        let first = u.first_offered();
        let terms = first.0[..TERMS].to_vec();
        for (sent, _) in calls(first, u.0.sender) {
            let after = &sent.sender.0;
            let given = (after[IN_SENDER], after[..TERMS].to_vec());
            g.case(given, (u.0.number, terms.clone()));
        }
    }
}

pub fn corners(tally: &mut Tally) {
    tally.group("profiles: senders, to their end", to_the_end);
    let title = "profiles: senders, each call under Exceptions";
    tally.group(title, each_call);
    tally.group("profiles: senders, the profile after each call", kept);
}
