//! 62: a record of neither profile, in every call that can refuse, before 33. submission has no 62 and answers as before.

use super::super::impossible::each_call;
use super::*;
use crate::octets::{at_front, filled, head};
use crate::profiles::{NEITHER, all_neither};
use catkhize::{calls, layout};

/// A sender in each state, with the ticket of what it offers.
fn states(u: Under) -> [(Sender, Option<u8>); 12] {
    let all = u.all_accepted();
    [
        (u.first_offered(), Some(0)),
        (u.first_awaited(), None),
        (u.second_offered(), Some(1)),
        (u.third_offered(), Some(2)),
        (u.third_awaited(), None),
        (all, None),
        (all.closed(LOWER_LAYER_ACCEPTED), None),
        (all.closed(PEER_RECEIVED), None),
        (all.closed(EXCEPTION_INTERVAL_ELAPSED), None),
        (all.closed(SEGMENT_INTERVAL), None),
        (all.closed(peer_failed(Aborted)), None),
        (all.closed(CANCELLED), None),
    ]
}

/// Each of them is possible as it is.
fn each_state(g: &mut Group) {
    for u in each([Prohibited, Every4, Exceptions]) {
        for (s, _) in states(u) {
            g.case(s.advance(Q3).given, 0);
            each_call(g, NEITHER.map(|profile| s.with_profile(profile)));
        }
    }
}

fn every_number(g: &mut Group) {
    for profile in all_neither() {
        let senders = [first_offered(Every4), first_awaited(Every4)];
        each_call(g, senders.map(|s| s.with_profile(profile)));
    }
}

/// SUBMISSION of an offer whose ticket is also its index: number, ticket, index, HEAD, offset.
fn submission(window: AcknowledgmentWindow, ticket: u8) -> Vec<u8> {
    let segments = segments(window);
    let (before, from) = segments.split_at(ticket.into());
    let (segment, data) = from[0];
    let offset: u64 = before.iter().map(|(_, data)| data).sum();
    let mut octets = OWN.to_be_bytes().to_vec();
    octets.extend(u64::from(ticket).to_be_bytes());
    octets.push(ticket);
    octets.extend(head(segment, data));
    octets.extend(offset.to_be_bytes());
    octets
}

/// What is offered is answered under neither profile too; where nothing is, the answer stays as it was.
fn submissions(g: &mut Group) {
    for u in each([Prohibited, Every4, Exceptions]) {
        let Under(own, window) = u;
        for (s, ticket) in states(u) {
            let number = u32::from(ticket.is_none());
            let offer = ticket.map_or(Vec::new(), |ticket| submission(window, ticket));
            let wanted = at_front(&offer, layout::SUBMISSION);
            for profile in NEITHER.into_iter().chain([own.number]) {
                let mut answer = filled(layout::SUBMISSION);
                let record = s.with_profile(profile).0;
                let given = calls::sender_submission(&record, &mut answer);
                g.case((given, &answer), (number, &wanted));
            }
        }
    }
}

pub fn corners(tally: &mut Tally) {
    tally.group("profiles: senders, 62 in each state and call", each_state);
    tally.group("profiles: senders, 62 for every other number", every_number);
    let title = "profiles: senders, submission of a record of neither";
    tally.group(title, submissions);
}
