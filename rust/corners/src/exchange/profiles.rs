//! Trains under each profile of document 02 (2026-11), from a sender to a receiver, and pauses in them: each machine waits for its own interval.

use super::*;
use crate::octets::{refusal, train};
use crate::profiles::{BOTH, TWO};
use crate::sender::bench::SEGMENT_INTERVAL;
use catkhize::AcknowledgmentWindow::{Every4, Every8, Every16};

/// 14 octets at a budget of 9 make three segments, and the Begin states the length.
const OCTETS: usize = 14;
const BUDGET: u64 = 9;

/// The pause of the last group.
const PAUSE: u64 = 200_000;

/// The plan of a message.
fn plan_of(message: &[u8], asked: AcknowledgmentWindow) -> Plan {
    let mut plan = Plan::UNWRITTEN;
    let (window, record) = (asked as u8, &mut plan.0);
    calls::plan_message(
        message,
        BUDGET,
        TRANSACTION,
        window,
        VERSION,
        BUDGET,
        record,
    );
    plan
}

impl<'a> Exchange<'a> {
    /// A train by plan_message, or a frozen one under Exceptions; sender and receiver under a profile each.
    fn under(
        group: &'a mut Group,
        by: By,
        asked: AcknowledgmentWindow,
        profiles: [Profile; 2],
    ) -> Self {
        let message = pattern(OCTETS, SEED);
        let data = match asked {
            Prohibited => [4, 6, 4],
            _ => [2, 6, 6],
        };
        let heads = train(TRANSACTION, Some(OCTETS as u16), asked, &data);
        let plan = match asked {
            Exceptions => frozen_of(&heads, &message, BUDGET),
            _ => plan_of(&message, asked),
        };
        let planned = Planned {
            asked,
            heads,
            message,
            plan,
        };
        Self::of(group, by, planned, OCTETS, profiles)
    }

    /// A segment comes past the receiver's deadline: 38 under Prohibited, and the reception has expired; else 37, and nothing changes.
    fn comes_late(&mut self, index: usize, reading: u64) {
        let call = self.call(index, reading);
        let (row, n) = match self.asked {
            Prohibited => (call.expires(), 38),
            _ => (call.refused(37), 37),
        };
        let mut wanted = self.lent.clone();
        self.leave(&mut wanted, index, row);
        let (given, answer) = match self.by {
            Singly => {
                let segment = self.heads[index].0;
                (self.receive(index, &segment, reading), Vec::new())
            }
            Train => {
                let given = self.receive_train(&[index], reading);
                (given, vec![0; layout::TRAIN])
            }
        };
        wanted.answer = at_front(&answer, wanted.answer.len());
        self.compare(given, refusal(n, 0), wanted);
    }

    /// Nothing more comes: under Prohibited the reception expires at the receiver's deadline.
    fn lapses(&mut self, deadline: u64) {
        self.due(deadline, Outcome::Lapses, None);
    }

    /// The sender under Prohibited is late with what it offers: it has failed, and 44.
    fn sends_late(&mut self, ticket: u64, reading: u64) {
        let late = self.sent.sender.submitted(OWN, ticket, reading, reading);
        let failed = ended(SEGMENT_INTERVAL, self.submissions);
        case(self.group, late, failed.refused(44));
    }

    /// A due advance of the sender under another window leaves what it offers, without a deadline.
    fn advances(&mut self, reading: u64) {
        self.sent = self.sent.sender.advance(reading);
        self.deadline = None;
    }

    /// The receiver asks at its deadline for what is behind the Begin, and the sender hears of it then.
    fn asks_for_more(&mut self, deadline: u64) {
        let map = Map {
            entries: 2,
            marks: [0b1, 0, 0, 0],
            lists: false,
        };
        let response = self.asks(deadline, map);
        self.hears(response, deadline);
        self.deadline = self.deadline.filter(|own| deadline < *own);
    }
}

/// The pairs of profiles: the sender's, the receiver's.
fn pairs() -> impl Iterator<Item = [Profile; 2]> {
    let pairs = |sender| BOTH.map(|receiver| [sender, receiver]);
    BOTH.into_iter().flat_map(pairs)
}

/// All segments arrive in order, and the Begin once more.
fn whole(g: &mut Group, by: By) {
    for profiles in pairs() {
        for asked in WINDOWS {
            let mut e = Exchange::under(g, by, asked, profiles);
            arrive(&mut e, &[0, 1, 2], SENT);
        }
    }
}

/// The Begin arrives, and nothing is sent for some time.
fn begun<'a>(
    g: &'a mut Group,
    by: By,
    asked: AcknowledgmentWindow,
    profiles: [Profile; 2],
) -> Exchange<'a> {
    let mut e = Exchange::under(g, by, asked, profiles);
    e.sends(0, SENT);
    e.takes(&[0], SENT, Call::holds);
    e
}

/// Under Prohibited a sender that is late has failed, and a receiver to which a segment comes late has expired.
fn paused_silent(g: &mut Group, by: By, profiles: [Profile; 2], pause: u64) {
    let [sender, receiver] = profiles;
    let at = SENT + pause;
    let mut e = begun(g, by, Prohibited, profiles);
    if pause >= sender.sender {
        e.sends_late(1, at);
        e.lapses(SENT + receiver.receiver);
    } else if pause > receiver.receiver {
        e.sends_all(&[1, 2], at);
        e.comes_late(1, at);
    } else {
        arrive(&mut e, &[1, 2], at);
    }
}

/// Under another window a receiver to which a segment comes late asks at its deadline, a sender that is late offers again, and the train arrives.
fn paused_asking(
    g: &mut Group,
    by: By,
    asked: AcknowledgmentWindow,
    profiles: [Profile; 2],
    pause: u64,
) {
    let [sender, receiver] = profiles;
    let at = SENT + pause;
    let mut e = begun(g, by, asked, profiles);
    if pause > receiver.receiver {
        e.comes_late(1, at);
        e.asks_for_more(SENT + receiver.receiver);
    }
    if pause >= sender.sender {
        e.advances(at);
    }
    arrive(&mut e, &[1, 2], at);
}

/// Pauses up to and past each interval of either machine.
fn pauses(g: &mut Group, by: By) {
    for profiles in pairs() {
        let [sender, receiver] = profiles;
        for pause in [
            1,
            receiver.receiver,
            receiver.receiver + 1,
            sender.sender - 1,
            sender.sender,
            sender.sender + 1,
        ] {
            paused_silent(g, by, profiles, pause);
            for asked in [Every4, Every8, Every16, Last, Exceptions] {
                paused_asking(g, by, asked, profiles, pause);
            }
        }
    }
}

/// 200 s between the Begin and the next segment: under Prohibited a train of profile 1 arrives, and one of profile 2 does not.
fn long_pause(g: &mut Group) {
    for by in [Singly, Train] {
        let at = SENT + PAUSE;
        let mut e = begun(g, by, Prohibited, [ONE, ONE]);
        arrive(&mut e, &[1, 2], at);

        let mut e = begun(g, by, Prohibited, [TWO, TWO]);
        e.sends_late(1, at);
        e.comes_late(1, at);

        let mut e = begun(g, by, Last, [ONE, ONE]);
        arrive(&mut e, &[1, 2], at);

        let mut e = begun(g, by, Last, [TWO, TWO]);
        e.comes_late(1, at);
    }
}

pub fn corners(tally: &mut Tally) {
    let title = "profiles: exchanges, whole trains, segment by segment";
    tally.group(title, |g| whole(g, Singly));
    let title = "profiles: exchanges, whole trains, in one call";
    tally.group(title, |g| whole(g, Train));
    let title = "profiles: exchanges, pauses up to and past each interval, segment by segment";
    tally.group(title, |g| pauses(g, Singly));
    let title = "profiles: exchanges, pauses up to and past each interval, in one call";
    tally.group(title, |g| pauses(g, Train));
    tally.group("profiles: exchanges, a pause of 200 s", long_pause);
}
