//! Senders: every call, with every octet of the record, and what is offered.

use crate::buffers::{FORM, PLANNED, WINDOW};
use crate::dialects;
use crate::even;
use crate::exceptions;
use crate::made_up;
use crate::plans::{port_frozen, port_plan};
use crate::profiles::{self, IN_SENDER, Making, NEITHER};
use crate::spell::{self, FILLING, SENDER_PLAN, Tickets, filled};
use crate::spells;
use crate::table::{
    Area, CONVERTED_SENDERS, EVEN_SENDER, EXCEPTIONS_KEPT, EXCEPTIONS_PLANNED, EXCEPTIONS_SENDER,
    FROZEN_SENDER, FULL_MAP, FULL_SENDER, LATE_SUBMISSION, MADE, NEITHER_ACCEPTED, NEITHER_ADVANCE,
    NEITHER_AND_CLOCK, NEITHER_CANCEL, NEITHER_LOWER_FAILED, NEITHER_PLANNER, NEITHER_RESPONSE,
    NEITHER_SUBMITTED, OTHER_PLANNER, Table,
};
use crate::watch::{Case, Checked, Checker, by_document_02, given, same, same_given};
use bts136::l3::broadcast::ProtocolVersion;
use bts136::l3::relay::set_ceiling;
use bts136::l3::tsar::{MessagePlan, Segment, SegmentedMessage, plan_message};
use bts136::link::tsar::{LowerLayerFailure, Sender, SenderFailure, SenderState, Submission};
use catkhize::calls::{self, Origin};
use catkhize::layout;
use record::fields::{EXCEPTIONS, take_head};
use record::make::sender_run::LAST_QUEUED;
use record::octets::{Put, Take, pattern};
use record::play::plan::{Frozen, Wanted};
use record::play::sender::{
    ACCEPTED, ADVANCE, CANCEL, LOWER_FAILED, OPEN, OPEN_FROZEN, Open, Opening, RESPONSE, Reply,
    SUBMITTED, Sending,
};
use record::profiles::PROFILE;
use record::random::Random;

/// Probes: the call where tickets are nearly used up, where submissions are, on a record with octets changed, with buffers that are too
/// short or numbers that name no case; and try_new with a plan that was changed.
const TICKETS: u8 = 0x80;
const COUNTER: u8 = 0x81;
const DAMAGED: u8 = 0x82;
const BUFFERS: u8 = 0x83;
const PLAN: u8 = 0x84;

/// The area of calls on records that no list of calls reached, or that one did.
const MADE_UP: &str = "senders made up";
/// How many submissions a made-up sender is said to have made: more than any list names.
const MADE_BEFORE: u64 = 1 << 40;

/// The last octet of a planned plan's later capacity, which no list has above 255.
const LATER_CAPACITY: u64 = crate::buffers::LATER_CAPACITY as u64 + 7;

/// Where a record has its last ticket and, behind the deadline's flag and number, its last reading.
const LAST_TICKET: usize = 45;
const LAST_READING: usize = layout::sender::DEADLINE + 1 + 8;
const SUBMISSIONS: usize = layout::sender::SUBMISSIONS;

/// The port's sender, with what never changes of it.
struct Port {
    origin: Origin,
    opening: Opening,
    number: u64,
    record: Vec<u8>,
    plan: Vec<u8>,
    message: Vec<u8>,
    /// Where each segment's data begin in the message.
    offsets: Vec<usize>,
}

#[derive(Default)]
pub struct Senders {
    port: Option<Port>,
}

/// What a probe changes of a call beside the record.
#[derive(Default)]
struct Wrong {
    response_octets: Option<usize>,
    /// An octet of the response, and what it becomes.
    response: Option<(usize, u8)>,
    protocol: Option<u8>,
    failure: Option<u8>,
}

fn response(reply: &Reply) -> Vec<u8> {
    let mut out = vec![reply.transaction, reply.status];
    out.put16(reply.entries);
    for word in reply.map.chunks(8) {
        let octets = word.try_into().expect("eight octets");
        out.put64(u64::from_le_bytes(octets));
    }
    record::fields::put_support(&mut out, reply.support);
    out
}

/// Makes the call of a case on the port.
fn call(case: &Case, number: u64, record: &mut [u8], answer: &mut [u8], wrong: &Wrong) -> u32 {
    let mut take = Take(&case.input);
    let token = |take: &mut Take| {
        let ticket = take.take64();
        let foreign = take.flag();
        (number ^ u64::from(foreign), ticket)
    };
    match case.op {
        ADVANCE => calls::sender_advance(record, take.take64(), answer),
        CANCEL => calls::sender_cancel(record, take.take64(), answer),
        SUBMITTED => {
            let (number, ticket) = token(&mut take);
            let (queued, observed) = (take.take64(), take.take64());
            calls::sender_submitted(record, number, ticket, queued, observed, answer)
        }
        ACCEPTED => {
            let (number, ticket) = token(&mut take);
            calls::sender_accepted(record, number, ticket, take.take64(), answer)
        }
        LOWER_FAILED => {
            let (number, ticket) = token(&mut take);
            let (failure, cause) = (take.take8(), take.take8());
            let failure = wrong.failure.unwrap_or(failure);
            let reading = take.take64();
            calls::sender_lower_failed(record, number, ticket, failure, cause, reading, answer)
        }
        RESPONSE => {
            let reply = Reply::take(&mut take);
            let mut origin = spell::origin(reply.peer, reply.protocol);
            origin.protocol = wrong.protocol.unwrap_or(origin.protocol);
            let mut response = response(&reply);
            if let Some((at, octet)) = wrong.response {
                response[at] = octet;
            }
            let octets = wrong.response_octets.unwrap_or(response.len());
            calls::sender_receive_response(
                record,
                origin,
                &response[..octets],
                reply.unparsed as u64,
                reply.reading,
                answer,
            )
        }
        op => panic!("op {op:02x}"),
    }
}

/// The state for the table: without the cause of Rejected.
fn table_state(state: SenderState) -> [u8; 4] {
    match state {
        SenderState::Failed(SenderFailure::LowerLayer(LowerLayerFailure::Rejected { .. })) => {
            [4, 1, 0, 0]
        }
        state => spell::sender_state(state),
    }
}

/// Octets past a sender's layout, which stay as they are.
const MORE: usize = 2;

impl Port {
    fn open(
        case: &Case,
        expected: u32,
        original: Option<&Open>,
        area: &mut Area,
    ) -> Result<Option<Self>, String> {
        let mut take = Take(&case.input);
        let mut kept = None;
        let (planned, message, opening) = if case.op == OPEN {
            let wanted = Wanted::take(&mut take);
            let message = pattern(wanted.message_octets, wanted.seed);
            let opening = Opening::take(&mut take);
            let planner = if even::sends(&wanted) {
                area.input(EVEN_SENDER);
                calls::plan_even
            } else {
                calls::plan_message
            };
            (port_plan(planner, &wanted, &message), message, opening)
        } else {
            let mut frozen = Frozen::take_fixed(&mut take);
            let opening = Opening::take(&mut take);
            frozen.take_heads(&mut take);
            area.input(FROZEN_SENDER);
            kept = exceptions::kept(&frozen);
            let planned = match dialects::source(&frozen) {
                Some((source, read)) => {
                    area.input(CONVERTED_SENDERS[usize::from(read)]);
                    dialects::port_converted(&source, read)
                }
                None => port_frozen(&frozen),
            };
            (planned, frozen.message(), opening)
        };
        let (given, plan) = planned;
        same_given(given, 0).map_err(|what| format!("the plan: {what}"))?;
        let number = opening.reading ^ 0x0123_4567_89ab_cdee;
        let mut port = Self {
            origin: spell::origin(opening.peer, opening.protocol),
            opening,
            number,
            record: Vec::new(),
            plan,
            message,
            offsets: Vec::new(),
        };
        let mut record = filled(layout::SENDER + MORE);
        let found = port.make(&mut record, port.origin.protocol, PROFILE);
        port.record = record;
        area.count(found);
        same_given(found, expected)?;
        let Some(original) = original else {
            same("record", &port.record, &filled(layout::SENDER + MORE))?;
            port.making(expected, &[]).check(&case.input, area)?;
            return Ok(None);
        };
        let mut offset = 0;
        for segment in original.sender.plan().segments() {
            port.offsets.push(offset);
            offset += segment.segment_data.len();
        }
        if port.offsets.len() == 256 {
            area.input(FULL_SENDER);
        }
        if original.sender.plan().acknowledgment_window() == spell::window(EXCEPTIONS) {
            area.input(EXCEPTIONS_SENDER);
        }
        let record = port.expected(original);
        port.compare(&record, original, area)?;
        area.input(MADE);
        port.making(0, &port.record).check(&case.input, area)?;
        if let Some(plan) = kept {
            area.input(EXCEPTIONS_KEPT);
            port.record[SENDER_PLAN..layout::SENDER].copy_from_slice(&plan[1..]);
            port.plan = plan;
        }
        Ok(Some(port))
    }

    /// Makes the sender in a record, under a protocol's number and a profile.
    fn make(&self, record: &mut [u8], protocol: u8, profile: u8) -> u32 {
        calls::sender_new(
            record,
            Origin {
                protocol,
                ..self.origin
            },
            &self.plan,
            &self.message,
            self.opening.version,
            profile,
            self.number,
            self.opening.reading,
        )
    }

    /// The making, to be made under other profiles: what it gave, and the record that it left.
    fn making<'a>(&'a self, given: u32, made: &'a [u8]) -> Making<'a> {
        Making {
            make: Box::new(|record, protocol, profile| self.make(record, protocol, profile)),
            protocol: self.origin.protocol,
            given,
            made,
            octets: layout::SENDER,
            place: IN_SENDER,
        }
    }

    /// The record that the original's sender is.
    fn expected(&self, original: &Open) -> Vec<u8> {
        let last = original.made - 1;
        self.expected_with(
            &original.sender,
            Tickets {
                current: last,
                last,
            },
        )
    }

    fn expected_with(&self, sender: &Sender, tickets: Tickets) -> Vec<u8> {
        let version = self.opening.version;
        let mut out = spell::sender(self.origin, version, self.number, tickets, sender);
        out.put_all(&self.plan[1..layout::PLAN]);
        assert_eq!(out.len(), SENDER_PLAN + layout::PLAN - 1);
        out.resize(layout::SENDER + MORE, FILLING);
        out
    }

    fn compare(&self, expected: &[u8], original: &Open, area: &mut Area) -> Checked {
        same("record", &self.record, expected)?;
        let sender = &original.sender;
        area.state(table_state(sender.state()));
        let mut answer = [FILLING; layout::SUBMISSION];
        let found = calls::sender_submission(&self.record, &mut answer);
        let mut offered = Vec::new();
        if let Some(submission) = sender.submission() {
            let segment: &Segment = submission.segment();
            offered.put64(self.number);
            offered.put64(original.made - 1);
            offered.put8(segment.sequence_number);
            offered.put_all(&spell::head(segment, segment.segment_data.len()));
            offered.put64(self.offsets[usize::from(segment.sequence_number)] as u64);
        }
        let none = u32::from(offered.is_empty());
        same_given(found, none).map_err(|what| format!("submission: {what}"))?;
        offered.resize(layout::SUBMISSION, if none == 1 { FILLING } else { 0 });
        same("submission", &answer, &offered)
    }

    fn check(&mut self, original: &Open, case: &Case, recorded: &[u8], area: &mut Area) -> Checked {
        let mut answer = filled(layout::STATE + 1);
        let found = call(
            case,
            self.number,
            &mut self.record,
            &mut answer,
            &Wrong::default(),
        );
        area.count(found);
        same_given(found, given(recorded))?;
        let mut expected = filled(layout::STATE + 1);
        if recorded[0] == 0 {
            let state = spell::sender_state(original.sender.state());
            expected[..layout::STATE].copy_from_slice(&state);
        }
        same("answer", &answer, &expected)?;
        inputs(case, area);
        let expected = self.expected(original);
        self.compare(&expected, original, area)
    }

    /// The call on a copy whose last ticket is `left` below 2^64 − 1: 63 where it makes more submissions than that.
    fn tickets(&self, original: &Open, left: u64, case: &Case, area: &mut Area) -> Checked {
        let mut copy = copy(original);
        let answer = play(&mut copy, case);
        let made = copy.made - original.made;
        let last = u64::MAX - left;
        let mut record = self.record.clone();
        record[LAST_TICKET..][..8].copy_from_slice(&last.to_be_bytes());
        let before = record.clone();
        let mut state = filled(layout::STATE);
        let found = call(
            case,
            self.number,
            &mut record,
            &mut state,
            &Wrong::default(),
        );
        area.count(found);
        if made > left {
            same_given(found, 256 * 63)?;
            same("answer", &state, &filled(layout::STATE))?;
            return same("record", &record, &before);
        }
        same_given(found, given(&answer))?;
        let last = last + made;
        let current = if made > 0 { last } else { original.made - 1 };
        let expected = self.expected_with(&copy.sender, Tickets { current, last });
        same("record", &record, &expected)
    }

    /// The call on copies whose submissions are counted up to `left` below 2^64 − 1.
    fn counter(&self, original: &Open, left: u64, case: &Case, area: &mut Area) -> Checked {
        let mut copy = copy(original);
        let count = u64::MAX - left % 2;
        copy.sender.set_layer3_submissions(count);
        let answer = play(&mut copy, case);
        let mut record = self.record.clone();
        record[SUBMISSIONS..][..8].copy_from_slice(&count.to_be_bytes());
        let mut state = filled(layout::STATE);
        let found = call(
            case,
            self.number,
            &mut record,
            &mut state,
            &Wrong::default(),
        );
        area.count(found);
        same_given(found, given(&answer))?;
        let last = copy.made - 1;
        let expected = self.expected_with(
            &copy.sender,
            Tickets {
                current: last,
                last,
            },
        );
        same("record", &record, &expected)
    }

    /// The call on a record with an octet changed: 257 where it spells none, 62 where it spells an impossible one.
    fn damaged(
        &self,
        (at, change, also): (u64, u64, u64),
        case: &Case,
        table: &mut Table,
    ) -> Checked {
        let mut record = self.record.clone();
        record[at as usize % layout::SENDER] = change as u8;
        if also > 0 {
            record[(also - 1) as usize % layout::SENDER] ^= (change >> 8) as u8;
        }
        let expected = if !spells::sender(&record) {
            spells::SPELLS_NONE
        } else if spells::sender_impossible(&record) {
            62
        } else {
            return self.made_up(record, case, table.area(MADE_UP));
        };
        self.refused_record(record, expected, case, table.area(Senders::NAME))
    }

    /// The call on a record for which it is to be refused with 257 or 62.
    fn refused_record(
        &self,
        mut record: Vec<u8>,
        expected: u32,
        case: &Case,
        area: &mut Area,
    ) -> Checked {
        if expected == 62 {
            seen_neither(&record, case, area);
        }
        let before = record.clone();
        let mut answer = filled(layout::STATE);
        let found = call(
            case,
            self.number,
            &mut record,
            &mut answer,
            &Wrong::default(),
        );
        area.count(found);
        same_given(found, 256 * expected)?;
        same("answer", &answer, &filled(layout::STATE))?;
        same("record", &record, &before)?;
        if expected == spells::SPELLS_NONE {
            let mut answer = filled(layout::SUBMISSION);
            same_given(
                calls::sender_submission(&record, &mut answer),
                256 * spells::SPELLS_NONE,
            )?;
            same("submission", &answer, &filled(layout::SUBMISSION))?;
        }
        Ok(())
    }

    /// The call on a record of neither profile: 62. What it offers is what the right record offers.
    fn neither(&self, profile: u8, case: &Case, area: &mut Area) -> Checked {
        if profiles::known(profile) {
            return Ok(());
        }
        let named =
            |what: String| format!("a record of profile {profile}: {}", by_document_02(what));
        let mut record = self.record.clone();
        record[IN_SENDER] = profile;
        let (mut answer, mut right) = (filled(layout::SUBMISSION), filled(layout::SUBMISSION));
        let found = calls::sender_submission(&record, &mut answer);
        let expected = calls::sender_submission(&self.record, &mut right);
        same_given(found, expected).map_err(named)?;
        same("submission", &answer, &right).map_err(named)?;
        self.refused_record(record, 62, case, area).map_err(named)
    }

    /// The call on a record that spells a possible sender, reached by calls or not: the original with those fields does the same. One of the
    /// other profile is no case.
    fn made_up(&self, mut record: Vec<u8>, case: &Case, area: &mut Area) -> Checked {
        if record[IN_SENDER] != PROFILE {
            return Ok(());
        }
        let (sender, named) = made_up::sender(&record);
        let other = Submission::made_up(sender.plan(), (0, 0));
        let mut take = Take(&case.input);
        let (ticket, foreign) = match case.op {
            SUBMITTED | ACCEPTED | LOWER_FAILED => (take.take64(), take.flag()),
            _ => (0, false),
        };
        let owned =
            self.number ^ u64::from(foreign) == named.number && Some(ticket) == named.ticket;
        let token = sender.current_submission().filter(|_| owned);
        let token = token.unwrap_or(other);
        let mut open = Open {
            sender,
            made: MADE_BEFORE,
            offered: [(ticket, token.clone())].into(),
            foreign: token,
        };
        let answer = play(&mut open, case);
        let made = open.made - MADE_BEFORE;
        let before = record.clone();
        let mut state = filled(layout::STATE);
        let found = call(
            case,
            self.number,
            &mut record,
            &mut state,
            &Wrong::default(),
        );
        area.count(found);
        let Some(last) = named.last_ticket.checked_add(made) else {
            same_given(found, 256 * 63)?;
            same("answer", &state, &filled(layout::STATE))?;
            return same("record", &record, &before);
        };
        same_given(found, given(&answer))?;
        if found == 0 {
            same("answer", &state, &spell::sender_state(open.sender.state()))?;
        }
        area.state(table_state(open.sender.state()));
        let origin = Origin {
            kind: before[1],
            width: before[2],
            value: Take(&before[3..]).take64(),
            protocol: before[11],
            octet: before[12],
        };
        let current = if made > 0 {
            last
        } else {
            named.ticket.unwrap_or(0)
        };
        let tickets = Tickets { current, last };
        let mut expected = spell::sender(origin, before[13], named.number, tickets, &open.sender);
        expected.put_all(&before[SENDER_PLAN..]);
        same("record", &record, &expected)
    }

    /// A buffer that is shorter than its layout (256), a response that spells none (257), a number that names no case (258).
    fn buffers(&mut self, (which, by): (u64, u64), case: &Case, area: &mut Area) -> Checked {
        let shorter = |octets: usize| octets - 1 - by as usize % octets;
        let mut wrong = Wrong::default();
        let (mut record, mut answer, mut expected) =
            (self.record.len(), layout::STATE, spells::TOO_SHORT);
        match which % 7 {
            0 => record = shorter(layout::SENDER),
            1 => answer = shorter(layout::STATE),
            2 if case.op == RESPONSE => wrong.response_octets = Some(shorter(layout::RESPONSE)),
            3 if case.op == RESPONSE => {
                wrong.protocol = Some(3 + (by % 253) as u8);
                expected = spells::NAMES_NONE;
            }
            4 if case.op == LOWER_FAILED => {
                wrong.failure = Some(3 + (by % 253) as u8);
                expected = spells::NAMES_NONE;
            }
            5 => {
                let mut answer = filled(shorter(layout::SUBMISSION));
                let found = calls::sender_submission(&self.record, &mut answer);
                area.count(found);
                same_given(found, 256 * spells::TOO_SHORT)?;
                return same("submission", &answer, &filled(answer.len()));
            }
            6 if case.op == RESPONSE => {
                let mut response = response(&Reply::take(&mut Take(&case.input)));
                let at = [1, 36, 37, 38, 39, 40][by as usize % 6];
                response[at] = (by >> 8) as u8;
                if spells::response(&response) {
                    return Ok(());
                }
                wrong.response = Some((at, (by >> 8) as u8));
                expected = spells::SPELLS_NONE;
            }
            _ => return Ok(()),
        }
        let before = self.record.clone();
        let mut lent = filled(answer);
        let found = call(
            case,
            self.number,
            &mut self.record[..record],
            &mut lent,
            &wrong,
        );
        area.count(found);
        same_given(found, 256 * expected)?;
        same("answer", &lent, &filled(answer))?;
        same("record", &self.record, &before)
    }

    /// try_new with a plan of which an octet is changed, or with another message: 257, 40 or made, as a recomputation by the original says.
    fn changed_plan(&self, (at, change, also): (u64, u64, u64), area: &mut Area) -> Checked {
        let mut plan = self.plan.clone();
        plan[at as usize % layout::PLAN] = change as u8;
        let mut message = self.message.clone();
        match also % 4 {
            1 => message.push(0),
            2 => drop(message.pop()),
            3 => {
                let place = change as usize % message.len().max(1);
                if let Some(octet) = message.get_mut(place) {
                    *octet ^= 1;
                }
            }
            _ => {}
        }
        let changed = Self {
            plan,
            message,
            record: Vec::new(),
            offsets: Vec::new(),
            opening: self.opening.clone(),
            ..*self
        };
        let (plan, message) = (&changed.plan, &changed.message);
        let mut record = filled(layout::SENDER);
        let found = changed.make(&mut record, self.origin.protocol, PROFILE);
        area.count(found);
        let expected = if !spells::plan(plan) {
            256 * spells::SPELLS_NONE
        } else if is_plan_of(plan, message) {
            0
        } else {
            256 * 40
        };
        same_given(found, expected)?;
        changed
            .making(expected, &record)
            .under(change as u8, area)?;
        if at == LATER_CAPACITY && also == 0 && *plan != self.plan {
            match expected / 256 {
                0 => area.input(OTHER_PLANNER),
                40 => area.input(NEITHER_PLANNER),
                _ => {}
            }
        }
        if expected == 256 * 40 && plan[FORM] == PLANNED && is_planned(plan, message) {
            area.input(EXCEPTIONS_PLANNED);
        }
        if expected == 0 {
            return same("plan", &record[SENDER_PLAN..], &plan[1..layout::PLAN]);
        }
        same("record", &record, &filled(layout::SENDER))
    }
}

/// What a run has to see of records of neither profile.
fn seen_neither(record: &[u8], case: &Case, area: &mut Area) {
    if profiles::known(record[IN_SENDER]) {
        return;
    }
    // A call's own reading is its last field.
    let reading = &case.input[case.input.len() - 8..];
    area.input(match case.op {
        ADVANCE => NEITHER_ADVANCE,
        CANCEL => NEITHER_CANCEL,
        SUBMITTED => NEITHER_SUBMITTED,
        ACCEPTED => NEITHER_ACCEPTED,
        LOWER_FAILED => NEITHER_LOWER_FAILED,
        _ => NEITHER_RESPONSE,
    });
    if Take(reading).take64() < Take(&record[LAST_READING..]).take64() {
        area.input(NEITHER_AND_CLOCK);
    }
}

/// Whether a planner or the original's frozen check gives the plan that the octets spell, for this message and under some ceiling. The
/// original's plan, and the same dealt out evenly, are those of the planners; under Exceptions these give none (document 02, 2026-09).
fn is_plan_of(plan: &[u8], message: &[u8]) -> bool {
    if plan[FORM] == PLANNED {
        plan[WINDOW] != EXCEPTIONS && is_planned(plan, message)
    } else {
        is_frozen(plan, message)
    }
}

/// Whether it is the original's plan, or the same dealt out evenly.
fn is_planned(plan: &[u8], message: &[u8]) -> bool {
    let mut take = Take(&plan[FORM + 1..]);
    take.take64();
    let budget = take.take64();
    let (transaction, window) = (take.take8(), take.take8());
    let Ok(budget) = usize::try_from(budget) else {
        return false;
    };
    set_ceiling(budget);
    let version = ProtocolVersion(1);
    match plan_message(message, budget, transaction, spell::window(window), version) {
        // Under Planned the frozen part is that of no segments.
        Ok(MessagePlan::Segmented(original)) => {
            let planned = [spell::planned(&original), spell::evenly(&original)];
            planned
                .iter()
                .any(|planned| *planned == plan[..layout::PLAN])
        }
        _ => false,
    }
}

/// Whether the original's frozen check gives it.
fn is_frozen(plan: &[u8], message: &[u8]) -> bool {
    let mut take = Take(&plan[FORM + 1..]);
    take.octets(43);
    let count = take.take64();
    take.take64();
    let budget = take.take64() as usize;
    take.take8();
    if !(2..=256).contains(&count) {
        return false;
    }
    let mut segments = Vec::new();
    let mut offset = 0usize;
    for _ in 0..count {
        let mut segment = take_head(&mut take);
        let Ok(octets) = usize::try_from(take.take64()) else {
            return false;
        };
        let Some(data) = offset
            .checked_add(octets)
            .and_then(|end| message.get(offset..end))
        else {
            return false;
        };
        segment.segment_data = data.to_vec();
        offset += octets;
        segments.push(segment);
    }
    set_ceiling(budget);
    SegmentedMessage::try_from_frozen(segments, message, budget, ProtocolVersion(1))
        .is_ok_and(|original| spell::frozen(&original) == plan[..layout::PLAN])
}

fn copy(original: &Open) -> Open {
    Open {
        sender: original.sender.copy(),
        made: original.made,
        offered: original.offered.clone(),
        foreign: original.foreign.clone(),
    }
}

fn play(open: &mut Open, case: &Case) -> Vec<u8> {
    open.play(case.op, Take(&case.input))
}

fn inputs(case: &Case, area: &mut Area) {
    let entries = || Reply::take(&mut Take(&case.input)).entries;
    let queued = || Take(&case.input[9..]).take64();
    match case.op {
        RESPONSE if entries() == 256 => area.input(FULL_MAP),
        SUBMITTED if queued().abs_diff(LAST_QUEUED) <= 3 => area.input(LATE_SUBMISSION),
        _ => {}
    }
}

impl Checker for Senders {
    type Original = Sending;

    const NAME: &'static str = "sender";

    fn original() -> Sending {
        Sending {
            plan: even::sent,
            ..Sending::default()
        }
    }

    fn opens(op: u8) -> bool {
        op == OPEN || op == OPEN_FROZEN
    }

    fn check(
        &mut self,
        original: &mut Sending,
        case: &Case,
        answer: &[u8],
        table: &mut Table,
    ) -> Checked {
        let area = table.area(Self::NAME);
        let original = original.open.as_ref();
        if Self::opens(case.op) {
            self.port = Port::open(case, given(answer), original, area)?;
            return Ok(());
        }
        let port = self.port.as_mut().expect("try_new made a sender");
        port.check(original.expect("try_new made a sender"), case, answer, area)
    }

    fn probe(&mut self, original: &mut Sending, case: &Case, table: &mut Table) -> Checked {
        let (Some(port), Some(original)) = (&mut self.port, &original.open) else {
            return Ok(());
        };
        if case.op == DAMAGED {
            let mut take = Take(&case.input);
            let numbers = (take.take64(), take.take64(), take.take64());
            let inner = Case {
                op: take.take8(),
                input: take.rest().to_vec(),
            };
            return port.damaged(numbers, &inner, table);
        }
        let area = table.area(Self::NAME);
        let mut take = Take(&case.input);
        let numbers = (take.take64(), take.take64(), take.take64());
        if case.op == PLAN {
            return port.changed_plan(numbers, area);
        }
        let inner = Case {
            op: take.take8(),
            input: take.rest().to_vec(),
        };
        match case.op {
            TICKETS => port.tickets(original, numbers.0 % 3, &inner, area),
            COUNTER => port.counter(original, numbers.0, &inner, area),
            NEITHER => port.neither(numbers.0 as u8, &inner, area),
            _ => port.buffers((numbers.0, numbers.1), &inner, area),
        }
    }

    fn any_probe(&self, random: &mut Random, next: Option<&Case>) -> Option<Case> {
        self.port.as_ref()?;
        let Some(next) = next else {
            // After try_new and now and then: the plan.
            let probe = random.once_in(24).then(|| Case {
                op: PLAN,
                input: plan_numbers(random),
            });
            return probe;
        };
        if !random.once_in(4) {
            return None;
        }
        let op = random.pick(&[TICKETS, TICKETS, COUNTER, DAMAGED, DAMAGED, BUFFERS]);
        let mut input = Vec::new();
        match op {
            DAMAGED => {
                let at = if random.once_in(4) {
                    random.below(layout::SENDER)
                } else {
                    random.below(260)
                };
                let change = if random.once_in(3) {
                    random.below(4) as u64
                } else {
                    random.next() & 0xffff
                };
                let also = if random.once_in(3) {
                    random.below(SENDER_PLAN) + 1
                } else {
                    0
                };
                input.put64(at as u64);
                input.put64(change);
                input.put64(also as u64);
            }
            _ => {
                input.put64(random.below(60) as u64);
                input.put64(random.next() >> 40);
                input.put64(0);
            }
        }
        input.put8(next.op);
        input.put_all(&next.input);
        Some(Case { op, input })
    }

    /// After try_new with a planned plan: the plan with another later capacity, or under Exceptions.
    fn any_other(&self, random: &mut Random, last: &Case) -> Option<Case> {
        self.port.as_ref()?;
        if last.op != OPEN {
            return None;
        }
        let input = if random.once_in(2) {
            capacity_numbers(random, &Wanted::take(&mut Take(&last.input)))?
        } else {
            changed(WINDOW as u64, u64::from(EXCEPTIONS))
        };
        Some(Case { op: PLAN, input })
    }

    fn any_neither(&self, random: &mut Random, next: &Case) -> Option<Case> {
        self.port.as_ref()?;
        profiles::any_neither(random, next)
    }
}

/// The numbers of a probe that changes an octet, and nothing else.
fn changed(at: u64, change: u64) -> Vec<u8> {
    let mut input = Vec::new();
    input.put64(at);
    input.put64(change);
    input.put64(0);
    input
}

/// Another later capacity for the plan of a message, next to what one of the planners gives.
fn capacity_numbers(random: &mut Random, wanted: &Wanted) -> Option<Vec<u8>> {
    let lengths = even::lengths(&wanted.segmented()?);
    let (full, share) = (wanted.budget - 3, lengths[lengths.len() - 1]);
    let change = random.pick(&[full - 1, full, full + 1, share - 1, share, share + 1]);
    Some(changed(LATER_CAPACITY, change as u64))
}

/// An octet of a plan to change, mostly one that matters, and how the message differs, if it does.
fn plan_numbers(random: &mut Random) -> Vec<u8> {
    let at = match random.below(5) {
        0 => random.below(layout::PLAN),
        1 => random.within(45, 70 + 4 * layout::HEAD),
        _ => random.below(45),
    };
    let change = if random.once_in(2) {
        random.below(6) as u64
    } else {
        random.next() & 0xff
    };
    let also = random.pick(&[0, 0, 0, 1, 2, 3]);
    let mut input = Vec::new();
    input.put64(at as u64);
    input.put64(change);
    input.put64(also);
    input
}
