//! A sender's record in octets (SENDER): the calls on it, what it shows, and records made by hand, with a field changed.

use super::bench::{ORIGIN, OWN, VERSION};
use super::outcome::{Offer, Shown, deadline_fields};
use super::plan::Plan;
use super::response::Response;
use crate::octets::FILL;
use crate::profiles::{IN_SENDER, ONE};
use catkhize::AcknowledgmentWindow;
use catkhize::calls::{self, Origin};
use catkhize::layout::{self, sender::*};

/// STATE: what a call answers, and a part of the record.
pub type State = [u8; layout::STATE];

/// Entry i is bit i % 64 of word i / 64.
pub type Words = [u64; 4];

// Offsets in SENDER, but for those that catkhize names. The plan stands there without its first octet.
const TERMS_VERSION: usize = 13;
const SUBMISSION: usize = 27;
const SUBMISSION_INDEX: usize = 36;
const LAST_TICKET: usize = 45;
const SUBMITTED: usize = 53;
const RETRY: usize = 85;
const RECEIVED: usize = 117;
const PLAN: usize = 174;

// Offsets in SUBMISSION; from the part on it is a PART.
const TICKET: usize = 8;
const INDEX: usize = 16;
const PART: usize = 17;

/// Octets of a layout.
#[derive(Clone, Copy, PartialEq)]
pub struct Octets<const N: usize>(pub [u8; N]);

pub type Sender = Octets<{ layout::SENDER }>;

/// What a call gave, and the record before and after it.
#[derive(Clone, Copy)]
pub struct Sent {
    pub given: u32,
    pub answer: State,
    pub before: Sender,
    pub sender: Sender,
}

/// The words in which these entries are set.
pub fn marks(entries: impl IntoIterator<Item = usize>) -> Words {
    let mut words = [0; 4];
    for i in entries {
        words[i / 64] |= 1 << (i % 64);
    }
    words
}

/// The number of 64 bits at an offset.
fn number(octets: &[u8], at: usize) -> u64 {
    octets[at..at + 8]
        .iter()
        .fold(0, |value, octet| value << 8 | u64::from(*octet))
}

impl<const N: usize> Octets<N> {
    /// Before a call writes to them.
    pub const UNWRITTEN: Self = Self([FILL; N]);

    /// The same but for the octets at an offset.
    pub fn with(mut self, at: usize, field: &[u8]) -> Self {
        self.0[at..at + field.len()].copy_from_slice(field);
        self
    }

    /// The same but for the number of 64 bits at an offset.
    pub fn with64(self, at: usize, value: u64) -> Self {
        self.with(at, &value.to_be_bytes())
    }

    fn with_words(self, at: usize, words: Words) -> Self {
        self.with(at, &words.map(u64::to_be_bytes).concat())
    }
}

/// Makes a sender, under its own number. There is no answer beside the record: the state that the record shows stands for it.
pub fn try_new_with(
    from: Origin,
    plan: &Plan,
    message: &[u8],
    version: u8,
    profile: u8,
    monotonic_ms: u64,
) -> Sent {
    let before = Sender::UNWRITTEN;
    let mut sender = before;
    let record = &mut sender.0;
    let given = calls::sender_new(
        record,
        from,
        &plan.0,
        message,
        version,
        profile,
        OWN,
        monotonic_ms,
    );
    let answer = sender.state();
    Sent {
        given,
        answer,
        before,
        sender,
    }
}

/// Makes a sender under a profile, with the peer, the service and the version that most cases have.
pub fn try_new_under(profile: u8, plan: &Plan, message: &[u8], monotonic_ms: u64) -> Sent {
    try_new_with(ORIGIN, plan, message, VERSION, profile, monotonic_ms)
}

/// The same under profile 1, which most cases have.
pub fn try_new(plan: &Plan, message: &[u8], monotonic_ms: u64) -> Sent {
    try_new_under(ONE.number, plan, message, monotonic_ms)
}

/// The calls. A sender stays as it was, so that many cases begin with it.
impl Sender {
    fn call(&self, call: impl FnOnce(&mut [u8], &mut [u8]) -> u32) -> Sent {
        let mut sender = *self;
        let mut answer = [FILL; layout::STATE];
        let given = call(&mut sender.0, &mut answer);
        Sent {
            given,
            answer,
            before: *self,
            sender,
        }
    }

    pub fn advance(&self, monotonic_ms: u64) -> Sent {
        self.call(|record, answer| calls::sender_advance(record, monotonic_ms, answer))
    }

    pub fn cancel(&self, monotonic_ms: u64) -> Sent {
        self.call(|record, answer| calls::sender_cancel(record, monotonic_ms, answer))
    }

    pub fn submitted(&self, number: u64, ticket: u64, queued: u64, observed: u64) -> Sent {
        self.call(|record, answer| {
            calls::sender_submitted(record, number, ticket, queued, observed, answer)
        })
    }

    pub fn accepted(&self, number: u64, ticket: u64, monotonic_ms: u64) -> Sent {
        self.call(|record, answer| {
            calls::sender_accepted(record, number, ticket, monotonic_ms, answer)
        })
    }

    /// A failure is its number and the cause.
    pub fn lower_failed(
        &self,
        number: u64,
        ticket: u64,
        (failure, cause): (u8, u8),
        monotonic_ms: u64,
    ) -> Sent {
        self.call(|record, answer| {
            calls::sender_lower_failed(record, number, ticket, failure, cause, monotonic_ms, answer)
        })
    }

    pub fn receive_response(
        &self,
        from: Origin,
        response: Response,
        unparsed: u64,
        monotonic_ms: u64,
    ) -> Sent {
        self.receive_octets(from, &response.octets(), unparsed, monotonic_ms)
    }

    /// The same of RESPONSE.
    pub fn receive_octets(
        &self,
        from: Origin,
        response: &[u8],
        unparsed: u64,
        monotonic_ms: u64,
    ) -> Sent {
        self.call(|record, answer| {
            calls::sender_receive_response(record, from, response, unparsed, monotonic_ms, answer)
        })
    }
}

/// What a record shows.
impl Sender {
    fn state(&self) -> State {
        std::array::from_fn(|i| self.0[STATE + i])
    }

    /// Around ticket and index stand the sender's number and the plan's segment at the index; where nothing is offered, the octets stay.
    fn offer(&self) -> Offer {
        let mut answer = [FILL; layout::SUBMISSION];
        let given = calls::sender_submission(&self.0, &mut answer);
        let (ticket, index) = (number(&answer, TICKET), answer[INDEX]);
        let own = number(&answer, 0) == OWN;
        match given {
            0 if own && self.part(index)[..] == answer[PART..] => Ok(Some((ticket, index))),
            1 if answer == [FILL; layout::SUBMISSION] => Ok(None),
            _ => Err((given, answer)),
        }
    }

    /// The PART of what is offered.
    pub fn offered(&self) -> [u8; layout::PART] {
        let mut answer = [FILL; layout::SUBMISSION];
        calls::sender_submission(&self.0, &mut answer);
        std::array::from_fn(|i| answer[PART + i])
    }

    /// Segment `index` of the record's plan.
    fn part(&self, index: u8) -> [u8; layout::PART] {
        let plan = [&[layout::PLAN_VERSION], &self.0[PLAN..]].concat();
        let mut answer = [FILL; layout::PART];
        calls::plan_segment(&plan, index, &mut answer);
        answer
    }

    /// The octets before the plan, and those of the plan.
    pub fn halves(&self) -> (&[u8], &[u8]) {
        self.0.split_at(PLAN)
    }

    pub fn shown(&self) -> Shown {
        Shown {
            state: self.state(),
            deadline: (self.0[DEADLINE], number(&self.0, DEADLINE + 1)),
            submissions: number(&self.0, SUBMISSIONS),
            offer: self.offer(),
        }
    }
}

/// Records made by hand.
impl Sender {
    pub fn with_state(self, state: State) -> Self {
        self.with(STATE, &state)
    }

    pub fn with_deadline(self, deadline: Option<u64>) -> Self {
        let (runs, at) = deadline_fields(deadline);
        self.with(DEADLINE, &[runs]).with64(DEADLINE + 1, at)
    }

    pub fn without_submission(self) -> Self {
        self.with(SUBMISSION, &[0; LAST_TICKET - SUBMISSION])
    }

    /// A submission of the segment at an index, under ticket 0 and prepared at 0.
    pub fn with_index(self, index: u8) -> Self {
        self.without_submission()
            .with(SUBMISSION, &[1])
            .with(SUBMISSION_INDEX, &[index])
    }

    /// No submission and no deadline, in a state.
    pub fn closed(self, state: State) -> Self {
        self.with_state(state)
            .without_submission()
            .with_deadline(None)
    }

    pub fn with_last_ticket(self, ticket: u64) -> Self {
        self.with64(LAST_TICKET, ticket)
    }

    pub fn with_submissions(self, count: u64) -> Self {
        self.with64(SUBMISSIONS, count)
    }

    pub fn with_submitted(self, words: Words) -> Self {
        self.with_words(SUBMITTED, words)
    }

    pub fn with_retry(self, words: Words) -> Self {
        self.with_words(RETRY, words)
    }

    pub fn with_received(self, words: Words) -> Self {
        self.with_words(RECEIVED, words)
    }

    pub fn with_version(self, version: u8) -> Self {
        self.with(TERMS_VERSION, &[version])
    }

    pub fn with_profile(self, profile: u8) -> Self {
        self.with(IN_SENDER, &[profile])
    }

    /// Where a plan's octet stands in the record.
    fn in_plan(at: usize) -> usize {
        PLAN - 1 + at
    }

    /// Another number of segments in the plan, planned or frozen.
    pub fn with_count(self, count: u64) -> Self {
        let form = usize::from(self.0[Self::in_plan(layout::plan::FORM)] != 0);
        self.with64(Self::in_plan(layout::plan::COUNT[form]), count)
    }

    /// Another window in a planned plan.
    pub fn with_window(self, window: AcknowledgmentWindow) -> Self {
        let [planned, _] = layout::plan::WINDOW;
        self.with(Self::in_plan(planned), &[window as u8])
    }
}
