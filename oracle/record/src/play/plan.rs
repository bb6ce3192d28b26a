//! Ops 10 (plan_message) and 11 (frozen check).

use crate::fields::{EXCEPTIONS, put_head, put_length, put_services, take_head, window};
use crate::list::{DONE, Player};
use crate::octets::{Put, Take, adler32, patched, pattern};
use crate::refusals::{self, JOINED_LENGTH, PAYLOAD_BUDGET, Refusal};
use bts136::l3::broadcast::ProtocolVersion;
use bts136::l3::relay::set_ceiling;
use bts136::l3::tsar::{MessagePlan, Segment, SegmentKind, SegmentedMessage, plan_message};

pub const PLAN: u8 = 0x10;
pub const FROZEN: u8 = 0x11;

const SEGMENTED: u8 = 2;
pub const MAX_SEGMENTS: usize = 256;
pub const NO_PATCH: usize = 0xffff_ffff;

#[derive(Default)]
pub struct Plans;

impl Player for Plans {
    fn play(&mut self, op: u8, input: &[u8]) -> Vec<u8> {
        match op {
            PLAN => plan_answer(&Wanted::take(&mut Take(input))),
            FROZEN => frozen_answer(&Frozen::take(&mut Take(input))),
            _ => panic!("op {op:02x}"),
        }
    }
}

/// The arguments of plan_message, with the ceiling.
#[derive(Clone)]
pub struct Wanted {
    pub message_octets: usize,
    pub seed: u8,
    pub budget: usize,
    pub ceiling: usize,
    pub transaction: u8,
    pub window: u8,
    pub version: u8,
}

impl Wanted {
    pub fn put(&self, out: &mut Vec<u8>) {
        out.put32(self.message_octets);
        out.put8(self.seed);
        out.put32(self.budget);
        out.put32(self.ceiling);
        out.put8(self.transaction);
        out.put8(self.window);
        out.put8(self.version);
    }

    pub fn take(take: &mut Take) -> Self {
        Self {
            message_octets: take.take32(),
            seed: take.take8(),
            budget: take.take32(),
            ceiling: take.take32(),
            transaction: take.take8(),
            window: take.take8(),
            version: take.take8(),
        }
    }

    pub fn plan(&self) -> Result<MessagePlan, Refusal> {
        set_ceiling(self.ceiling);
        plan_message(
            &pattern(self.message_octets, self.seed),
            self.budget,
            self.transaction,
            window(self.window),
            ProtocolVersion(self.version),
        )
        .map_err(refusals::planning)
    }

    /// Whether equality with the original's planner leaves this out (document 02, 2026-09): the window
    /// is Exceptions, and neither 20 nor Unsegmented comes first.
    pub fn is_left_out(&self) -> bool {
        self.window == EXCEPTIONS
            && match self.plan() {
                Err(refusal) => refusal != PAYLOAD_BUDGET,
                Ok(plan) => matches!(plan, MessagePlan::Segmented(_)),
            }
    }

    pub fn segmented(&self) -> Option<SegmentedMessage> {
        match self.plan() {
            Ok(MessagePlan::Segmented(plan)) => Some(plan),
            _ => None,
        }
    }
}

fn plan_answer(wanted: &Wanted) -> Vec<u8> {
    match wanted.plan() {
        Ok(MessagePlan::Unsegmented(octets)) => {
            assert_eq!(octets, pattern(wanted.message_octets, wanted.seed));
            vec![DONE]
        }
        Ok(MessagePlan::Segmented(plan)) => plan_summary(&plan, ProtocolVersion(wanted.version)),
        Err(refusal) => refusals::answer(refusal),
    }
}

fn plan_summary(plan: &SegmentedMessage, version: ProtocolVersion) -> Vec<u8> {
    let segments = plan.segments();
    let SegmentKind::Begin {
        message_length,
        services,
    } = segments[0].kind
    else {
        panic!("a plan opens with a Begin");
    };
    let data_octets = |index: usize| segments[index].segment_data.len();
    let encode = |segment: &Segment| segment.encode(version).expect("the planner encoded it");
    let encoded: Vec<u8> = segments.iter().flat_map(encode).collect();
    let mut answer = vec![SEGMENTED];
    answer.put16(segments.len());
    answer.put16(data_octets(0));
    put_length(&mut answer, message_length);
    put_services(&mut answer, services);
    answer.put16(data_octets(1));
    answer.put16(data_octets(segments.len() - 1));
    answer.put32(adler32(&encoded));
    answer
}

/// The arguments of the frozen check: a count, heads, and their data joined.
#[derive(Clone)]
pub struct Frozen {
    pub count: usize,
    pub message_octets: usize,
    pub message_seed: u8,
    pub budget: usize,
    pub version: u8,
    pub ceiling: usize,
    pub joined_octets: usize,
    pub joined_seed: u8,
    pub patch_position: usize,
    pub patch_change: u8,
    pub heads: Vec<Head>,
}

/// A segment whose data lie in the joined data, and how many octets they are.
#[derive(Clone)]
pub struct Head {
    pub segment: Segment,
    pub data_octets: usize,
}

impl Frozen {
    /// All but the heads: 26 octets.
    pub fn put_fixed(&self, out: &mut Vec<u8>) {
        out.put16(self.count);
        out.put32(self.message_octets);
        out.put8(self.message_seed);
        out.put32(self.budget);
        out.put8(self.version);
        out.put32(self.ceiling);
        out.put32(self.joined_octets);
        out.put8(self.joined_seed);
        out.put32(self.patch_position);
        out.put8(self.patch_change);
    }

    pub fn put_heads(&self, out: &mut Vec<u8>) {
        for head in self.heads.iter().take(self.sent()) {
            put_head(out, &head.segment);
            out.put16(head.data_octets);
        }
    }

    /// How many heads a case carries.
    fn sent(&self) -> usize {
        self.count.min(MAX_SEGMENTS)
    }

    pub fn take_fixed(take: &mut Take) -> Self {
        Self {
            count: take.take16(),
            message_octets: take.take32(),
            message_seed: take.take8(),
            budget: take.take32(),
            version: take.take8(),
            ceiling: take.take32(),
            joined_octets: take.take32(),
            joined_seed: take.take8(),
            patch_position: take.take32(),
            patch_change: take.take8(),
            heads: Vec::new(),
        }
    }

    pub fn take_heads(&mut self, take: &mut Take) {
        let head = |_| Head {
            segment: take_head(take),
            data_octets: take.take16(),
        };
        self.heads = (0..self.sent()).map(head).collect();
    }

    pub fn take(take: &mut Take) -> Self {
        let mut frozen = Self::take_fixed(take);
        frozen.take_heads(take);
        frozen
    }

    pub fn message(&self) -> Vec<u8> {
        pattern(self.message_octets, self.message_seed)
    }

    pub fn joined(&self) -> Vec<u8> {
        patched(
            self.joined_octets,
            self.joined_seed,
            self.patch_position,
            self.patch_change,
        )
    }

    pub fn sums(&self) -> bool {
        self.heads
            .iter()
            .map(|head| head.data_octets)
            .sum::<usize>()
            == self.joined_octets
    }

    /// The segments that the original gets: each head with its part of the joined data. Where the
    /// lengths don't sum, or the count is not 2 to 256, data decide nothing and are left out.
    fn segments(&self) -> Vec<Segment> {
        let mut segments: Vec<Segment> =
            self.heads.iter().map(|head| head.segment.clone()).collect();
        if self.sums() {
            let joined = self.joined();
            let mut offset = 0;
            for (segment, head) in segments.iter_mut().zip(&self.heads) {
                let end = offset + head.data_octets;
                segment.segment_data = joined[offset..end].to_vec();
                offset = end;
            }
        }
        if let Some(last) = segments.last().cloned() {
            segments.resize(self.count, last);
        }
        segments
    }

    pub fn check(&self) -> Result<SegmentedMessage, Refusal> {
        set_ceiling(self.ceiling);
        let counted = (2..=MAX_SEGMENTS).contains(&self.count);
        if self.budget <= self.ceiling && counted && !self.sums() {
            return Err(JOINED_LENGTH);
        }
        SegmentedMessage::try_from_frozen(
            self.segments(),
            &self.message(),
            self.budget,
            ProtocolVersion(self.version),
        )
        .map_err(refusals::planning)
    }
}

fn frozen_answer(frozen: &Frozen) -> Vec<u8> {
    match frozen.check() {
        Ok(plan) => {
            let mut answer = vec![DONE];
            answer.put32(plan.message_octets());
            answer.put32(plan.payload_budget_octets());
            answer.put8(plan.acknowledgment_window() as u8);
            answer
        }
        Err(refusal) => refusals::answer(refusal),
    }
}
