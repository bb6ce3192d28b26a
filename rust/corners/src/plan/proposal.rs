//! What the frozen check and the converter are asked.

use super::{Heads, proposed};
use crate::octets::{PAST, filled};
use catkhize::{calls, layout};

/// What is asked beside the heads, the joined data and the message.
#[derive(Clone, Copy)]
pub struct Terms {
    pub count: u64,
    pub budget: u64,
    pub version: u8,
    pub ceiling: u64,
}

/// HEADS, the joined data, the message, and what is asked beside them.
#[derive(Clone)]
pub struct Proposal {
    pub heads: Vec<u8>,
    pub joined: Vec<u8>,
    pub message: Vec<u8>,
    pub terms: Terms,
}

impl Proposal {
    /// These segments of a message, with the budget for a ceiling.
    pub fn new(heads: Heads, message: &[u8], budget: u64) -> Self {
        Self {
            heads: proposed(heads),
            joined: message.to_vec(),
            message: message.to_vec(),
            terms: Terms {
                count: heads.len() as u64,
                budget,
                version: 1,
                ceiling: budget,
            },
        }
    }

    /// What the frozen check gives, and PLAN.
    pub fn freeze(&self) -> (u32, Vec<u8>) {
        let mut plan = filled(layout::PLAN + PAST);
        let given = self.freeze_into(&mut plan);
        (given, plan)
    }

    /// The same, with the plan that is lent.
    pub fn freeze_into(&self, plan: &mut [u8]) -> u32 {
        calls::try_from_frozen(
            &self.heads,
            self.terms.count,
            &self.joined,
            &self.message,
            self.terms.budget,
            self.terms.version,
            self.terms.ceiling,
            plan,
        )
    }

    /// What converting out of the dialect of this number gives, and PLAN.
    pub fn convert(&self, dialect: u8) -> (u32, Vec<u8>) {
        let mut plan = filled(layout::PLAN + PAST);
        let given = self.convert_into(dialect, &mut plan);
        (given, plan)
    }

    /// The same, with the plan that is lent.
    pub fn convert_into(&self, dialect: u8, plan: &mut [u8]) -> u32 {
        calls::convert(
            &self.heads,
            self.terms.count,
            &self.joined,
            &self.message,
            self.terms.budget,
            self.terms.version,
            self.terms.ceiling,
            dialect,
            plan,
        )
    }
}
