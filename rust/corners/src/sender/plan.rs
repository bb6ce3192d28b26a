//! Plans in octets (PLAN), as the planners, the frozen check and the converter give them and with fields changed.

use super::bench::{BUDGET, MESSAGE, TRANSACTION, VERSION};
use super::record::Octets;
use crate::exceptions::THREE;
use crate::octets::{Segment, head, train};
use crate::plan::proposal::Proposal;
use crate::plan::{Heads, Planner};
use catkhize::AcknowledgmentWindow::{self, Every4, Exceptions};
use catkhize::Dialect;
use catkhize::{calls, layout};

/// Offsets of what a planner gives.
pub mod planned {
    pub const MESSAGE_OCTETS: usize = 2;
    pub const BUDGET: usize = 10;
    pub const TRANSACTION: usize = 18;
    pub const WINDOW: usize = 19;
    pub const BEGIN_OCTETS: usize = 20;
    pub const LATER_CAPACITY: usize = 28;
    pub const COUNT: usize = 36;
    pub const STATES_LENGTH: usize = 44;
}

/// Offsets of what the frozen check gives, from the count on to the plan's last octet.
pub mod frozen {
    pub const COUNT: usize = 45;
    pub const MESSAGE_OCTETS: usize = 53;
    pub const BUDGET: usize = 61;
    pub const WINDOW: usize = 69;
    pub const HEADS: usize = 70;
}

pub type Plan = Octets<{ layout::PLAN }>;

/// What a planner gives for a message. Where that is no plan, the octets spell none, and no sender is made.
fn given(planner: Planner, message: &[u8], budget: u64, window: AcknowledgmentWindow) -> Plan {
    let mut plan = Plan::UNWRITTEN;
    let window = window as u8;
    let record = &mut plan.0;
    planner(
        message,
        budget,
        TRANSACTION,
        window,
        VERSION,
        budget,
        record,
    );
    plan
}

/// The plan of a message.
pub fn plan_at(message: &[u8], budget: u64, window: AcknowledgmentWindow) -> Plan {
    given(calls::plan_message, message, budget, window)
}

/// The even plan of a message.
pub fn even_at(message: &[u8], budget: u64, window: AcknowledgmentWindow) -> Plan {
    given(calls::plan_even, message, budget, window)
}

/// What the frozen check gives for these segments of a message.
pub fn frozen_of(heads: Heads, message: &[u8], budget: u64) -> Plan {
    let mut plan = Plan::UNWRITTEN;
    Proposal::new(heads, message, budget).freeze_into(&mut plan.0);
    plan
}

/// What the converter gives for these segments of a message, read as a dialect.
pub fn converted_of(heads: Heads, message: &[u8], budget: u64, read: Dialect) -> Plan {
    let mut plan = Plan::UNWRITTEN;
    Proposal::new(heads, message, budget).convert_into(read as u8, &mut plan.0);
    plan
}

/// A frozen plan of the 14 octets: data lengths 4, 6 and 4, no length stated, window Every4. The budget has room for a length or a CRC in
/// each segment.
pub fn frozen_plan() -> Plan {
    let heads = train(TRANSACTION, None, Every4, &[4, 6, 4]);
    frozen_of(&heads, &MESSAGE, 16)
}

/// The plan of the 14 octets under a window. No planner gives one under Exceptions: there it is the frozen plan of the segments that
/// plan_message gives under the other windows with services.
pub fn plan_under(window: AcknowledgmentWindow) -> Plan {
    match window {
        Exceptions => frozen_of(&THREE.heads(TRANSACTION), &MESSAGE, BUDGET),
        _ => plan_at(&MESSAGE, BUDGET, window),
    }
}

impl Plan {
    /// The same but for the head at an index.
    pub fn with_head(self, index: usize, segment: Segment, data_octets: u64) -> Self {
        let at = frozen::HEADS + layout::HEAD * index;
        self.with(at, &head(segment, data_octets))
    }
}
