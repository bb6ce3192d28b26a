//! Plans under Exceptions, by document 02 (2026-09): the planners refuse them with 25, which the original has not; frozen ones go on.

use crate::plans::wanted;
use crate::spell;
use bts136::l3::tsar::MessagePlan;
use record::fields::EXCEPTIONS;
use record::play::plan::{Frozen, Wanted};
use record::refusals::Refusal;

const EXCEPTIONS_WINDOW: Refusal = (25, 0);

/// What plan_message has to answer: what the original's planner does, and 25 where equality with that leaves it out.
pub fn planned(wanted: &Wanted) -> Result<MessagePlan, Refusal> {
    if wanted.is_left_out() {
        return Err(EXCEPTIONS_WINDOW);
    }
    wanted.plan()
}

/// The planned plan that stands in the record of a list's sender in the place of its frozen one: where the window is Exceptions, the seed of
/// the message is odd, and the original's planner gives the same segments. try_new does not take it, but a sender that has it goes on.
pub fn kept(frozen: &Frozen) -> Option<Vec<u8>> {
    let plan = frozen.check().ok()?;
    let wanted = wanted(frozen, &plan);
    if wanted.window != EXCEPTIONS || frozen.message_seed.is_multiple_of(2) {
        return None;
    }
    let planned = wanted.segmented()?;
    (planned == plan).then(|| spell::planned(&planned))
}
