//! The even planner of document 02, which the original has not: worked out from the original's plan. The octets behind the Begin's are dealt
//! out to the later segments one at a time, so what is left over goes to the first of them.

use bts136::l3::tsar::{MessagePlan, Segment, SegmentedMessage};
use record::play::plan::{Frozen, Head, NO_PATCH, Wanted};
use record::refusals::Refusal;

/// The data octets of each segment of a plan, dealt out anew.
pub fn lengths(plan: &SegmentedMessage) -> Vec<usize> {
    let segments = plan.segments();
    let begin = segments[0].segment_data.len();
    let later = segments.len() - 1;
    let mut lengths = vec![0; segments.len()];
    lengths[0] = begin;
    for octet in 0..plan.message_octets() - begin {
        lengths[1 + octet % later] += 1;
    }
    lengths
}

/// The segments of a plan with these lengths, as the frozen check takes them.
pub fn train(wanted: &Wanted, plan: &SegmentedMessage) -> Frozen {
    let head = |(segment, data_octets): (&Segment, usize)| Head {
        segment: Segment {
            segment_data: Vec::new(),
            ..segment.clone()
        },
        data_octets,
    };
    let heads = plan.segments().iter().zip(lengths(plan)).map(head);
    let heads: Vec<Head> = heads.collect();
    Frozen {
        count: heads.len(),
        message_octets: wanted.message_octets,
        message_seed: wanted.seed,
        budget: wanted.budget,
        version: wanted.version,
        ceiling: wanted.ceiling,
        joined_octets: wanted.message_octets,
        joined_seed: wanted.seed,
        patch_position: NO_PATCH,
        patch_change: 0,
        heads,
    }
}

/// What the even planner has to answer where the original's planner answers this: the same, or the plan dealt out anew, which the original's
/// frozen check takes.
pub fn spread(
    wanted: &Wanted,
    original: &Result<MessagePlan, Refusal>,
) -> Result<Result<MessagePlan, Refusal>, String> {
    let Ok(MessagePlan::Segmented(plan)) = original else {
        return Ok(original.clone());
    };
    match train(wanted, plan).check() {
        Ok(even) => Ok(Ok(MessagePlan::Segmented(even))),
        Err((n, m)) => Err(format!("the original's frozen check gives {n}/{m}")),
    }
}

/// Whether a list's sender has the even plan of its message: where the seed of the message is odd.
pub fn sends(wanted: &Wanted) -> bool {
    wanted.seed % 2 == 1
}

/// The plan that a list's sender is made from.
pub fn sent(wanted: &Wanted) -> Option<SegmentedMessage> {
    let plan = wanted.segmented()?;
    if !sends(wanted) {
        return Some(plan);
    }
    let even = train(wanted, &plan).check();
    Some(even.expect("the original's frozen check takes an even train"))
}
