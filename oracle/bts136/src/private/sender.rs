//! Reads and copies the private fields of a sender, and makes one of any fields.

use super::*;
use crate::fields::SenderFields;

impl Submission {
    /// A submission of no sender, for the segment at an index of a plan.
    pub fn made_up(plan: &SegmentedMessage, (index, prepared): (u8, u64)) -> Self {
        Self {
            token: Arc::new(()),
            segment: plan.segments()[usize::from(index)].clone(),
            prepared_monotonic_ms: prepared,
        }
    }
}

impl Sender {
    /// A sender that perhaps no list of calls reaches.
    pub fn made_up(fields: SenderFields) -> Self {
        let acknowledged = |received: bool| {
            if received {
                Acknowledged::Received
            } else {
                Acknowledged::Unreported
            }
        };
        let current = fields.current;
        let current = current.map(|current| Submission::made_up(&fields.plan, current));
        Self {
            peer: fields.peer,
            protocol: fields.protocol,
            version: fields.version,
            plan: fields.plan,
            transaction_id: fields.transaction_id,
            state: fields.state,
            current,
            submitted: fields.submitted,
            retry: fields.retry,
            acknowledged: fields.received.into_iter().map(acknowledged).collect(),
            deadline_monotonic_ms: fields.deadline_monotonic_ms,
            last_monotonic_ms: fields.last_monotonic_ms,
            layer3_submissions: fields.layer3_submissions,
        }
    }

    pub fn copy(&self) -> Self {
        Self {
            plan: self.plan.clone(),
            current: self.current.clone(),
            submitted: self.submitted.clone(),
            retry: self.retry.clone(),
            acknowledged: self.acknowledged.clone(),
            ..*self
        }
    }

    pub fn plan(&self) -> &SegmentedMessage {
        &self.plan
    }

    /// The index and the prepared reading of the submission that is offered or awaited.
    pub fn current(&self) -> Option<(u8, u64)> {
        let current = self.current.as_ref()?;
        Some((
            current.segment.sequence_number,
            current.prepared_monotonic_ms,
        ))
    }

    /// That submission itself.
    pub fn current_submission(&self) -> Option<Submission> {
        self.current.clone()
    }

    pub fn submitted_marks(&self) -> &[bool] {
        &self.submitted
    }

    pub fn retry_marks(&self) -> &[bool] {
        &self.retry
    }

    pub fn received_marks(&self) -> impl Iterator<Item = bool> {
        self.acknowledged
            .iter()
            .map(|acknowledged| *acknowledged == Acknowledged::Received)
    }

    pub fn last_monotonic_ms(&self) -> u64 {
        self.last_monotonic_ms
    }

    pub fn set_layer3_submissions(&mut self, count: u64) {
        self.layer3_submissions = count;
    }
}
