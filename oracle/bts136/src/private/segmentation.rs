//! Makes a plan of which only the number of segments, the transaction and the window matter.

use super::*;

impl SegmentedMessage {
    pub fn made_up(count: usize, transaction_id: u8, window: AcknowledgmentWindow) -> Self {
        let segment = |index: usize| Segment {
            transaction_id,
            sequence_number: index as u8,
            segment_data: Vec::new(),
            kind: SegmentKind::Continue {
                message_length: None,
            },
        };
        Self {
            segments: (0..count).map(segment).collect(),
            message_octets: 0,
            payload_budget_octets: 0,
            acknowledgment_window: window,
        }
    }
}
