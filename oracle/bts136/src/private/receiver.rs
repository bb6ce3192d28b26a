//! Reads the private fields of a receiver, and makes one of any fields.

use super::*;
use crate::fields::ReceiverFields;

impl Receiver {
    /// A receiver that perhaps no list of calls reaches.
    pub fn made_up(fields: ReceiverFields) -> Self {
        Self {
            peer: fields.peer,
            protocol: fields.protocol,
            transaction_id: fields.transaction_id,
            version: fields.version,
            maximum_message_octets: fields.maximum_message_octets,
            state: fields.state,
            services: fields.services,
            segments: fields.segments,
            end_sequence: fields.end_sequence,
            message_length: fields.message_length,
            stored_octets: fields.stored_octets,
            deadline_monotonic_ms: fields.deadline_monotonic_ms,
            last_monotonic_ms: fields.last_monotonic_ms,
        }
    }

    pub fn version_code(&self) -> u8 {
        self.version.code()
    }

    pub fn services(&self) -> OptionalServices {
        self.services
    }

    pub fn segments(&self) -> &[Option<Segment>] {
        &self.segments
    }

    pub fn end_sequence(&self) -> Option<u8> {
        self.end_sequence
    }

    pub fn message_length(&self) -> Option<u16> {
        self.message_length
    }

    pub fn last_monotonic_ms(&self) -> u64 {
        self.last_monotonic_ms
    }
}
