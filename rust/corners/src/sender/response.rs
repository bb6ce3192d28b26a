//! Responses in octets (RESPONSE), of any numbers.

use super::bench::{ORIGIN, TRANSACTION};
use super::record::{Sender, Sent, Words};
use catkhize::{Status, layout};

#[derive(Clone, Copy)]
pub struct Response {
    pub transaction: u8,
    pub status: Status,
    pub map: Words,
    pub entries: u16,
    /// Compression, encryption, window, CRC.
    pub support: Option<[u8; 4]>,
}

impl Response {
    /// A response to the sender's transaction, without a support list.
    pub fn new(status: Status, map: Words, entries: u16) -> Self {
        Self {
            transaction: TRANSACTION,
            status,
            map,
            entries,
            support: None,
        }
    }

    pub fn octets(&self) -> [u8; layout::RESPONSE] {
        let mut octets = [0; layout::RESPONSE];
        octets[0] = self.transaction;
        octets[1] = self.status as u8;
        octets[2..4].copy_from_slice(&self.entries.to_be_bytes());
        octets[4..36].copy_from_slice(&self.map.map(u64::to_be_bytes).concat());
        octets[36] = u8::from(self.support.is_some());
        octets[37..].copy_from_slice(&self.support.unwrap_or_default());
        octets
    }
}

impl Sender {
    /// A response of the sender's peer and service arrives whole.
    pub fn hears(&self, response: Response, monotonic_ms: u64) -> Sent {
        self.receive_response(ORIGIN, response, 0, monotonic_ms)
    }

    /// The same, with a map of so many entries, of which the first 64 are given by bits.
    pub fn arrives(&self, status: Status, bits: u64, entries: u16, monotonic_ms: u64) -> Sent {
        let response = Response::new(status, [bits, 0, 0, 0], entries);
        self.hears(response, monotonic_ms)
    }
}
