//! What the measurements share: the sizes, the terms of every receiver, the buffers, segments, and medians. The exports themselves and the
//! sizes of their layouts are those of rust/catkhize.

use bts136::l3::broadcast::ProtocolVersion;
use bts136::l3::tsar::{
    AcknowledgmentWindow, Compression, CrcStatus, OptionalServices, Segment, SegmentKind,
};
use catkhize::calls::{self, Origin};
use catkhize::{PROFILE_1, layout};
use plain::receiver::Reported;

pub const SEGMENTS: usize = 256;
pub const SEGMENT_OCTETS: usize = 255;
pub const MESSAGE_OCTETS: usize = SEGMENTS * SEGMENT_OCTETS;
pub const HEADER_OCTETS: usize = 3;
pub const FILL: u8 = 0xa5;

/// The peer, and a protocol that is segmented.
pub const ORIGIN: Origin = Origin {
    kind: 1,
    width: 34,
    value: 7,
    protocol: 0,
    octet: 1,
};
pub const TRANSACTION: u8 = 0;
pub const VERSION: ProtocolVersion = ProtocolVersion::Pv1;
/// The reading of every call.
pub const READING: u64 = 0;

/// What a program needs beside the segments. Filled once, never cleared between runs.
pub struct Buffers {
    pub record: Vec<u8>,
    pub store: Vec<u8>,
    pub output: Vec<u8>,
    /// Where plain Rust hands out its responses.
    pub responses: Vec<Option<Reported>>,
}

impl Buffers {
    pub fn new() -> Self {
        Self {
            record: vec![FILL; layout::RECEIVER],
            store: vec![FILL; MESSAGE_OCTETS],
            output: vec![FILL; MESSAGE_OCTETS],
            responses: vec![None; SEGMENTS],
        }
    }

    /// Makes a new receiver's record.
    pub fn make(&mut self) {
        let made = calls::receiver_new(
            &mut self.record,
            ORIGIN,
            TRANSACTION,
            VERSION.code(),
            PROFILE_1,
            MESSAGE_OCTETS as u64,
            READING,
        );
        assert_eq!(made, 0, "these terms are served");
    }
}

pub const CONTINUE: SegmentKind = SegmentKind::Continue {
    message_length: None,
};
pub const END: SegmentKind = SegmentKind::End {
    message_length: None,
    crc: None,
};

/// A Begin that asks for this window.
pub fn begin(window: AcknowledgmentWindow) -> SegmentKind {
    SegmentKind::Begin {
        message_length: None,
        services: (window != AcknowledgmentWindow::Prohibited).then_some(OptionalServices {
            compression: Compression::None,
            acknowledgment_window: window,
            crc_status: CrcStatus::None,
        }),
    }
}

/// A segment's octets.
pub fn encoded(sequence_number: u8, kind: SegmentKind, data: &[u8]) -> Vec<u8> {
    Segment {
        transaction_id: TRANSACTION,
        sequence_number,
        segment_data: data.to_vec(),
        kind,
    }
    .encode(VERSION)
    .expect("the codec takes these segments")
}

pub fn median(mut times: Vec<f64>) -> f64 {
    times.sort_by(f64::total_cmp);
    times[times.len() / 2]
}
