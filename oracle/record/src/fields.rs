//! The fields that several ops share, written and read in one place each.

use crate::octets::{Put, Take};
use bts136::l3::relay::HigherLayerProtocol;
use bts136::l3::tsar::{
    AcknowledgmentMap, AcknowledgmentWindow, Compression, CrcStatus, MessageCrc, OptionalServices,
    OptionalServicesSupport, Response, Segment, SegmentKind, Status,
};
use bts136::link::rach::MobileIdentity;

pub const BEGIN: u8 = 0;
pub const CONTINUE: u8 = 1;
pub const END: u8 = 2;

const NO_CRC: u8 = 0;
const CRC16: u8 = 1;
const CRC24: u8 = 2;

/// The window under which no planner of the port makes a plan (document 02, 2026-09).
pub const EXCEPTIONS: u8 = AcknowledgmentWindow::Exceptions as u8;

pub fn window(number: u8) -> AcknowledgmentWindow {
    match number {
        0 => AcknowledgmentWindow::Prohibited,
        1 => AcknowledgmentWindow::Every4,
        2 => AcknowledgmentWindow::Every8,
        3 => AcknowledgmentWindow::Every16,
        4 => AcknowledgmentWindow::Last,
        5 => AcknowledgmentWindow::Exceptions,
        _ => panic!("window {number}"),
    }
}

fn compression(number: u8) -> Compression {
    match number {
        0 => Compression::None,
        1 => Compression::V42Bis,
        _ => panic!("compression {number}"),
    }
}

fn crc_status(number: u8) -> CrcStatus {
    match number {
        0 => CrcStatus::None,
        1 => CrcStatus::Crc16,
        2 => CrcStatus::Crc24,
        _ => panic!("CRC status {number}"),
    }
}

pub fn services(numbers: [u8; 3]) -> OptionalServices {
    OptionalServices {
        compression: compression(numbers[0]),
        acknowledgment_window: window(numbers[1]),
        crc_status: crc_status(numbers[2]),
    }
}

pub fn put_length(out: &mut Vec<u8>, length: Option<u16>) {
    out.put8(u8::from(length.is_some()));
    out.put16(usize::from(length.unwrap_or(0)));
}

pub fn put_services(out: &mut Vec<u8>, services: Option<OptionalServices>) {
    out.put8(u8::from(services.is_some()));
    let services = services.unwrap_or_default();
    out.put8(services.compression as u8);
    out.put8(services.acknowledgment_window as u8);
    out.put8(services.crc_status as u8);
}

fn put_crc(out: &mut Vec<u8>, crc: Option<MessageCrc>) {
    let (tag, value) = match crc {
        None => (NO_CRC, 0),
        Some(MessageCrc::Crc16(value)) => (CRC16, usize::from(value)),
        Some(MessageCrc::Crc24(value)) => (CRC24, value as usize),
    };
    out.put8(tag);
    out.put32(value);
}

/// Kind tag, stated length, services and CRC: 13 octets.
fn put_kind(out: &mut Vec<u8>, kind: &SegmentKind) {
    let (tag, length, services, crc) = match *kind {
        SegmentKind::Begin {
            message_length,
            services,
        } => (BEGIN, message_length, services, None),
        SegmentKind::Continue { message_length } => (CONTINUE, message_length, None, None),
        SegmentKind::End {
            message_length,
            crc,
        } => (END, message_length, None, crc),
    };
    out.put8(tag);
    put_length(out, length);
    put_services(out, services);
    put_crc(out, crc);
}

fn take_kind(take: &mut Take) -> SegmentKind {
    let tag = take.take8();
    let stated = take.flag();
    let length = take.take16() as u16;
    let message_length = stated.then_some(length);
    let present = take.flag();
    let spelled = services([take.take8(), take.take8(), take.take8()]);
    let crc_tag = take.take8();
    let value = take.take32() as u32;
    match tag {
        BEGIN => SegmentKind::Begin {
            message_length,
            services: present.then_some(spelled),
        },
        CONTINUE => SegmentKind::Continue { message_length },
        END => SegmentKind::End {
            message_length,
            crc: crc(crc_tag, value),
        },
        _ => panic!("kind {tag}"),
    }
}

fn crc(tag: u8, value: u32) -> Option<MessageCrc> {
    match tag {
        NO_CRC => None,
        CRC16 => Some(MessageCrc::Crc16(
            u16::try_from(value).expect("a CRC-16 has 16 bits"),
        )),
        CRC24 => Some(MessageCrc::Crc24(value)),
        _ => panic!("CRC tag {tag}"),
    }
}

/// Transaction, sequence, kind tag, stated length, services, CRC: 15 octets, without the data.
pub fn put_head(out: &mut Vec<u8>, segment: &Segment) {
    out.put8(segment.transaction_id);
    out.put8(segment.sequence_number);
    put_kind(out, &segment.kind);
}

/// A segment as `put_head` wrote it, without data.
pub fn take_head(take: &mut Take) -> Segment {
    Segment {
        transaction_id: take.take8(),
        sequence_number: take.take8(),
        kind: take_kind(take),
        segment_data: Vec::new(),
    }
}

pub fn put_peer(out: &mut Vec<u8>, peer: MobileIdentity) {
    let (kind, width, value) = peer.parts();
    out.put8(kind);
    out.put8(width);
    out.put64(value);
}

pub fn take_peer(take: &mut Take) -> MobileIdentity {
    MobileIdentity {
        kind: take.take8(),
        width: take.take8(),
        value: take.take64(),
    }
}

/// Document 01 gives 30 for a width above 63. The original shifts by the width, which is not
/// defined there, so it is not asked.
pub fn width_is_served(peer: MobileIdentity) -> bool {
    u32::from(peer.width) < u64::BITS
}

pub fn put_protocol(out: &mut Vec<u8>, protocol: HigherLayerProtocol) {
    let (tag, octet) = match protocol {
        HigherLayerProtocol::Segmented(octet) => (0, octet),
        HigherLayerProtocol::CarrierSpecific(octet) => (1, octet),
        HigherLayerProtocol::Other(octet) => (2, octet),
    };
    out.put8(tag);
    out.put8(octet);
}

pub fn take_protocol(take: &mut Take) -> HigherLayerProtocol {
    let (tag, octet) = (take.take8(), take.take8());
    match tag {
        0 => HigherLayerProtocol::Segmented(octet),
        1 => HigherLayerProtocol::CarrierSpecific(octet),
        2 => HigherLayerProtocol::Other(octet),
        _ => panic!("protocol {tag}"),
    }
}

pub const STATUSES: [Status; 14] = [
    Status::Continuing,
    Status::InterSegmentTimeout,
    Status::Aborted,
    Status::CrcSelectionUnsupported,
    Status::CompressionUnsupported,
    Status::EncryptionUnsupported,
    Status::AcknowledgmentWindowUnsupported,
    Status::ProtocolUnsupported,
    Status::MessageLengthError,
    Status::MessageTooLong,
    Status::Received,
    Status::DuplicateSizeMismatch,
    Status::CrcError,
    Status::MultipleServicesUnsupported,
];

pub const MAP_OCTETS: usize = 32;
const RESPONSE_OCTETS: usize = 42;

/// Flag, transaction, status, number of entries, map, support list: 42 octets.
pub fn put_response(out: &mut Vec<u8>, response: Option<&Response>) {
    out.put8(u8::from(response.is_some()));
    let Some(response) = response else {
        out.put_all(&[0; RESPONSE_OCTETS - 1]);
        return;
    };
    out.put8(response.transaction_id);
    out.put8(response.status as u8);
    put_map(out, &response.acknowledgments);
    put_support(out, response.optional_services_support);
}

fn put_map(out: &mut Vec<u8>, map: &AcknowledgmentMap) {
    let mut octets = [0; MAP_OCTETS];
    for index in 0..map.bit_count() {
        if map.received(index as u8) == Some(true) {
            octets[index / 8] |= 1 << (index % 8);
        }
    }
    out.put16(map.bit_count());
    out.put_all(&octets);
}

pub fn put_support(out: &mut Vec<u8>, support: Option<OptionalServicesSupport>) {
    let bits = support.map_or([false; 4], |support| {
        [
            support.compression,
            support.encryption,
            support.acknowledgment_window,
            support.crc,
        ]
    });
    out.put8(u8::from(support.is_some()));
    out.put_all(&bits.map(u8::from));
}

pub fn take_support(take: &mut Take) -> Option<OptionalServicesSupport> {
    let present = take.flag();
    let support = OptionalServicesSupport {
        compression: take.flag(),
        encryption: take.flag(),
        acknowledgment_window: take.flag(),
        crc: take.flag(),
    };
    present.then_some(support)
}

pub fn put_reading(out: &mut Vec<u8>, reading: Option<u64>) {
    out.put8(u8::from(reading.is_some()));
    out.put64(reading.unwrap_or(0));
}
