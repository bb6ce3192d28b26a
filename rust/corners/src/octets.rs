//! Octets to write cases with: those of document 01, patterns, and the layouts of docs/EXPORTS.md spelled field by field.

use catkhize::{
    AcknowledgmentWindow, Compression, CrcStatus, MessageCrc, OptionalServices, layout,
};

/// What every octet that is lent is before a case.
pub const FILL: u8 = 0xa5;

/// A buffer is longer than its layout by so many octets, which have to stay.
pub const PAST: usize = 16;

/// SEGMENT.
pub type Segment = [u8; layout::SEGMENT];

/// The number that a call gives for document 01's refusal n/m, of which m is 0 where there is none.
pub const fn refusal(n: u32, m: u32) -> u32 {
    256 * n + m
}

/// So many octets that nothing has written to.
pub fn filled(octets: usize) -> Vec<u8> {
    vec![FILL; octets]
}

/// So many octets, of which only the first have been written to.
pub fn at_front(octets: &[u8], room: usize) -> Vec<u8> {
    let mut all = filled(room);
    all[..octets.len()].copy_from_slice(octets);
    all
}

/// Octets as document 01 writes them.
pub fn hex(text: &str) -> Vec<u8> {
    text.split_whitespace()
        .map(|octet| u8::from_str_radix(octet, 16).expect("two hexadecimal digits"))
        .collect()
}

/// Octet i is (seed + 7 × i + i / 256) mod 256.
pub fn pattern(octets: usize, seed: u8) -> Vec<u8> {
    (0..octets)
        .map(|i| (usize::from(seed) + 7 * i + i / 256) as u8)
        .collect()
}

/// The first octet that is not the wanted one. Cases with long buffers compare this with none.
pub fn difference(given: &[u8], wanted: &[u8]) -> Option<String> {
    assert_eq!(given.len(), wanted.len());
    let mut pairs = given.iter().zip(wanted);
    let at = pairs.position(|(given, wanted)| given != wanted)?;
    let (given, wanted) = (given[at], wanted[at]);
    Some(format!("octet {at}: {given:02x} and not {wanted:02x}"))
}

/// A flag, then the value, or as many octets that are 0.
pub fn flagged<const N: usize>(value: Option<[u8; N]>) -> Vec<u8> {
    let mut octets = vec![u8::from(value.is_some())];
    octets.extend(value.unwrap_or([0; N]));
    octets
}

/// Services that are spelled out.
pub const fn services(
    compression: Compression,
    acknowledgment_window: AcknowledgmentWindow,
    crc_status: CrcStatus,
) -> Option<OptionalServices> {
    Some(OptionalServices {
        compression,
        acknowledgment_window,
        crc_status,
    })
}

/// Services of a window alone.
pub const fn window(acknowledgment_window: AcknowledgmentWindow) -> Option<OptionalServices> {
    services(Compression::None, acknowledgment_window, CrcStatus::None)
}

/// The services of a Begin that asks for a window: under Prohibited it has none.
pub fn carried(asked: AcknowledgmentWindow) -> Option<OptionalServices> {
    window(asked).filter(|_| asked != AcknowledgmentWindow::Prohibited)
}

/// Compression, window, CRC status.
pub fn services_octets(services: OptionalServices) -> [u8; 3] {
    [
        services.compression as u8,
        services.acknowledgment_window as u8,
        services.crc_status as u8,
    ]
}

fn segment(
    start: [u8; 3],
    length: Option<u16>,
    services: Option<OptionalServices>,
    crc: Option<MessageCrc>,
) -> Segment {
    let (crc_kind, crc) = match crc {
        None => (0, 0),
        Some(MessageCrc::Crc16(crc)) => (1, u32::from(crc)),
        Some(MessageCrc::Crc24(crc)) => (2, crc),
    };
    let mut octets = start.to_vec();
    octets.extend(flagged(length.map(u16::to_be_bytes)));
    octets.extend(flagged(services.map(services_octets)));
    octets.push(crc_kind);
    octets.extend(crc.to_be_bytes());
    octets.try_into().expect("the octets of a SEGMENT")
}

/// A Begin, with sequence 0.
pub fn begin(transaction: u8, length: Option<u16>, services: Option<OptionalServices>) -> Segment {
    segment([transaction, 0, 0], length, services, None)
}

/// A Continue.
pub fn later(transaction: u8, sequence: u8, length: Option<u16>) -> Segment {
    segment([transaction, sequence, 1], length, None, None)
}

/// An End.
pub fn end(transaction: u8, sequence: u8, length: Option<u16>, crc: Option<MessageCrc>) -> Segment {
    segment([transaction, sequence, 2], length, None, crc)
}

/// So many segments, one after another, of so many data octets each.
pub type Run = (usize, u64);

/// The data octets of each segment.
pub fn lengths(runs: &[Run]) -> Vec<u64> {
    let runs = runs.iter();
    runs.flat_map(|(segments, octets)| vec![*octets; *segments])
        .collect()
}

/// The segments of a train whose Begin states this length, or none, and asks for this window, each with so many data octets.
pub fn train(
    transaction: u8,
    length: Option<u16>,
    asked: AcknowledgmentWindow,
    data: &[u64],
) -> Vec<(Segment, u64)> {
    let last = data.len() - 1;
    let segment = |index: usize| match index {
        0 => begin(transaction, length, carried(asked)),
        _ if index == last => end(transaction, index as u8, None, None),
        _ => later(transaction, index as u8, None),
    };
    let data = data.iter().enumerate();
    data.map(|(index, octets)| (segment(index), *octets))
        .collect()
}

/// The segment with another sequence.
pub fn placed(segment: Segment, sequence: u8) -> Segment {
    let mut segment = segment;
    segment[1] = sequence;
    segment
}

/// The segment with this length stated, or none.
pub fn stating(segment: Segment, length: Option<u16>) -> Segment {
    let mut segment = segment;
    segment[3..6].copy_from_slice(&flagged(length.map(u16::to_be_bytes)));
    segment
}

/// The length that a segment states.
pub fn stated(segment: Segment) -> Option<u16> {
    (segment[3] == 1).then(|| u16::from_be_bytes([segment[4], segment[5]]))
}

/// HEAD: a segment with so many octets of data.
pub fn head(segment: Segment, data_octets: u64) -> [u8; layout::HEAD] {
    let octets = [&segment[..], &data_octets.to_be_bytes()].concat();
    octets.try_into().expect("the octets of a HEAD")
}
