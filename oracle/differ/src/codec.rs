//! Segments: encode and decode.

use crate::spell::{self, FILLING, filled};
use crate::table::{Area, Table};
use crate::watch::{Case, Checked, Checker, same, same_given};
use bts136::l3::broadcast::ProtocolVersion;
use bts136::l3::tsar::{MessageCrc, Segment, SegmentKind, decode_segment};
use catkhize::{calls, layout};
use record::fields::{services, take_head};
use record::make::heads::any_segment;
use record::octets::{Put, Take};
use record::play::codec::{Codec, DECODE, ENCODE};
use record::random::Random;
use record::refusals;

const NAME: &str = "codec";
const HEADER_OCTETS: usize = 3;

#[derive(Default)]
pub struct CodecChecker;

impl Checker for CodecChecker {
    type Original = Codec;

    const NAME: &'static str = NAME;

    fn opens(_: u8) -> bool {
        true
    }

    fn check(&mut self, _: &mut Codec, case: &Case, _: &[u8], table: &mut Table) -> Checked {
        let mut take = Take(&case.input);
        let version = take.take8();
        let area = table.area(NAME);
        if case.op == DECODE {
            return decode(area, take.rest(), version);
        }
        let mut segment = take_head(&mut take);
        let room = take.take16();
        let length = take.take16();
        segment.segment_data = take.octets(length).to_vec();
        encode(area, &segment, version, room)
    }

    fn probe(&mut self, _: &mut Codec, _: &Case, _: &mut Table) -> Checked {
        Ok(())
    }

    fn any_probe(&self, _: &mut Random, _: Option<&Case>) -> Option<Case> {
        None
    }
}

/// Decodes on both sides.
pub fn decode(area: &mut Area, octets: &[u8], version: u8) -> Checked {
    let mut answer = [FILLING; layout::DECODED];
    let found = calls::decode(octets, version, &mut answer);
    area.count(found);
    match decode_segment(octets, ProtocolVersion(version)) {
        Err(error) => {
            let (n, m) = refusals::codec(error);
            same_given(found, 256 * u32::from(n) + u32::from(m))?;
            same("answer", &answer, &[FILLING; layout::DECODED])
        }
        Ok(decoded) => {
            same_given(found, 0)?;
            let data = &decoded.segment.segment_data;
            let unparsed = &decoded.unparsed_octets;
            assert!(octets[HEADER_OCTETS..].starts_with(data) && octets.ends_with(unparsed));
            let mut expected = spell::head(&decoded.segment, data.len());
            expected.put64(unparsed.len() as u64);
            same("answer", &answer, &expected)
        }
    }
}

/// Encodes on both sides, into an output of `room` octets.
pub fn encode(area: &mut Area, segment: &Segment, version: u8, room: usize) -> Checked {
    let mut answer = [FILLING; layout::WRITTEN];
    let mut output = filled(room);
    let spelled = spell::segment(segment);
    let found = calls::encode(
        &spelled,
        &segment.segment_data,
        version,
        &mut output,
        &mut answer,
    );
    area.count(found);
    let mut expected = filled(room);
    match segment.encode(ProtocolVersion(version)) {
        Err(error) => {
            let (n, m) = refusals::codec(error);
            same_given(found, 256 * u32::from(n) + u32::from(m))?;
            same("answer", &answer, &[FILLING; layout::WRITTEN])?;
        }
        Ok(encoded) if encoded.len() > room => {
            same_given(found, 256 * 61)?;
            same("answer", &answer, &[FILLING; layout::WRITTEN])?;
        }
        Ok(encoded) => {
            same_given(found, 0)?;
            same("answer", &answer, &(encoded.len() as u64).to_be_bytes())?;
            expected[..encoded.len()].copy_from_slice(&encoded);
        }
    }
    same("output", &output, &expected)
}

/// What a loop over many inputs found: the case that differs.
pub type Found = Result<(), (Case, String)>;

fn decoding(area: &mut Area, octets: &[u8], version: u8) -> Found {
    decode(area, octets, version).map_err(|what| {
        let mut input = vec![version];
        input.put_all(octets);
        (Case { op: DECODE, input }, what)
    })
}

fn encoding(area: &mut Area, segment: &Segment, version: u8, room: usize) -> Found {
    encode(area, segment, version, room).map_err(|what| {
        let mut input = vec![version];
        record::fields::put_head(&mut input, segment);
        input.put16(room);
        input.put16(segment.segment_data.len());
        input.put_all(&segment.segment_data);
        (Case { op: ENCODE, input }, what)
    })
}

/// Part `part` of the inputs that are run through whole: every input of at most three octets, every 16-bit word after each header, every
/// first octet with every services word's first octet, every version, every length.
pub fn exhaustive(area: &mut Area, part: u8) -> Found {
    if part == 0 {
        for version in 0..=255 {
            decoding(area, &[], version)?;
            decoding(area, &[0, 0, 0], version)?;
        }
    }
    decoding(area, &[part], 1)?;
    for second in 0..=255 {
        decoding(area, &[part, second], 1)?;
        for third in 0..=255 {
            decoding(area, &[part, second, third], 1)?;
        }
    }
    words(area, part)?;
    lengths(area, part)?;
    small_encodes(area, part)
}

/// Every word whose first octet is `high` as a parameter of a Begin, a Continue and an End, alone, cut, and with one octet more.
fn words(area: &mut Area, high: u8) -> Found {
    for low in 0..=255 {
        for header in [[0x05, 0, 0], [0x0d, 1, 0], [0x15, 255, 0]] {
            let octets = [header[0], header[1], header[2], high, low, 0x00, 0x30, 0x10];
            for length in 4..=8 {
                decoding(area, &octets[..length], 1)?;
            }
            // A CRC's last octet, with each value of its reserved bits.
            for last in 0..16 {
                let octets = [header[0], header[1], 0, high, low, last << 4 | last, last];
                decoding(area, &octets[..6], 1)?;
                decoding(area, &octets, 1)?;
            }
        }
    }
    Ok(())
}

/// Data of `octets` octets with every number of them at hand that matters, and a parameter after them.
fn lengths(area: &mut Area, octets: u8) -> Found {
    let whole = HEADER_OCTETS + usize::from(octets);
    for first in 0..24 {
        let mut input = vec![first, if first < 8 { 0 } else { octets }, octets];
        input.extend((0..octets).map(|index| index ^ first));
        input.put_all(&[0x10, octets, 0x20, 0x08]);
        for length in whole.saturating_sub(2)..=input.len() {
            decoding(area, &input[..length], 1)?;
        }
    }
    Ok(())
}

/// Encodings with sequence or data length `part` and every set of parameters.
fn small_encodes(area: &mut Area, part: u8) -> Found {
    let mut kinds = Vec::new();
    for message_length in [None, Some(0), Some(4095), Some(4096), Some(u16::from(part))] {
        kinds.push(SegmentKind::Continue { message_length });
        let none = SegmentKind::Begin {
            message_length,
            services: None,
        };
        kinds.push(none);
        for number in 0..36 {
            let services = Some(services([number % 2, number / 2 % 6, number / 12]));
            kinds.push(SegmentKind::Begin {
                message_length,
                services,
            });
        }
        let word = u16::from(part) << 8 | u16::from(part);
        for crc in [
            None,
            Some(MessageCrc::Crc16(word)),
            Some(MessageCrc::Crc24(u32::from(word) << 8)),
            Some(MessageCrc::Crc24(1 << 24 | u32::from(part))),
        ] {
            kinds.push(SegmentKind::End {
                message_length,
                crc,
            });
        }
    }
    for kind in kinds {
        let mut segment = Segment {
            transaction_id: part % 8,
            sequence_number: part,
            segment_data: Vec::new(),
            kind,
        };
        for room in 0..=10 {
            encoding(area, &segment, 1, room)?;
        }
        segment.sequence_number = 0;
        segment.segment_data = vec![part; usize::from(part)];
        for room in [usize::from(part) + 2, usize::from(part) + 9, 264, 300] {
            encoding(area, &segment, 1, room)?;
        }
        segment.transaction_id = part;
        encoding(area, &segment, part, 300)?;
    }
    Ok(())
}

/// Random inputs: what writing gives, changed in a few places, and octets after a right header.
pub fn random(area: &mut Area, seed: u64, count: usize) -> Found {
    let random = &mut Random::new(seed);
    let mut octets = Vec::new();
    for _ in 0..count {
        match random.below(8) {
            0 => {
                let segment = any_faulty_segment(random);
                let room = random.below(16) + if random.once_in(4) { 0 } else { 256 };
                let version = any_version(random);
                encoding(area, &segment, version, room)?;
                continue;
            }
            1 => {
                let data_octets = if random.once_in(20) {
                    random.below(256)
                } else {
                    random.below(4)
                };
                let segment = any_segment(random, data_octets);
                let encoded = segment.encode(ProtocolVersion(1));
                octets = encoded.expect("writing accepts it");
                for _ in 0..random.below(3) {
                    let place = random.below(octets.len());
                    octets[place] ^= 1 << random.below(8);
                }
            }
            2 => {
                // The last input again, one octet other.
                if !octets.is_empty() {
                    let place = random.below(octets.len());
                    octets[place] = random.octet();
                }
            }
            _ => loose(random, &mut octets),
        }
        let version = any_version(random);
        decoding(area, &octets, version)?;
    }
    Ok(())
}

fn any_version(random: &mut Random) -> u8 {
    if random.once_in(16) {
        random.pick(&[0, 2, 5, 255])
    } else {
        1
    }
}

/// A header that reading takes, then octets whose upper halves are mostly parameter names.
fn loose(random: &mut Random, octets: &mut Vec<u8>) {
    let kind = random.below(3) as u8;
    octets.clear();
    octets.put8(kind * 8 + random.below(8) as u8);
    octets.put8(if kind == 0 { 0 } else { random.octet() });
    octets.put8(random.pick(&[0, 0, 1, 2]));
    for _ in 0..random.below(14) {
        let name = random.pick(&[0, 1, 1, 2, 2, 2, 3, 3, 4, 15]);
        let low = random.pick(&[0, 0, 0, 1, 2, 8, 15]);
        octets.put8(name << 4 | low);
    }
}

fn any_faulty_segment(random: &mut Random) -> Segment {
    let data_octets = if random.once_in(16) {
        random.within(250, 258)
    } else {
        random.below(6)
    };
    let mut segment = any_segment(random, data_octets);
    if random.once_in(8) {
        segment.transaction_id = random.octet();
    }
    if random.once_in(8) {
        segment.sequence_number = random.octet();
    }
    if random.once_in(8) {
        let length = random.next() as u16;
        record::make::codec::state_length(&mut segment, length);
    }
    if random.once_in(8)
        && let SegmentKind::End { crc, .. } = &mut segment.kind
    {
        *crc = Some(MessageCrc::Crc24(random.next() as u32 >> random.below(12)));
    }
    segment
}
