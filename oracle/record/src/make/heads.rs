//! Random heads, with a preference for the values where a rule changes.

use crate::fields::services;
use crate::random::Random;
use bts136::l3::tsar::{MessageCrc, OptionalServices, Segment, SegmentKind};

pub const WINDOWS: u8 = 6;

pub fn any_services(random: &mut Random) -> OptionalServices {
    services([
        random.below(2) as u8,
        random.below(usize::from(WINDOWS)) as u8,
        random.below(3) as u8,
    ])
}

pub fn any_crc(random: &mut Random) -> MessageCrc {
    if random.once_in(2) {
        MessageCrc::Crc16(random.next() as u16)
    } else {
        MessageCrc::Crc24(random.next() as u32 >> 8)
    }
}

pub fn any_length(random: &mut Random) -> u16 {
    match random.below(3) {
        0 => random.pick(&[0, 1, 2, 255, 256, 4094, 4095]),
        1 => random.below(16) as u16,
        _ => random.below(4096) as u16,
    }
}

/// A kind of the given tag with random parameters that writing accepts.
pub fn any_kind(random: &mut Random, tag: u8) -> SegmentKind {
    let message_length = random.once_in(2).then(|| any_length(random));
    match tag {
        0 => SegmentKind::Begin {
            message_length,
            services: random.once_in(2).then(|| any_services(random)),
        },
        1 => SegmentKind::Continue { message_length },
        _ => SegmentKind::End {
            message_length,
            crc: random.once_in(2).then(|| any_crc(random)),
        },
    }
}

/// A segment that writing accepts under any version but 0.
pub fn any_segment(random: &mut Random, data_octets: usize) -> Segment {
    let tag = random.below(3) as u8;
    let sequence = random.pick(&[0, 1, 2, 127, 128, 254, 255]);
    Segment {
        transaction_id: random.below(8) as u8,
        sequence_number: if tag == 0 { 0 } else { sequence },
        segment_data: (0..data_octets).map(|_| random.octet()).collect(),
        kind: any_kind(random, tag),
    }
}
