//! Whether a buffer spells what its layout says (257), and whether the state that a record spells is impossible (62): document 01's list,
//! and document 02's neither profile (2026-11), read here from the octets alone.

use crate::profiles::{self, IN_RECEIVER, IN_SENDER};
use crate::spell::SENDER_PLAN;
use catkhize::layout;
use record::octets::Take;

/// The exports' own refusals: a buffer is shorter than its layout, spells no value, a number names no case.
pub const TOO_SHORT: u32 = 256;
pub const SPELLS_NONE: u32 = 257;
pub const NAMES_NONE: u32 = 258;

/// A flag, and a value that is 0 where the flag is.
fn optional(take: &mut Take, octets: usize) -> bool {
    let flag = take.take8();
    let value = take.octets(octets);
    flag == 1 || flag == 0 && value.iter().all(|octet| *octet == 0)
}

fn kind(take: &mut Take) -> bool {
    let tag = take.take8();
    let length = optional(take, 2);
    let mut services_at = Take(take.0);
    let services_flag = services_at.take8();
    let services = optional(take, 3);
    let [compression, window, crc_status] = [
        services_at.take8(),
        services_at.take8(),
        services_at.take8(),
    ];
    let crc_tag = take.take8();
    let value = take.take32();
    tag <= 2
        && length
        && services
        && (services_flag == 0 || tag == 0 && compression <= 1 && window <= 5 && crc_status <= 2)
        && match crc_tag {
            0 => value == 0,
            1 => tag == 2 && value <= 0xffff,
            2 => tag == 2,
            _ => false,
        }
}

/// A SEGMENT.
pub fn segment(octets: &[u8]) -> bool {
    let mut take = Take(octets);
    take.octets(2);
    kind(&mut take)
}

/// 256 HEADs.
pub fn heads(octets: &[u8]) -> bool {
    octets[..layout::HEADS].chunks(layout::HEAD).all(segment)
}

/// A RESPONSE.
pub fn response(octets: &[u8]) -> bool {
    let mut take = Take(octets);
    take.take8();
    let status = take.take8();
    take.octets(2 + 32);
    let listed = take.take8();
    let support = take.octets(4);
    let most = match listed {
        0 => 0,
        1 => 1,
        _ => return false,
    };
    status <= 13 && support.iter().all(|octet| *octet <= most)
}

fn zero(octets: &[u8]) -> bool {
    octets.iter().all(|octet| *octet == 0)
}

/// A RECEIVER.
pub fn receiver(octets: &[u8]) -> bool {
    let mut take = Take(octets);
    let version = take.take8();
    take.octets(10);
    let protocol = take.take8();
    take.octets(1 + 1 + 1 + 1 + 8);
    let (state, status) = (take.take8(), take.take8());
    let [compression, window, crc_status] = [take.take8(), take.take8(), take.take8()];
    let end = optional(&mut take, 1);
    let length = optional(&mut take, 2);
    take.octets(8);
    let deadline = optional(&mut take, 8);
    take.octets(8 + 32 + 512);
    version == layout::RECEIVER_VERSION
        && protocol <= 2
        && state <= 5
        && (state == 3 && status <= 13 || status == 0)
        && compression <= 1
        && window <= 5
        && crc_status <= 2
        && end
        && length
        && deadline
        && (0..256).all(|_| kind(&mut take))
}

/// A PLAN without its layout version.
fn plan_after_version(octets: &[u8]) -> bool {
    let mut take = Take(octets);
    let form = take.take8();
    let mut planned = Take(take.octets(43));
    let frozen = take.0;
    let right = match form {
        0 => {
            planned.octets(17);
            let window = planned.take8();
            planned.octets(24);
            window <= 5 && planned.take8() <= 1
        }
        1 => zero(planned.0),
        _ => false,
    };
    right && frozen[24] <= 5 && heads(&frozen[25..])
}

/// A PLAN.
pub fn plan(octets: &[u8]) -> bool {
    octets[0] == layout::PLAN_VERSION && plan_after_version(&octets[1..])
}

/// The data octets of a segment, and the segments of a plan, at the most.
pub const MOST_DATA: u64 = 255;
pub const MOST_SEGMENTS: u64 = 256;

/// Where the data of a segment lie in the message.
pub struct Part {
    pub octets: u64,
    pub offset: u64,
}

/// Segment `index` of a PLAN, whoever made it. There is none at or past the count; nor in a planned one where the count passes 256, a capacity
/// passes that of a segment, or it would begin past the message; nor in a frozen one where its data would end past the message.
///
/// Where a planned one's capacities leave octets of the message, as many of the later segments as octets are left, the first of them, have
/// one octet more.
pub fn part(octets: &[u8], index: u8) -> Option<Part> {
    let mut take = Take(&octets[1..]);
    let frozen = take.flag();
    let mut planned = Take(take.octets(43));
    if frozen {
        let (count, message) = (take.take64(), take.take64());
        take.octets(9);
        return frozen_part(take, index).filter(|part| {
            let end = part.offset.checked_add(part.octets);
            u64::from(index) < count && end.is_some_and(|end| end <= message)
        });
    }
    let message = planned.take64();
    planned.octets(10);
    let [begin, later, count] = [planned.take64(), planned.take64(), planned.take64()];
    let index = u64::from(index);
    if index >= count || count > MOST_SEGMENTS || begin > MOST_DATA || later > MOST_DATA {
        return None;
    }
    let longer = left_over(message, [begin, later, count]);
    if longer > 0 && later == MOST_DATA {
        return None;
    }
    let capacity = |index: u64| match index {
        0 => begin,
        _ => later + u64::from(index <= longer),
    };
    let offset = (0..index).map(capacity).sum();
    let left = message.checked_sub(offset)?;
    let octets = capacity(index).min(left);
    Some(Part { octets, offset })
}

/// What the capacities of at most 256 segments leave of a message.
pub fn left_over(message: u64, [begin, later, count]: [u64; 3]) -> u64 {
    message.saturating_sub(begin + (1..count).map(|_| later).sum::<u64>())
}

/// By the heads alone; none where the data before it pass 2^64.
fn frozen_part(mut heads: Take, index: u8) -> Option<Part> {
    let mut length = || {
        heads.octets(layout::SEGMENT);
        heads.take64()
    };
    let mut offset = 0u64;
    for _ in 0..index {
        offset = offset.checked_add(length())?;
    }
    let octets = length();
    Some(Part { octets, offset })
}

/// A STATE.
fn state(octets: &[u8]) -> bool {
    match octets {
        [0 | 1 | 2 | 5, 0, 0, 0] => true,
        [3, completion, 0, 0] => *completion <= 2,
        [4, 0, 0, 0] | [4, 1, 0, _] | [4, 1, 1 | 2, 0] => true,
        [4, 2, 0, status] => *status <= 13,
        _ => false,
    }
}

/// A SENDER.
pub fn sender(octets: &[u8]) -> bool {
    let mut take = Take(octets);
    let version = take.take8();
    take.octets(10);
    let protocol = take.take8();
    take.octets(1 + 1 + 1 + 8);
    let state = state(take.octets(4));
    let submission = optional(&mut take, 17);
    take.octets(8 + 96);
    let deadline = optional(&mut take, 8);
    take.octets(16);
    version == layout::SENDER_VERSION
        && protocol <= 2
        && state
        && submission
        && deadline
        && plan_after_version(take.0)
}

fn marks(take: &mut Take) -> [bool; 256] {
    let words: Vec<u64> = (0..4).map(|_| take.take64()).collect();
    std::array::from_fn(|index| words[index / 64] >> (index % 64) & 1 == 1)
}

/// A record of a receiver that document 01 calls impossible, or that is of neither profile.
pub fn receiver_impossible(octets: &[u8]) -> bool {
    let mut take = Take(&octets[IN_RECEIVER..]);
    let profile = take.take8();
    let maximum = take.take64();
    let state = take.take8();
    take.octets(4);
    let end_known = take.flag();
    let end = usize::from(take.take8());
    take.octets(3);
    let stored = take.take64();
    let deadline = take.flag();
    take.octets(16);
    let held = marks(&mut take);
    let lengths: Vec<u64> = (0..256).map(|_| take.take16() as u64).collect();
    let first_kind = take.take8();
    let held_lengths = || {
        (0..256)
            .filter(|index| held[*index])
            .map(|index| lengths[index])
    };
    let (receiving, complete) = (state == 1, state == 2);
    held_lengths().any(|length| length > 255)
        || held_lengths().sum::<u64>() != stored
        || stored > maximum
        || !(receiving || complete) && held.contains(&true)
        || (receiving || complete) && !(held[0] && first_kind == 0)
        || end_known && held[end + 1..].contains(&true)
        || deadline && !receiving
        || complete && (!end_known || held[..end].contains(&false))
        || !profiles::known(profile)
}

/// A record of a sender that document 01 calls impossible, or that is of neither profile.
pub fn sender_impossible(octets: &[u8]) -> bool {
    let state = octets[layout::sender::STATE];
    let present = octets[27] == 1;
    let index = u64::from(octets[36]);
    let mut take = Take(&octets[53..]);
    let maps = [marks(&mut take), marks(&mut take), marks(&mut take)];
    let deadline = octets[layout::sender::DEADLINE] == 1;
    let plan = &octets[SENDER_PLAN..];
    let count = if plan[0] == 0 {
        Take(&plan[35..]).take64()
    } else {
        Take(&plan[44..]).take64()
    };
    if !(2..=256).contains(&count) {
        return true;
    }
    present != (state <= 1)
        || present && index >= count
        || maps
            .iter()
            .any(|marks| marks[count as usize..].contains(&true))
        || deadline && state >= 3
        || !profiles::known(octets[IN_SENDER])
}
