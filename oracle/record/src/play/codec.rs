//! Ops 01 (decode) and 02 (encode).

use crate::fields::{put_head, take_head};
use crate::list::{DONE, Player};
use crate::octets::{Put, Take};
use crate::refusals::{self, OUTPUT_TOO_SHORT};
use bts136::l3::broadcast::ProtocolVersion;
use bts136::l3::tsar::decode_segment;

pub const DECODE: u8 = 0x01;
pub const ENCODE: u8 = 0x02;

/// What every octet of a lent output holds before the call.
const FILLING: u8 = 0xa5;
const HEADER_OCTETS: usize = 3;

#[derive(Default)]
pub struct Codec;

impl Player for Codec {
    fn play(&mut self, op: u8, input: &[u8]) -> Vec<u8> {
        match op {
            DECODE => decode(Take(input)),
            ENCODE => encode(Take(input)),
            _ => panic!("op {op:02x}"),
        }
    }
}

fn decode(mut input: Take) -> Vec<u8> {
    let version = ProtocolVersion(input.take8());
    let octets = input.rest();
    let decoded = match decode_segment(octets, version) {
        Ok(decoded) => decoded,
        Err(error) => return refusals::answer(refusals::codec(error)),
    };
    let data = &decoded.segment.segment_data;
    let unparsed = &decoded.unparsed_octets;
    // So the two lengths tell all octets.
    assert!(octets[HEADER_OCTETS..].starts_with(data) && octets.ends_with(unparsed));
    let mut answer = vec![DONE];
    put_head(&mut answer, &decoded.segment);
    answer.put16(data.len());
    answer.put16(unparsed.len());
    answer
}

fn encode(mut input: Take) -> Vec<u8> {
    let version = ProtocolVersion(input.take8());
    let mut segment = take_head(&mut input);
    let room = input.take16();
    let length = input.take16();
    segment.segment_data = input.octets(length).to_vec();
    let mut output = vec![FILLING; room];
    let mut answer = match segment.encode(version) {
        Err(error) => refusals::answer(refusals::codec(error)),
        Ok(encoded) if encoded.len() > room => refusals::answer(OUTPUT_TOO_SHORT),
        Ok(encoded) => {
            output[..encoded.len()].copy_from_slice(&encoded);
            let mut answer = vec![DONE];
            answer.put16(encoded.len());
            answer
        }
    };
    answer.put_all(&output);
    answer
}
