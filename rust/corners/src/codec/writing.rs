//! Writing: document 01's corners, the boundary of each refusal, and room. Every octet of output and answer is compared.

use crate::octets::{
    PAST, Segment, at_front, begin, difference, end, filled, hex, later, placed, refusal, services,
    window,
};
use crate::tally::{Group, Tally};
use catkhize::AcknowledgmentWindow::{Every4, Every8, Every16, Exceptions, Last, Prohibited};
use catkhize::MessageCrc::{Crc16, Crc24};
use catkhize::{Compression, CrcStatus, calls, layout};

/// The octets of an output, of which a call is lent the first.
const OUTPUT: usize = 300;

/// What a call gives, its answer, and the output after it.
type Written = (u32, Vec<u8>, Vec<u8>);

/// These octets are written, and nothing past them.
fn written(octets: &[u8]) -> Written {
    let count = (octets.len() as u64).to_be_bytes();
    let answer = at_front(&count, layout::WRITTEN + PAST);
    (0, answer, at_front(octets, OUTPUT))
}

/// Refusal n/m, and nothing is written.
fn refused(n: u32, m: u32) -> Written {
    let answer = filled(layout::WRITTEN + PAST);
    (refusal(n, m), answer, filled(OUTPUT))
}

/// Writing the segment with its data into so much room comes to what is wanted.
fn case(g: &mut Group, segment: Segment, version: u8, data: &[u8], room: usize, wanted: Written) {
    let mut answer = filled(layout::WRITTEN + PAST);
    let mut output = filled(OUTPUT);
    let room = &mut output[..room];
    let given = calls::encode(&segment, data, version, room, &mut answer);
    let (number, wanted_answer, wanted_output) = wanted;
    g.case(
        (
            given,
            difference(&answer, &wanted_answer),
            difference(&output, &wanted_output),
        ),
        (number, None, None),
    );
}

/// Under version 1 the octets of the header, the data and the parameters are written.
fn writes(g: &mut Group, segment: Segment, data: &[u8], room: usize, around: [&str; 2]) {
    let [header, parameters] = around.map(hex);
    let octets = [&header, data, &parameters].concat();
    case(g, segment, 1, data, room, written(&octets));
}

/// Under version 1 the refusal is n/m.
fn refuses(g: &mut Group, segment: Segment, data: &[u8], room: usize, n: u32, m: u32) {
    case(g, segment, 1, data, room, refused(n, m));
}

/// P9: the length stands before the services.
fn marked(g: &mut Group) {
    writes(g, begin(0, None, None), b"", 3, ["00 00 00", ""]);
    writes(g, later(3, 1, None), b"AB", 5, ["0B 01 02", ""]);
    let crc = end(0, 1, None, Some(Crc16(0x1234)));
    writes(g, crc, b"", 6, ["10 01 00", "21 23 40"]);
    let asking = begin(0, None, window(Every4));
    writes(g, asking, b"", 5, ["00 00 00", "20 08"]);
    let both = begin(0, Some(5), window(Every4));
    writes(g, both, b"", 7, ["00 00 00", "10 05 20 08"]);
}

fn lengths(g: &mut Group) {
    let most = Some(4_095);
    writes(g, begin(0, most, None), b"", 5, ["00 00 00", "1F FF"]);
    writes(g, later(0, 0, most), b"", 5, ["08 00 00", "1F FF"]);
    writes(g, end(0, 0, most, None), b"", 5, ["10 00 00", "1F FF"]);
    let more = Some(4_096);
    refuses(g, begin(0, more, None), b"", 5, 6, 4);
    refuses(g, later(0, 0, more), b"", 5, 6, 4);
    refuses(g, end(0, 0, more, None), b"", 5, 6, 4);
    refuses(g, later(0, 0, Some(65_535)), b"", 5, 6, 4);
}

fn versions(g: &mut Group) {
    let plain = later(0, 0, None);
    let octets = hex("08 00 00");
    case(g, plain, 0, b"", 3, refused(1, 0));
    case(g, plain, 1, b"", 3, written(&octets));
    case(g, plain, 255, b"", 3, written(&octets));
}

/// Transaction 7 and 8; Begin's sequence 0 and 1, and other types' 0 and 255.
fn header(g: &mut Group) {
    let plain = begin(0, None, None);
    writes(g, later(7, 0, None), b"", 3, ["0F 00 00", ""]);
    refuses(g, later(8, 0, None), b"", 3, 6, 1);
    refuses(g, later(255, 0, None), b"", 3, 6, 1);
    writes(g, plain, b"", 3, ["00 00 00", ""]);
    refuses(g, placed(plain, 1), b"", 3, 6, 3);
    refuses(g, placed(plain, 255), b"", 3, 6, 3);
    writes(g, later(0, 255, None), b"", 3, ["08 FF 00", ""]);
    writes(g, end(0, 0, None, None), b"", 3, ["10 00 00", ""]);
    writes(g, end(0, 255, None, None), b"", 3, ["10 FF 00", ""]);
}

/// The longest segment of each type too.
fn data_lengths(g: &mut Group) {
    let data = [0x41; 255];
    writes(g, later(0, 1, None), &data, 258, ["08 01 FF", ""]);
    refuses(g, later(0, 1, None), &[0x41; 256], 300, 6, 2);
    let first = begin(0, Some(5), window(Every4));
    writes(g, first, &data, 262, ["00 00 FF", "10 05 20 08"]);
    let last = end(0, 1, Some(5), Some(Crc24(0x12_3456)));
    writes(g, last, &data, 264, ["10 01 FF", "10 05 31 23 45 60"]);
    refuses(g, last, &data, 263, 61, 0);
}

fn crcs(g: &mut Group) {
    let with = |crc| end(0, 1, None, Some(crc));
    let header = "10 01 00";
    writes(g, with(Crc16(0)), b"", 6, [header, "20 00 00"]);
    writes(g, with(Crc16(0xffff)), b"", 6, [header, "2F FF F0"]);
    writes(g, with(Crc24(0)), b"", 7, [header, "30 00 00 00"]);
    writes(g, with(Crc24(0xff_ffff)), b"", 7, [header, "3F FF FF F0"]);
    refuses(g, with(Crc24(0x100_0000)), b"", 7, 6, 5);
    refuses(g, with(Crc24(0xffff_ffff)), b"", 7, 6, 5);
}

fn each_service(g: &mut Group) {
    let packed = Compression::V42Bis;
    for (services, parameter) in [
        (window(Prohibited), "20 00"),
        (window(Every4), "20 08"),
        (window(Every8), "20 10"),
        (window(Every16), "20 18"),
        (window(Last), "20 20"),
        (window(Exceptions), "20 28"),
        (services(packed, Prohibited, CrcStatus::None), "22 00"),
        (
            services(Compression::None, Prohibited, CrcStatus::Crc16),
            "20 02",
        ),
        (
            services(Compression::None, Prohibited, CrcStatus::Crc24),
            "20 04",
        ),
        (services(packed, Exceptions, CrcStatus::Crc24), "22 2C"),
    ] {
        let segment = begin(0, None, services);
        writes(g, segment, b"A", 8, ["00 00 01", parameter]);
    }
}

/// Version, transaction, data length, Begin's sequence, message length, crc24, room.
fn order(g: &mut Group) {
    let long = Some(4_096);
    let data = [0x41; 256];
    let bad_begin = placed(begin(0, long, None), 1);
    let bad_crc = Some(Crc24(0x100_0000));
    case(g, later(8, 0, None), 0, b"", 3, refused(1, 0));
    refuses(g, later(8, 0, None), &data, 300, 6, 1);
    refuses(g, bad_begin, &data, 300, 6, 2);
    refuses(g, bad_begin, b"", 5, 6, 3);
    refuses(g, end(0, 1, long, bad_crc), b"", 9, 6, 4);
    refuses(g, end(0, 1, None, bad_crc), b"", 0, 6, 5);
    refuses(g, later(0, 1, long), b"", 0, 6, 4);
}

fn room(g: &mut Group) {
    let segment = begin(0, Some(5), window(Every4));
    for room in [0, 3, 7] {
        refuses(g, segment, b"A", room, 61, 0);
    }
    for room in [8, 9, 300] {
        writes(g, segment, b"A", room, ["00 00 01", "10 05 20 08"]);
    }
}

pub fn corners(tally: &mut Tally) {
    tally.group("writing: document 01's octets", marked);
    tally.group("writing: length 4,095 and 4,096", lengths);
    tally.group("writing: versions 0, 1 and 255", versions);
    tally.group("writing: transaction and sequence", header);
    tally.group("writing: 255 and 256 octets of data", data_lengths);
    tally.group("writing: CRC-16 and CRC-24", crcs);
    tally.group("writing: services", each_service);
    tally.group("writing: each test against the next", order);
    tally.group("writing: room short, exact, longer", room);
}
