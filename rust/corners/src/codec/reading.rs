//! Reading: document 01's corners and the boundaries of its refusals, and every value of some fields. The whole answer is compared.

use crate::octets::{
    PAST, Segment, at_front, begin, difference, end, filled, head, hex, later, refusal, services,
    window,
};
use crate::tally::{Group, Tally};
use catkhize::AcknowledgmentWindow::Every4;
use catkhize::MessageCrc::{self, Crc16, Crc24};
use catkhize::{AcknowledgmentWindow, Compression, CrcStatus, calls, layout};

const CRC16: Option<MessageCrc> = Some(Crc16(0x1234));
const CRC24: Option<MessageCrc> = Some(Crc24(0x12_3456));

/// Reading the octets gives the number and an answer of these octets; none where it stays as it was.
fn case(g: &mut Group, octets: &[u8], version: u8, number: u32, wanted: &[u8]) {
    let mut answer = filled(layout::DECODED + PAST);
    let given = calls::decode(octets, version, &mut answer);
    let wanted = at_front(wanted, answer.len());
    g.case((given, difference(&answer, &wanted)), (number, None));
}

/// Reading the octets gives the segment, with so many octets of data and so many unparsed.
fn reads_with(g: &mut Group, octets: &[u8], segment: Segment, data: u64, unparsed: u64) {
    let answer = [&head(segment, data)[..], &unparsed.to_be_bytes()].concat();
    case(g, octets, 1, 0, &answer);
}

/// The same for a segment that has neither.
fn reads(g: &mut Group, octets: &str, segment: Segment) {
    reads_with(g, &hex(octets), segment, 0, 0);
}

/// Reading the octets gives refusal n/m.
fn refuses(g: &mut Group, octets: &str, n: u32, m: u32) {
    case(g, &hex(octets), 1, refusal(n, m), &[]);
}

fn marked(g: &mut Group) {
    reads(g, "00 00 00", begin(0, None, None));
    reads_with(g, &hex("0B 01 02 41 42"), later(3, 1, None), 2, 0);
    reads(g, "10 01 00 21 23 40", end(0, 1, None, CRC16));
    refuses(g, "10 01 00 21 23 41", 7, 0);
    reads(g, "00 00 00 20 08", begin(0, None, window(Every4)));
    refuses(g, "00 00 00 20 09", 7, 0);
    reads_with(g, &hex("08 01 00 20 08"), later(0, 1, None), 0, 2);
    refuses(g, "00 00 00 10 05 10 05", 8, 0);
    refuses(g, "00 00 00 10", 2, 0);
    refuses(g, "00 01 00", 6, 3);
    let both = begin(0, Some(5), window(Every4));
    reads(g, "00 00 00 20 08 10 05", both);
    reads(g, "00 00 00 10 05 20 08", both);
}

fn unmarked(g: &mut Group) {
    refuses(g, "", 2, 0);
    refuses(g, "18", 5, 0);
    refuses(g, "20", 4, 0);
    refuses(g, "40", 3, 0);
    refuses(g, "00 01", 2, 0);
}

fn versions(g: &mut Group) {
    let octets = hex("08 00 00");
    let plain = [&head(later(0, 0, None), 0)[..], &[0; 8]].concat();
    case(g, &octets, 0, refusal(1, 0), &[]);
    case(g, &octets, 1, 0, &plain);
    case(g, &octets, 255, 0, &plain);
    case(g, &[], 0, refusal(1, 0), &[]);
    case(g, &hex("C0"), 0, refusal(1, 0), &[]);
}

/// The protocol bits one by one and the types one by one.
fn first_octet(g: &mut Group) {
    refuses(g, "40 00 00", 3, 0);
    refuses(g, "80 00 00", 3, 0);
    refuses(g, "C0 00 00", 3, 0);
    refuses(g, "3F 00 00", 4, 0);
    refuses(g, "38 00 00", 4, 0);
    refuses(g, "30 00 00", 4, 0);
    refuses(g, "28 00 00", 4, 0);
    refuses(g, "20 00 00", 4, 0);
    refuses(g, "1F 00 00", 5, 0);
    refuses(g, "18 00 00", 5, 0);
}

/// Protocol bits, type, three octets, Begin's sequence, data, parameters.
fn order(g: &mut Group) {
    refuses(g, "58", 3, 0);
    refuses(g, "60", 3, 0);
    refuses(g, "07", 2, 0);
    refuses(g, "00 FF", 2, 0);
    refuses(g, "00 01 02 41", 6, 3);
    refuses(g, "00 FF 00 10", 6, 3);
    refuses(g, "00 00 02 41", 2, 0);
    refuses(g, "00 00 02 10 05 10 05 10", 8, 0);
}

fn largest_and_smallest(g: &mut Group) {
    let most = Some(4_095);
    reads(g, "07 00 00 1F FF", begin(7, most, None));
    reads(g, "0F FF 00 1F FF", later(7, 255, most));
    reads(g, "17 FF 00 1F FF", end(7, 255, most, None));
    let most = end(0, 0, None, Some(Crc16(0xffff)));
    reads(g, "10 00 00 2F FF F0", most);
    let most = end(0, 0, None, Some(Crc24(0xff_ffff)));
    reads(g, "10 00 00 3F FF FF F0", most);
    let zero = Some(0);
    reads(g, "00 00 00 10 00", begin(0, zero, None));
    reads(g, "08 00 00 10 00", later(0, 0, zero));
    reads(g, "10 00 00 10 00", end(0, 0, zero, None));
    reads(g, "10 00 00 20 00 00", end(0, 0, None, Some(Crc16(0))));
    reads(g, "10 00 00 30 00 00 00", end(0, 0, None, Some(Crc24(0))));
}

/// Length and services, whole and cut; either CRC after either, whole, with a reserved bit set, and cut.
fn repeats(g: &mut Group) {
    for octets in [
        "08 01 00 10 05 10 05",
        "10 01 00 10 05 1F FF",
        "00 00 00 20 08 20 08",
        "00 00 00 20 08 10 05 20 09",
        "00 00 00 10 05 10",
        "08 01 00 10 05 10",
        "00 00 00 20 08 20",
        "00 00 00 20 08 10 05 10",
        "10 01 00 21 23 40 21 23 40",
        "10 01 00 21 23 40 31 23 45 60",
        "10 01 00 31 23 45 60 21 23 40",
        "10 01 00 31 23 45 60 31 23 45 60",
        "10 01 00 21 23 40 31 23 45 61",
        "10 01 00 21 23 40 21",
        "10 01 00 21 23 40 31",
        "10 01 00 31 23 45 60 21",
        "10 01 00 31 23 45 60 31 23",
    ] {
        refuses(g, octets, 8, 0);
    }
}

fn either_order(g: &mut Group) {
    let crc16 = end(0, 1, Some(5), CRC16);
    let crc24 = end(0, 1, Some(5), CRC24);
    reads(g, "10 01 00 10 05 21 23 40", crc16);
    reads(g, "10 01 00 21 23 40 10 05", crc16);
    reads(g, "10 01 00 10 05 31 23 45 60", crc24);
    reads(g, "10 01 00 31 23 45 60 10 05", crc24);
}

/// The octets cut to each length from `first` on: truncated.
fn cut(g: &mut Group, octets: &[u8], first: usize) {
    for length in first..octets.len() {
        case(g, &octets[..length], 1, refusal(2, 0), &[]);
    }
}

fn cuts(g: &mut Group) {
    for (octets, first) in [
        ("00 00 00", 0),
        ("08 01 05 41 42 43 44 45", 3),
        ("00 00 00 10 05", 4),
        ("08 01 00 10 05", 4),
        ("10 01 00 10 05", 4),
        ("00 00 00 20 08", 4),
        ("00 00 00 10 05 20 08", 6),
        ("10 01 00 21 23 40", 4),
        ("10 01 00 31 23 45 60", 4),
        ("10 01 00 10 05 31 23 45 60", 6),
    ] {
        cut(g, &hex(octets), first);
    }
}

fn long_data(g: &mut Group) {
    let octets = [&[0x08, 0x01, 0xff][..], &[0x41; 255]].concat();
    cut(g, &octets, 3);
    reads_with(g, &octets, later(0, 1, None), 255, 0);
}

/// The twelve bits of a Begin's services: compression 3, encryption 3, window 3, CRC status 2, reserved 1, each with its largest value.
fn every_services(g: &mut Group) {
    const LARGEST: [u16; 5] = [1, 0, 5, 2, 0];
    for field in 0..4_096_u16 {
        let [high, low] = (0x2000 + field).to_be_bytes();
        let octets = [0, 0, 0, high, low];
        let [compression, encryption, window, crc, reserved] = [
            field / 512,
            field / 64 % 8,
            field / 8 % 8,
            field / 2 % 4,
            field % 2,
        ];
        let values = [compression, encryption, window, crc, reserved];
        if values
            .iter()
            .zip(LARGEST)
            .any(|(value, largest)| *value > largest)
        {
            case(g, &octets, 1, refusal(7, 0), &[]);
            continue;
        }
        let asked = services(
            Compression::from_number(compression as u8).unwrap(),
            AcknowledgmentWindow::from_number(window as u8).unwrap(),
            CrcStatus::from_number(crc as u8).unwrap(),
        );
        reads_with(g, &octets, begin(0, None, asked), 0, 0);
    }
}

fn bits_after_crc(g: &mut Group) {
    for low in 0..16 {
        let octets16 = [0x10, 1, 0, 0x21, 0x23, 0x40 + low];
        let octets24 = [0x10, 1, 0, 0x31, 0x23, 0x45, 0x60 + low];
        if low == 0 {
            reads_with(g, &octets16, end(0, 1, None, CRC16), 0, 0);
            reads_with(g, &octets24, end(0, 1, None, CRC24), 0, 0);
        } else {
            case(g, &octets16, 1, refusal(7, 0), &[]);
            case(g, &octets24, 1, refusal(7, 0), &[]);
        }
    }
}

/// The octets from such a name on are unparsed: one, two or three of them.
fn unknown_names(g: &mut Group) {
    for (header, segment, first) in [
        (0x00, begin(0, None, None), 3),
        (0x08, later(0, 0, None), 2),
        (0x10, end(0, 0, None, None), 4),
    ] {
        for name in std::iter::once(0).chain(first..16) {
            let octets = [header, 0, 0, 16 * name + 5, 0x10, 0x05];
            for unparsed in 1..=3 {
                reads_with(g, &octets[..3 + unparsed], segment, 0, unparsed as u64);
            }
        }
    }
}

fn unknown_names_after(g: &mut Group) {
    let stated = begin(0, Some(5), None);
    reads_with(g, &hex("00 00 00 10 05 30"), stated, 0, 1);
    let stated = later(0, 0, Some(5));
    reads_with(g, &hex("08 00 01 41 10 05 20 08 10"), stated, 1, 3);
    let with_crc = end(0, 0, None, CRC16);
    reads_with(g, &hex("10 00 00 21 23 40 00 00"), with_crc, 0, 2);
    reads_with(g, &hex("10 00 00 21 23 40 40 21 23 40"), with_crc, 0, 4);
}

pub fn corners(tally: &mut Tally) {
    tally.group("reading: P1 to P9", marked);
    tally.group("reading: the corners without a mark", unmarked);
    tally.group("reading: versions 0, 1 and 255", versions);
    tally.group("reading: protocol bits and types", first_octet);
    tally.group("reading: each test against the next", order);
    tally.group(
        "reading: the largest and smallest numbers",
        largest_and_smallest,
    );
    tally.group("reading: repeats, whole and cut", repeats);
    tally.group("reading: parameters in either order", either_order);
    tally.group("reading: each field cut at each place", cuts);
    tally.group("reading: 255 octets of data, cut at each place", long_data);
    tally.group("reading: every services field", every_services);
    tally.group("reading: the four bits after a CRC", bits_after_crc);
    tally.group("reading: names that a type doesn't have", unknown_names);
    tally.group("reading: such names after a parameter", unknown_names_after);
}
