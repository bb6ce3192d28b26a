use crate::octets::{Put, Take, part};
use crate::{Given, Refusal, calls, layout};

/// Where the data of an encoded segment begin.
const HEADER_OCTETS: u64 = 3;

/// The number of a case, and the case of a number: none where no case has it.
macro_rules! numbered {
    ($(#[$doc:meta])* $name:ident { $($(#[$case_doc:meta])* $case:ident = $number:literal,)* }) => {
        $(#[$doc])*
        #[derive(Debug, Clone, Copy, PartialEq, Eq, Hash)]
        #[repr(u8)]
        pub enum $name { $($(#[$case_doc])* $case = $number,)* }

        impl $name {
            /// The case with this number.
            pub fn from_number(number: u8) -> Option<Self> {
                match number {
                    $($number => Some(Self::$case),)*
                    _ => None,
                }
            }
        }
    };
}
pub(crate) use numbered;

numbered! {
    /// What the message was compressed with.
    ///
    /// ```
    /// assert_eq!(catkhize::Compression::from_number(1), Some(catkhize::Compression::V42Bis));
    /// ```
    Compression {
        /// Not at all.
        None = 0,
        /// By V.42bis.
        V42Bis = 1,
    }
}

numbered! {
    /// When a receiver answers.
    ///
    /// ```
    /// assert_eq!(catkhize::AcknowledgmentWindow::Last as u8, 4);
    /// ```
    AcknowledgmentWindow {
        /// Never.
        Prohibited = 0,
        /// After every fourth segment.
        Every4 = 1,
        /// After every eighth segment.
        Every8 = 2,
        /// After every sixteenth segment.
        Every16 = 3,
        /// After the last segment.
        Last = 4,
        /// Only where something fails.
        Exceptions = 5,
    }
}

numbered! {
    /// Which CRC the message has.
    ///
    /// ```
    /// assert_eq!(catkhize::CrcStatus::from_number(3), None);
    /// ```
    CrcStatus {
        /// None.
        None = 0,
        /// Of 16 bits.
        Crc16 = 1,
        /// Of 24 bits.
        Crc24 = 2,
    }
}

/// The services that a Begin asks for. Absent ones mean the default.
///
/// ```
/// use catkhize::*;
/// let services = OptionalServices { acknowledgment_window: AcknowledgmentWindow::Every4, ..Default::default() };
/// let kind = SegmentKind::Begin { message_length: None, services: Some(services) };
/// let segment = Segment { transaction_id: 0, sequence_number: 0, segment_data: &[], kind };
/// let mut output = [0; 5];
/// assert_eq!(segment.encode(1, &mut output), Ok(5));
/// assert_eq!(output, [0x00, 0x00, 0x00, 0x20, 0x08]);
/// ```
#[derive(Debug, Clone, Copy, PartialEq, Eq, Hash)]
pub struct OptionalServices {
    /// What the message was compressed with.
    pub compression: Compression,
    /// When the receiver answers.
    pub acknowledgment_window: AcknowledgmentWindow,
    /// Which CRC the message has.
    pub crc_status: CrcStatus,
}

impl Default for OptionalServices {
    /// No compression, no answers, no CRC.
    fn default() -> Self {
        Self {
            compression: Compression::None,
            acknowledgment_window: AcknowledgmentWindow::Prohibited,
            crc_status: CrcStatus::None,
        }
    }
}

/// The CRC that an End carries.
///
/// ```
/// use catkhize::*;
/// let kind = SegmentKind::End { message_length: None, crc: Some(MessageCrc::Crc24(1 << 24)) };
/// let segment = Segment { transaction_id: 0, sequence_number: 1, segment_data: &[], kind };
/// assert_eq!(segment.encode(1, &mut [0; 16]), Err(Refusal::CRC24));
/// ```
#[derive(Debug, Clone, Copy, PartialEq, Eq, Hash)]
pub enum MessageCrc {
    /// Of 16 bits.
    Crc16(u16),
    /// Of 24 bits.
    Crc24(u32),
}

/// What a segment is, with its parameters.
///
/// ```
/// use catkhize::*;
/// let decoded = decode_segment(&[0x00, 0x00, 0x00, 0x10, 0x05], 1)?;
/// assert_eq!(decoded.segment.kind, SegmentKind::Begin { message_length: Some(5), services: None });
/// # Ok::<(), Refusal>(())
/// ```
#[derive(Debug, Clone, Copy, PartialEq, Eq, Hash)]
pub enum SegmentKind {
    /// The first segment.
    Begin {
        /// The length of the message, where it is stated.
        message_length: Option<u16>,
        /// What the sender asks for.
        services: Option<OptionalServices>,
    },
    /// A segment between the first and the last.
    Continue {
        /// The length of the message, where it is stated.
        message_length: Option<u16>,
    },
    /// The last segment.
    End {
        /// The length of the message, where it is stated.
        message_length: Option<u16>,
        /// The message's CRC, where it has one.
        crc: Option<MessageCrc>,
    },
}

/// A segment, whose data are a part of octets that someone else owns.
///
/// ```
/// use catkhize::*;
/// let kind = SegmentKind::Continue { message_length: None };
/// let segment = Segment { transaction_id: 3, sequence_number: 1, segment_data: b"AB", kind };
/// let mut output = [0xa5; 8];
/// assert_eq!(segment.encode(1, &mut output), Ok(5));
/// assert_eq!(output, [0x0b, 0x01, 0x02, 0x41, 0x42, 0xa5, 0xa5, 0xa5]);
/// assert_eq!(segment.encode(1, &mut output[..4]), Err(Refusal::OUTPUT_TOO_SHORT));
/// ```
#[derive(Debug, Clone, Copy, PartialEq, Eq, Hash)]
pub struct Segment<'a> {
    /// The transaction, 0 to 7.
    pub transaction_id: u8,
    /// Its place in the train.
    pub sequence_number: u8,
    /// At most 255 octets.
    pub segment_data: &'a [u8],
    /// What it is, with its parameters.
    pub kind: SegmentKind,
}

/// What decoding gives.
///
/// ```
/// use catkhize::*;
/// let decoded = decode_segment(&[0x08, 0x01, 0x00, 0x20, 0x08], 1)?;
/// assert_eq!(decoded.unparsed_octets, [0x20, 0x08]);
/// # Ok::<(), Refusal>(())
/// ```
#[derive(Debug, Clone, Copy, PartialEq, Eq, Hash)]
pub struct DecodedSegment<'a> {
    /// The segment; its data are a part of what was decoded.
    pub segment: Segment<'a>,
    /// What comes after the parameters that are known.
    pub unparsed_octets: &'a [u8],
}

impl SegmentKind {
    /// The length of the message, where it is stated.
    pub(crate) fn message_length(self) -> Option<u16> {
        match self {
            Self::Begin { message_length, .. }
            | Self::Continue { message_length }
            | Self::End { message_length, .. } => message_length,
        }
    }
}

fn put_length(put: &mut Put, length: Option<u16>) {
    put.flag(length.is_some());
    put.put16(length.unwrap_or(0));
}

fn put_kind(put: &mut Put, kind: SegmentKind) {
    let (tag, length, services, crc) = match kind {
        SegmentKind::Begin {
            message_length,
            services,
        } => (0, message_length, services, None),
        SegmentKind::Continue { message_length } => (1, message_length, None, None),
        SegmentKind::End {
            message_length,
            crc,
        } => (2, message_length, None, crc),
    };
    put.put8(tag);
    put_length(put, length);
    put.flag(services.is_some());
    let services = services.unwrap_or_default();
    put.put8(services.compression as u8);
    put.put8(services.acknowledgment_window as u8);
    put.put8(services.crc_status as u8);
    let (tag, value) = match crc {
        None => (0, 0),
        Some(MessageCrc::Crc16(value)) => (1, u32::from(value)),
        Some(MessageCrc::Crc24(value)) => (2, value),
    };
    put.put8(tag);
    put.put32(value);
}

fn take_kind(take: &mut Take) -> Option<SegmentKind> {
    let tag = take.take8();
    let stated = take.flag();
    let message_length = Some(take.take16()).filter(|_| stated);
    let present = take.flag();
    let services = OptionalServices {
        compression: Compression::from_number(take.take8())?,
        acknowledgment_window: AcknowledgmentWindow::from_number(take.take8())?,
        crc_status: CrcStatus::from_number(take.take8())?,
    };
    let crc_tag = take.take8();
    let value = take.take32();
    match tag {
        0 => Some(SegmentKind::Begin {
            message_length,
            services: present.then_some(services),
        }),
        1 => Some(SegmentKind::Continue { message_length }),
        2 => {
            let crc = match crc_tag {
                0 => None,
                1 => Some(MessageCrc::Crc16(u16::try_from(value).ok()?)),
                2 => Some(MessageCrc::Crc24(value)),
                _ => return None,
            };
            Some(SegmentKind::End {
                message_length,
                crc,
            })
        }
        _ => None,
    }
}

impl<'a> Segment<'a> {
    /// The segment without its data, as the calls take it.
    pub(crate) fn octets(&self) -> [u8; layout::SEGMENT] {
        let mut octets = [0; layout::SEGMENT];
        let mut put = Put(&mut octets);
        put.put8(self.transaction_id);
        put.put8(self.sequence_number);
        put_kind(&mut put, self.kind);
        octets
    }

    /// HEAD: the segment, and the number of its data octets.
    pub(crate) fn put_head(&self, head: &mut [u8]) {
        let mut put = Put(head);
        put.octets(&self.octets());
        put.put64(self.segment_data.len() as u64);
    }

    /// Reads a HEAD, then where its data begin in `from`, unless that is `known`.
    pub(crate) fn take(take: &mut Take, from: &'a [u8], known: Option<u64>) -> Option<Self> {
        let transaction_id = take.take8();
        let sequence_number = take.take8();
        let kind = take_kind(take)?;
        let length = take.take64();
        let offset = match known {
            Some(offset) => offset,
            None => take.take64(),
        };
        let segment_data = part(from, offset, length)?;
        Some(Self {
            transaction_id,
            sequence_number,
            segment_data,
            kind,
        })
    }

    /// Writes the segment to the first octets of `output` and gives their number. Nothing is written where it is refused.
    pub fn encode(&self, version: u8, output: &mut [u8]) -> Result<usize, Refusal> {
        let mut answer = [0; layout::WRITTEN];
        let given = calls::encode(
            &self.octets(),
            self.segment_data,
            version,
            output,
            &mut answer,
        );
        Given::new(given).done()?;
        usize::try_from(u64::from_be_bytes(answer)).map_err(|_| Refusal::BUFFER_SPELLS_NONE)
    }
}

/// Reads a segment.
///
/// ```
/// use catkhize::*;
/// let octets = [0x0b, 0x01, 0x02, 0x41, 0x42];
/// let decoded = decode_segment(&octets, 1)?;
/// assert_eq!(decoded.segment.transaction_id, 3);
/// assert_eq!(decoded.segment.segment_data, b"AB");
/// assert_eq!(decode_segment(&octets[..4], 1), Err(Refusal::TRUNCATED));
/// # Ok::<(), Refusal>(())
/// ```
pub fn decode_segment(octets: &[u8], version: u8) -> Result<DecodedSegment<'_>, Refusal> {
    let mut answer = [0; layout::DECODED];
    Given::new(calls::decode(octets, version, &mut answer)).done()?;
    let read = || {
        let mut take = Take(&answer);
        let segment = Segment::take(&mut take, octets, Some(HEADER_OCTETS))?;
        let unparsed = take.take64();
        let offset = (octets.len() as u64).checked_sub(unparsed)?;
        let unparsed_octets = part(octets, offset, unparsed)?;
        Some(DecodedSegment {
            segment,
            unparsed_octets,
        })
    };
    read().ok_or(Refusal::BUFFER_SPELLS_NONE)
}
