//! Segments and their reading.

#[derive(Clone, Copy, PartialEq, Eq)]
pub enum Compression {
    None,
    V42Bis,
}

#[derive(Clone, Copy, PartialEq, Eq)]
pub enum AcknowledgmentWindow {
    Prohibited,
    Every4,
    Every8,
    Every16,
    Last,
    Exceptions,
}

#[derive(Clone, Copy, PartialEq, Eq)]
pub enum CrcStatus {
    None,
    Crc16,
    Crc24,
}

#[derive(Clone, Copy, PartialEq, Eq)]
pub struct OptionalServices {
    pub compression: Compression,
    pub acknowledgment_window: AcknowledgmentWindow,
    pub crc_status: CrcStatus,
}

impl Default for OptionalServices {
    fn default() -> Self {
        Self {
            compression: Compression::None,
            acknowledgment_window: AcknowledgmentWindow::Prohibited,
            crc_status: CrcStatus::None,
        }
    }
}

#[derive(Clone, Copy, PartialEq, Eq)]
pub enum MessageCrc {
    Crc16(u16),
    Crc24(u32),
}

#[derive(Clone, Copy, PartialEq, Eq)]
pub enum SegmentKind {
    Begin {
        message_length: Option<u16>,
        services: Option<OptionalServices>,
    },
    Continue {
        message_length: Option<u16>,
    },
    End {
        message_length: Option<u16>,
        crc: Option<MessageCrc>,
    },
}

impl SegmentKind {
    pub fn message_length(self) -> Option<u16> {
        match self {
            Self::Begin { message_length, .. }
            | Self::Continue { message_length }
            | Self::End { message_length, .. } => message_length,
        }
    }
}

/// A segment beside its data, which comes as a slice.
#[derive(Clone, Copy)]
pub struct Segment {
    pub transaction_id: u8,
    pub sequence_number: u8,
    pub kind: SegmentKind,
}

/// The data are the octets read from the fourth on, as many as this says.
#[derive(Clone, Copy)]
pub struct Decoded {
    pub segment: Segment,
    pub data_octets: usize,
    pub unparsed_octets: usize,
}

#[derive(Clone, Copy, Debug, PartialEq, Eq)]
pub enum Error {
    Version,
    Truncated,
    Protocol,
    MessageType,
    UnsupportedResponse,
    Field(u8),
    Reserved,
    DuplicateParameter,
}

impl Segment {
    /// The tests that a segment with so many data octets passes before it is written.
    pub fn validate(self, data_octets: usize, version: u8) -> Result<(), Error> {
        if version < 1 {
            return Err(Error::Version);
        }
        if self.transaction_id > 7 {
            return Err(Error::Field(1));
        }
        if data_octets > 255 {
            return Err(Error::Field(2));
        }
        if matches!(self.kind, SegmentKind::Begin { .. }) && self.sequence_number != 0 {
            return Err(Error::Field(3));
        }
        if self.kind.message_length().is_some_and(|n| n > 4095) {
            return Err(Error::Field(4));
        }
        if let SegmentKind::End {
            crc: Some(MessageCrc::Crc24(value)),
            ..
        } = self.kind
            && value >= 1 << 24
        {
            return Err(Error::Field(5));
        }
        Ok(())
    }
}

fn services(field: u16) -> Result<OptionalServices, Error> {
    if field & 1 != 0 || (field >> 6) & 7 != 0 {
        return Err(Error::Reserved);
    }
    let compression = match (field >> 9) & 7 {
        0 => Compression::None,
        1 => Compression::V42Bis,
        _ => return Err(Error::Reserved),
    };
    let acknowledgment_window = match (field >> 3) & 7 {
        0 => AcknowledgmentWindow::Prohibited,
        1 => AcknowledgmentWindow::Every4,
        2 => AcknowledgmentWindow::Every8,
        3 => AcknowledgmentWindow::Every16,
        4 => AcknowledgmentWindow::Last,
        5 => AcknowledgmentWindow::Exceptions,
        _ => return Err(Error::Reserved),
    };
    let crc_status = match (field >> 1) & 3 {
        0 => CrcStatus::None,
        1 => CrcStatus::Crc16,
        2 => CrcStatus::Crc24,
        _ => return Err(Error::Reserved),
    };
    Ok(OptionalServices {
        compression,
        acknowledgment_window,
        crc_status,
    })
}

/// `count` octets from `at` on, as a number.
fn take(octets: &[u8], at: usize, count: usize) -> Result<u32, Error> {
    let taken = octets.get(at..at + count).ok_or(Error::Truncated)?;
    Ok(taken
        .iter()
        .fold(0, |value, &octet| value << 8 | u32::from(octet)))
}

pub fn decode_segment(octets: &[u8], version: u8) -> Result<Decoded, Error> {
    if version < 1 {
        return Err(Error::Version);
    }
    let &header = octets.first().ok_or(Error::Truncated)?;
    if header & 0xc0 != 0 {
        return Err(Error::Protocol);
    }
    let kind = header >> 3;
    match kind {
        0..=2 => {}
        3 => return Err(Error::UnsupportedResponse),
        _ => return Err(Error::MessageType),
    }
    if octets.len() < 3 {
        return Err(Error::Truncated);
    }
    let sequence_number = octets[1];
    if kind == 0 && sequence_number != 0 {
        return Err(Error::Field(3));
    }
    let data_octets = usize::from(octets[2]);
    let mut at = 3 + data_octets;
    if octets.len() < at {
        return Err(Error::Truncated);
    }
    let mut message_length = None;
    let mut begin_services = None;
    let mut crc = None;
    while let Some(first) = octets.get(at) {
        match (first >> 4, kind) {
            (1, _) => {
                if message_length.is_some() {
                    return Err(Error::DuplicateParameter);
                }
                message_length = Some(take(octets, at, 2)? as u16 & 0xfff);
                at += 2;
            }
            (2, 0) => {
                if begin_services.is_some() {
                    return Err(Error::DuplicateParameter);
                }
                begin_services = Some(services(take(octets, at, 2)? as u16)?);
                at += 2;
            }
            (name @ (2 | 3), 2) => {
                if crc.is_some() {
                    return Err(Error::DuplicateParameter);
                }
                let count = usize::from(name) + 1;
                let field = take(octets, at, count)?;
                if field & 15 != 0 {
                    return Err(Error::Reserved);
                }
                crc = Some(if name == 2 {
                    MessageCrc::Crc16((field >> 4) as u16)
                } else {
                    MessageCrc::Crc24(field >> 4 & 0xff_ffff)
                });
                at += count;
            }
            _ => break,
        }
    }
    let kind = match kind {
        0 => SegmentKind::Begin {
            message_length,
            services: begin_services,
        },
        1 => SegmentKind::Continue { message_length },
        _ => SegmentKind::End {
            message_length,
            crc,
        },
    };
    Ok(Decoded {
        segment: Segment {
            transaction_id: header & 7,
            sequence_number,
            kind,
        },
        data_octets,
        unparsed_octets: octets.len() - at,
    })
}
