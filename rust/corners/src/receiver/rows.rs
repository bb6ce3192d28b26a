//! Rows of a table of calls: a call and what has to come of it, or what is done to the receiver between calls.

use super::record::Record;
use crate::octets::{self, Segment, placed, services, window};
use crate::profiles::{ONE, Profile};
use catkhize::AcknowledgmentWindow::{Every4, Every8, Every16, Exceptions, Last, Prohibited};
use catkhize::calls::Origin;
use catkhize::{Compression, CrcStatus, MessageCrc, OptionalServices, layout};

/// Who the bench's receiver listens to, and in which transaction.
pub const OWN: Origin = Origin {
    kind: 1,
    width: 34,
    value: 0x1_2345_6789,
    protocol: 0,
    octet: 3,
};
pub const TRANSACTION: u8 = 5;

/// Another peer, and another protocol.
pub const OTHER_KIND: Origin = Origin { kind: 2, ..OWN };
pub const OTHER_OCTET: Origin = Origin { octet: 4, ..OWN };

/// The store is longer than all slots by some octets, which have to stay.
pub const STORE: usize = layout::STORE + octets::PAST;

/// The last reading from which a deadline can be set under profile 1.
pub const LATEST: u64 = ONE.latest_received();

/// A Begin's services: absent, a window alone, and with compression or a CRC, which are not served.
pub type Services = Option<OptionalServices>;
pub const PLAIN: Services = None;
pub const PROHIBITED: Services = window(Prohibited);
pub const EVERY4: Services = window(Every4);
pub const EVERY8: Services = window(Every8);
pub const EVERY16: Services = window(Every16);
pub const LAST: Services = window(Last);
pub const EXCEPTIONS: Services = window(Exceptions);
pub const V42: Services = services(Compression::V42Bis, Prohibited, CrcStatus::None);
pub const V42_CRC16: Services = services(Compression::V42Bis, Prohibited, CrcStatus::Crc16);
pub const LAST_V42: Services = services(Compression::V42Bis, Last, CrcStatus::None);
pub const LAST_CRC16: Services = services(Compression::None, Last, CrcStatus::Crc16);
pub const LAST_CRC24: Services = services(Compression::None, Last, CrcStatus::Crc24);
pub const SEVERAL_16: Services = services(Compression::V42Bis, Last, CrcStatus::Crc16);
pub const SEVERAL_24: Services = services(Compression::V42Bis, Last, CrcStatus::Crc24);

/// An End's CRC; the last passes 24 bits.
pub const CRC16: MessageCrc = MessageCrc::Crc16(0x1234);
pub const CRC24: MessageCrc = MessageCrc::Crc24(0x12_3456);
pub const TOO_LARGE: MessageCrc = MessageCrc::Crc24(0x100_0000);

/// A receiver of version 1, profile 1 and at most 100 octets.
pub const FRESH: Row = Row::Start(1, 100);

/// The same under a profile.
pub const fn under(profile: Profile) -> Row {
    Row::Under(profile.number)
}

#[derive(Clone, Copy)]
pub enum Row {
    /// A new receiver of a version and a maximum under profile 1, with every lent octet A5.
    Start(u8, u64),
    /// A receiver of version 1, profile 1 and at most 100 octets, with the lent octets as they are; the data of sequence s are the pattern of
    /// this seed + s.
    Again(u8),
    /// A new receiver of version 1 and at most 100 octets under this profile, with every lent octet A5.
    Under(u8),
    /// The record is set by hand.
    Make(fn(&mut Record)),
    /// The record's profile is set by hand.
    Profile(u8),
    /// Every octet of the store is A5 again.
    Refill,
    /// Every octet of the output is A5 again.
    RefillOutput,
    /// The record that was compared last has to be a new receiver's of the same version and maximum with these fields set by hand.
    Left(fn(&mut Record)),
    /// This end, these services and this stated length have to stand in the record.
    Keeps(Option<u8>, Services, Option<u16>),
    /// This octet has to stand where the record has its profile, as the last call left it.
    KeepsProfile(u8),
    /// These octets have to stand where the last answer has the figures of a response's map.
    Figures([u8; 4]),
    /// Each of receive, advance, cancel and release has to give 62.
    Wrong,
    /// A call, its outcome, and the map of the response where there is one.
    Call(Call, Outcome, Option<Map>),
}

#[derive(Clone, Copy)]
pub enum Kind {
    Begin(Services),
    Later,
    End(Option<MessageCrc>),
    Advance,
    Cancel,
    Release,
}

/// A call: what it brings, and how many octets of the store and of the output it is lent.
#[derive(Clone, Copy)]
pub struct Call {
    pub kind: Kind,
    pub sequence: u8,
    pub stated: Option<u16>,
    pub octets: usize,
    /// The last data octet is another.
    pub altered: bool,
    pub reading: u64,
    pub store: usize,
    pub output: usize,
    pub from: Origin,
    pub transaction: u8,
    pub unparsed: u64,
}

#[derive(Clone, Copy)]
pub enum Outcome {
    /// The segment is held.
    Holds,
    /// With it the message is handed over.
    HandsOver,
    /// It was held already.
    Repeats,
    /// The reception fails with this status.
    Fails(u8),
    /// 38, and the reading is taken.
    Closes,
    /// 38, and the reception has expired.
    Expires,
    /// Nothing is due.
    Waits,
    /// The response asks for what is missing.
    Asks,
    /// The reception has expired.
    Lapses,
    /// The reception is canceled.
    Cancels,
    /// The receiver is released.
    Releases,
    /// Refusal n/m, and nothing changes.
    Refused(u8, u8),
}

/// The map of a response: so many entries, of which entry i is bit i of the words; and whether the response has the support list.
#[derive(Clone, Copy)]
pub struct Map {
    pub entries: u16,
    pub marks: [u64; 4],
    pub lists: bool,
}

const fn call(kind: Kind, sequence: u8, octets: usize, reading: u64) -> Call {
    Call {
        kind,
        sequence,
        stated: None,
        octets,
        altered: false,
        reading,
        store: STORE,
        output: layout::STORE,
        from: OWN,
        transaction: TRANSACTION,
        unparsed: 0,
    }
}

/// A Begin with so many data octets at a reading.
pub const fn begin(services: Services, octets: usize, reading: u64) -> Call {
    call(Kind::Begin(services), 0, octets, reading)
}

/// A Continue.
pub const fn later(sequence: u8, octets: usize, reading: u64) -> Call {
    call(Kind::Later, sequence, octets, reading)
}

/// An End.
pub const fn end(sequence: u8, octets: usize, reading: u64) -> Call {
    call(Kind::End(None), sequence, octets, reading)
}

pub const fn advance(reading: u64) -> Call {
    call(Kind::Advance, 0, 0, reading)
}

pub const fn cancel(reading: u64) -> Call {
    call(Kind::Cancel, 0, 0, reading)
}

pub const fn release(reading: u64) -> Call {
    call(Kind::Release, 0, 0, reading)
}

/// What else a call brings or is lent.
impl Call {
    pub const fn states(mut self, length: u16) -> Self {
        self.stated = Some(length);
        self
    }

    pub const fn crc(mut self, crc: MessageCrc) -> Self {
        self.kind = Kind::End(Some(crc));
        self
    }

    pub const fn placed(mut self, sequence: u8) -> Self {
        self.sequence = sequence;
        self
    }

    pub const fn altered(mut self) -> Self {
        self.altered = true;
        self
    }

    pub const fn lent(mut self, store: usize, output: usize) -> Self {
        self.store = store;
        self.output = output;
        self
    }

    pub const fn from(mut self, from: Origin) -> Self {
        self.from = from;
        self
    }

    pub const fn within(mut self, transaction: u8) -> Self {
        self.transaction = transaction;
        self
    }

    pub const fn unparsed(mut self, octets: u64) -> Self {
        self.unparsed = octets;
        self
    }

    /// SEGMENT of what a receive brings.
    pub fn segment(&self) -> Segment {
        let (transaction, sequence, stated) = (self.transaction, self.sequence, self.stated);
        match self.kind {
            Kind::Begin(services) => placed(octets::begin(transaction, stated, services), sequence),
            Kind::End(crc) => octets::end(transaction, sequence, stated, crc),
            _ => octets::later(transaction, sequence, stated),
        }
    }
}

/// What has to come of a call.
impl Call {
    pub const fn holds(self) -> Row {
        Row::Call(self, Outcome::Holds, None)
    }

    pub const fn hands_over(self) -> Row {
        Row::Call(self, Outcome::HandsOver, None)
    }

    pub const fn repeats(self) -> Row {
        Row::Call(self, Outcome::Repeats, None)
    }

    pub const fn fails(self, status: u8) -> Row {
        Row::Call(self, Outcome::Fails(status), None)
    }

    pub const fn closes(self) -> Row {
        Row::Call(self, Outcome::Closes, None)
    }

    pub const fn expires(self) -> Row {
        Row::Call(self, Outcome::Expires, None)
    }

    pub const fn waits(self) -> Row {
        Row::Call(self, Outcome::Waits, None)
    }

    pub const fn asks(self) -> Row {
        Row::Call(self, Outcome::Asks, None)
    }

    pub const fn lapses(self) -> Row {
        Row::Call(self, Outcome::Lapses, None)
    }

    pub const fn cancels(self) -> Row {
        Row::Call(self, Outcome::Cancels, None)
    }

    pub const fn releases(self) -> Row {
        Row::Call(self, Outcome::Releases, None)
    }

    pub const fn refused(self, n: u8) -> Row {
        Row::Call(self, Outcome::Refused(n, 0), None)
    }

    /// Refusal 6/m.
    pub const fn refused_6(self, m: u8) -> Row {
        Row::Call(self, Outcome::Refused(6, m), None)
    }
}

/// The response to a call. No entries are no response.
impl Row {
    const fn answered(self, entries: u16, marks: [u64; 4], lists: bool) -> Self {
        match self {
            Row::Call(call, outcome, _) if entries > 0 => {
                let map = Map {
                    entries,
                    marks,
                    lists,
                };
                Row::Call(call, outcome, Some(map))
            }
            other => other,
        }
    }

    /// A map with these marks.
    pub const fn marks(self, entries: u16, marks: [u64; 4]) -> Self {
        self.answered(entries, marks, false)
    }

    /// A map with the marks of the first 64 entries.
    pub const fn map(self, entries: u16, marks: u64) -> Self {
        self.answered(entries, [marks, 0, 0, 0], false)
    }

    /// A map in which 0 and s are marked.
    pub const fn pair(self, entries: u16, s: u8) -> Self {
        let mut marks = [1, 0, 0, 0];
        marks[s as usize / 64] |= 1 << (s % 64);
        self.answered(entries, marks, false)
    }

    /// A map without marks, and the support list.
    pub const fn lists(self, entries: u16) -> Self {
        self.answered(entries, [0; 4], true)
    }
}
