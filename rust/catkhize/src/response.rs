use crate::layout;
use crate::octets::{Put, Take};
use crate::refusal::Refusal;
use crate::segment::numbered;

const MAX_MAP_BITS: usize = 256;
const WORD_BITS: usize = 64;

numbered! {
    /// What a response says of a reception.
    ///
    /// ```
    /// assert_eq!(catkhize::Status::from_number(10), Some(catkhize::Status::Received));
    /// ```
    Status {
        /// More segments are awaited.
        Continuing = 0,
        /// Nothing came in time.
        InterSegmentTimeout = 1,
        /// The train contradicts itself.
        Aborted = 2,
        /// A CRC is asked for.
        CrcSelectionUnsupported = 3,
        /// Compression is asked for.
        CompressionUnsupported = 4,
        /// Encryption is asked for.
        EncryptionUnsupported = 5,
        /// The window is not served.
        AcknowledgmentWindowUnsupported = 6,
        /// The protocol is not served.
        ProtocolUnsupported = 7,
        /// The stated length is not the message's.
        MessageLengthError = 8,
        /// The message is longer than the receiver takes.
        MessageTooLong = 9,
        /// The message is whole.
        Received = 10,
        /// A repeat has another length.
        DuplicateSizeMismatch = 11,
        /// The CRC does not fit.
        CrcError = 12,
        /// Several services are asked for that are not served.
        MultipleServicesUnsupported = 13,
    }
}

/// How many entries of an acknowledgment map are missing, and which is the first of them.
///
/// ```
/// use catkhize::{AcknowledgmentMap, Missing, Refusal};
/// let map = AcknowledgmentMap::try_new(&[true, false, true, false])?;
/// assert_eq!(map.missing(), Missing { count: 2, first: 1 });
/// let map = AcknowledgmentMap::try_new(&[true; 4])?;
/// assert_eq!(map.missing(), Missing { count: 0, first: Missing::NONE });
/// # Ok::<(), Refusal>(())
/// ```
#[derive(Debug, Clone, Copy, PartialEq, Eq, Hash)]
pub struct Missing {
    /// How many entries are missing.
    pub count: u16,
    /// The first missing entry, [`NONE`](Self::NONE) if there is none.
    pub first: u16,
}

impl Missing {
    /// What stands for the first missing entry where none is missing.
    pub const NONE: u16 = 256;
}

/// Which segments were received: 1 to 256 entries.
///
/// ```
/// use catkhize::{AcknowledgmentMap, Refusal};
/// let map = AcknowledgmentMap::try_new(&[true, false])?;
/// assert_eq!((map.bit_count(), map.received(0), map.received(1), map.received(2)), (2, Some(true), Some(false), None));
/// assert_eq!(AcknowledgmentMap::try_new(&[]), Err(Refusal::ACKNOWLEDGMENT_MAP_LENGTH));
/// # Ok::<(), Refusal>(())
/// ```
#[derive(Debug, Clone, Copy, PartialEq, Eq, Hash)]
pub struct AcknowledgmentMap {
    words: [u64; 4],
    bit_count: u16,
}

impl AcknowledgmentMap {
    /// A map with these entries. [`missing`](Self::missing) says how many of them are missing and which is the first.
    ///
    /// ```
    /// use catkhize::{AcknowledgmentMap, Missing, Refusal};
    /// let map = AcknowledgmentMap::try_new(&[true, true, false])?;
    /// assert_eq!(map.missing(), Missing { count: 1, first: 2 });
    /// # Ok::<(), Refusal>(())
    /// ```
    pub fn try_new(received: &[bool]) -> Result<Self, Refusal> {
        if !(1..=MAX_MAP_BITS).contains(&received.len()) {
            return Err(Refusal::ACKNOWLEDGMENT_MAP_LENGTH);
        }
        let mut words = [0; 4];
        for (word, marks) in words.iter_mut().zip(received.chunks(WORD_BITS)) {
            *word = marks
                .iter()
                .rev()
                .fold(0, |word, mark| word << 1 | u64::from(*mark));
        }
        let bit_count = received.len() as u16;
        Ok(Self { words, bit_count })
    }

    /// The number of entries.
    pub fn bit_count(&self) -> usize {
        usize::from(self.bit_count)
    }

    /// What the map says of a segment; none where it has no such entry.
    pub fn received(&self, sequence_number: u8) -> Option<bool> {
        let index = usize::from(sequence_number);
        let word = self.words.get(index / WORD_BITS)?;
        (index < self.bit_count()).then_some(word >> (index % WORD_BITS) & 1 == 1)
    }

    /// How many of the map's entries are missing, and the first missing one. Marks past the entries do not count.
    ///
    /// ```
    /// use catkhize::{AcknowledgmentMap, Missing, Refusal};
    /// let mut received = [true; 256];
    /// let missing = |received: &[bool]| AcknowledgmentMap::try_new(received).map(|map| map.missing());
    /// assert_eq!(missing(&received)?, Missing { count: 0, first: 256 });
    /// received[255] = false;
    /// assert_eq!(missing(&received)?, Missing { count: 1, first: 255 });
    /// received[64] = false;
    /// assert_eq!(missing(&received)?, Missing { count: 2, first: 64 });
    /// assert_eq!(missing(&received[..64])?, Missing { count: 0, first: Missing::NONE });
    /// # Ok::<(), Refusal>(())
    /// ```
    pub fn missing(&self) -> Missing {
        let mut missing = Missing {
            count: 0,
            first: Missing::NONE,
        };
        for (from, word) in (0..).step_by(WORD_BITS).zip(self.words) {
            let entries = match self.bit_count().saturating_sub(from) {
                0 => 0,
                count @ 1..WORD_BITS => (1 << count) - 1,
                _ => u64::MAX,
            };
            let unmarked = entries & !word;
            if missing.count == 0 && unmarked != 0 {
                missing.first = from as u16 + unmarked.trailing_zeros() as u16;
            }
            missing.count += unmarked.count_ones() as u16;
        }
        missing
    }
}

/// The services that a receiver serves, where it refuses several.
///
/// ```
/// use catkhize::OptionalServicesSupport;
/// let support = OptionalServicesSupport { compression: false, encryption: true, acknowledgment_window: true, crc: false };
/// assert!(support.encryption && !support.crc);
/// ```
#[derive(Debug, Clone, Copy, PartialEq, Eq, Hash)]
pub struct OptionalServicesSupport {
    /// Compression is served.
    pub compression: bool,
    /// Encryption is served.
    pub encryption: bool,
    /// Windows are served.
    pub acknowledgment_window: bool,
    /// CRCs are served.
    pub crc: bool,
}

/// What a receiver answers to a sender.
///
/// ```
/// use catkhize::{AcknowledgmentMap, Refusal, Response, Status};
/// let response = Response {
///     transaction_id: 3,
///     status: Status::Received,
///     acknowledgments: AcknowledgmentMap::try_new(&[true; 2])?,
///     optional_services_support: None,
/// };
/// assert_eq!(response.status as u8, 10);
/// # Ok::<(), Refusal>(())
/// ```
#[derive(Debug, Clone, Copy, PartialEq, Eq, Hash)]
pub struct Response {
    /// The transaction, 0 to 7.
    pub transaction_id: u8,
    /// How the reception stands.
    pub status: Status,
    /// Which segments were received.
    pub acknowledgments: AcknowledgmentMap,
    /// What is served, with MultipleServicesUnsupported from version 5 on.
    pub optional_services_support: Option<OptionalServicesSupport>,
}

impl Response {
    /// RESPONSE, as the calls take it.
    pub(crate) fn octets(&self) -> [u8; layout::RESPONSE] {
        let mut octets = [0; layout::RESPONSE];
        let mut put = Put(&mut octets);
        put.put8(self.transaction_id);
        put.put8(self.status as u8);
        put.put16(self.acknowledgments.bit_count);
        for word in self.acknowledgments.words {
            put.put64(word);
        }
        put.flag(self.optional_services_support.is_some());
        if let Some(support) = self.optional_services_support {
            put.flag(support.compression);
            put.flag(support.encryption);
            put.flag(support.acknowledgment_window);
            put.flag(support.crc);
        }
        octets
    }

    /// Reads a flag and a RESPONSE; the outer none is for what spells none.
    pub(crate) fn take(take: &mut Take) -> Option<Option<Self>> {
        let present = take.flag();
        let transaction_id = take.take8();
        let status = Status::from_number(take.take8())?;
        let bit_count = take.take16();
        let words = [take.take64(), take.take64(), take.take64(), take.take64()];
        let listed = take.flag();
        let support = OptionalServicesSupport {
            compression: take.flag(),
            encryption: take.flag(),
            acknowledgment_window: take.flag(),
            crc: take.flag(),
        };
        let response = Self {
            transaction_id,
            status,
            acknowledgments: AcknowledgmentMap { words, bit_count },
            optional_services_support: listed.then_some(support),
        };
        Some(present.then_some(response))
    }
}

#[cfg(test)]
mod tests {
    use super::*;

    /// Words with marks past the entries, which `try_new` does not make.
    #[test]
    fn marks_past_the_entries() {
        let missing = |words, bit_count| {
            let Missing { count, first } = AcknowledgmentMap { words, bit_count }.missing();
            (count, first)
        };
        assert_eq!(missing([!0; 4], 1), (0, 256));
        assert_eq!(missing([!1, !0, !0, !0], 1), (1, 0));
        assert_eq!(missing([!0, !1, !0, !0], 64), (0, 256));
        assert_eq!(missing([!0, !1, !0, !0], 65), (1, 64));
        assert_eq!(missing([0, 0, 0, !0], 192), (192, 0));
        assert_eq!(missing([!4, !0, !0, 1 << 63], 193), (2, 2));
    }
}
