use std::error::Error;
use std::fmt;

/// Why a call was refused: document 01's refusal n/m, 25, 26, 28 or 64 of document 02 (requests 2026-09, 2026-06, 2026-10 and 2026-11), or one
/// of the exports' own (256 to 258).
///
/// A refused call changes nothing, but in the late cases that [the crate](crate#refused-calls) names.
///
/// ```
/// use catkhize::{Refusal, decode_segment};
/// let refusal = decode_segment(&[0x00, 0x01, 0x00], 1).unwrap_err();
/// assert_eq!(refusal, Refusal::BEGIN_SEQUENCE_NUMBER);
/// assert_eq!((refusal.number(), refusal.field()), (6, 3));
/// assert_eq!(refusal.to_string(), "refusal 6/3: BeginSequenceNumber");
/// assert_eq!(format!("{refusal:?}"), "Refusal(6/3 BeginSequenceNumber)");
/// ```
#[derive(Clone, Copy, PartialEq, Eq, PartialOrd, Ord, Hash)]
pub struct Refusal(u32);

const fn of(number: u32, field: u32) -> Refusal {
    Refusal(256 * number + field)
}

macro_rules! refusals {
    ($($(#[$doc:meta])* $name:ident = $number:literal / $field:literal, $word:literal;)*) => {
        impl Refusal {
            $($(#[$doc])* pub const $name: Self = of($number, $field);)*

            /// The source's word for it, or this library's where the source has none.
            pub fn name(self) -> &'static str {
                match self {
                    $(Self::$name => $word,)*
                    _ => "unknown",
                }
            }
        }
    };
}

refusals! {
    /// A version below 1, or a support list below version 5.
    VERSION = 1 / 0, "Version";
    /// The octets end too early.
    TRUNCATED = 2 / 0, "Truncated";
    /// The first two bits are not 0.
    PROTOCOL = 3 / 0, "Protocol";
    /// No segment has this type.
    MESSAGE_TYPE = 4 / 0, "MessageType";
    /// A response, not a segment.
    UNSUPPORTED_RESPONSE = 5 / 0, "UnsupportedResponse";
    /// A transaction above 7.
    FIELD_TRANSACTION_ID = 6 / 1, "TransactionId";
    /// Data of more than 255 octets.
    SEGMENT_DATA_LENGTH = 6 / 2, "SegmentDataLength";
    /// A Begin whose sequence number is not 0.
    BEGIN_SEQUENCE_NUMBER = 6 / 3, "BeginSequenceNumber";
    /// A stated length above 4,095.
    MESSAGE_LENGTH = 6 / 4, "MessageLength";
    /// A CRC-24 of 2^24 or more.
    CRC24 = 6 / 5, "Crc24";
    /// A map of 0 or of more than 256 entries.
    ACKNOWLEDGMENT_MAP_LENGTH = 6 / 6, "AcknowledgmentMapLength";
    /// A support list with a status that it does not go with.
    SUPPORT_STATUS = 6 / 7, "OptionalServicesSupportStatus";
    /// Reserved bits that are not 0, or a reserved value.
    RESERVED = 7 / 0, "Reserved";
    /// A parameter that stands twice.
    DUPLICATE_PARAMETER = 8 / 0, "DuplicateParameter";
    /// The budget passes the ceiling, or a segment the budget.
    PAYLOAD_BUDGET = 20 / 0, "PayloadBudget";
    /// The budget does not hold a header and data.
    HEADER_CAPACITY = 21 / 0, "HeaderCapacity";
    /// Not 2 to 256 segments.
    SEGMENT_COUNT = 22 / 0, "SegmentCount";
    /// No true cutting of the message.
    FROZEN_PLAN = 23 / 0, "FrozenPlan";
    /// The joined data are not as long as the heads say.
    JOINED_LENGTH = 24 / 0, "JoinedLength";
    /// A message that needs segments, to be planned under the window Exceptions.
    EXCEPTIONS_WINDOW = 25 / 0, "ExceptionsWindow";
    /// A train that is not in the dialect being read.
    OTHER_PATTERN = 26 / 0, "OtherPattern";
    /// Not 2 to 6 segments, or no delivery order of that number.
    ORDER_NUMBER = 28 / 0, "OrderNumber";
    /// No peer, or another than the machine's.
    IDENTITY = 30 / 0, "Identity";
    /// No protocol that is served, or another than the machine's.
    SERVICE = 31 / 0, "Service";
    /// Another transaction than the machine's.
    TRANSACTION_ID = 32 / 0, "TransactionId";
    /// A reading below the last one.
    CLOCK_REGRESSION = 33 / 0, "ClockRegression";
    /// No deadline fits after this reading: it is above 2^64 - 1 less the machine's own interval.
    TIME_OVERFLOW = 34 / 0, "TimeOverflow";
    /// A segment with unparsed octets.
    UNPARSED_SEGMENT = 35 / 0, "UnparsedSegment";
    /// The first segment is no Begin.
    BEGIN_REQUIRED = 36 / 0, "BeginRequired";
    /// The deadline has passed: advance first.
    TIMER_DUE = 37 / 0, "TimerDue";
    /// The machine is closed.
    CLOSED = 38 / 0, "Closed";
    /// No plan of the message.
    PLAN = 40 / 0, "Plan";
    /// The counter of submissions is at its end.
    COUNTER_OVERFLOW = 41 / 0, "CounterOverflow";
    /// Not the submission that is offered or awaited.
    STALE_SUBMISSION = 42 / 0, "StaleSubmission";
    /// A response before anything was submitted.
    NOT_SUBMITTED = 43 / 0, "NotSubmitted";
    /// A queued reading before the submission was prepared, after now, or too late.
    RECEIPT_TIME = 44 / 0, "ReceiptTime";
    /// A response of another peer.
    PEER = 45 / 0, "Peer";
    /// A response where the window prohibits them.
    RESPONSES_PROHIBITED = 46 / 0, "ResponsesProhibited";
    /// A response with unparsed bits.
    UNPARSED_RESPONSE = 47 / 0, "UnparsedResponse";
    /// A segment is acknowledged that was never submitted.
    UNSUBMITTED_ACKNOWLEDGMENT = 48 / 0, "UnsubmittedAcknowledgment";
    /// Received, with a segment that is not.
    CONTRADICTORY_RECEIPT = 49 / 0, "ContradictoryReceipt";
    /// A store of less than 65,280 octets.
    STORE_TOO_SHORT = 60 / 0, "Store";
    /// An output that is too short.
    OUTPUT_TOO_SHORT = 61 / 0, "Output";
    /// A record that no list of calls reaches, such as one of neither profile.
    IMPOSSIBLE_STATE = 62 / 0, "ImpossibleState";
    /// A new submission would need ticket 2^64.
    TICKETS = 63 / 0, "Tickets";
    /// A machine was to be made with a profile that is neither 1 nor 2.
    ///
    /// ```
    /// use catkhize::*;
    /// let peer = MobileIdentity { kind: 0, width: 34, value: 1 };
    /// let new = |profile| Receiver::try_new(peer, HigherLayerProtocol::Segmented(0), 0, 1, profile, 100, 0).err();
    /// assert_eq!([0, 1, 2, 3].map(new), [Some(Refusal::PROFILE), None, None, Some(Refusal::PROFILE)]);
    /// assert_eq!(Refusal::PROFILE.to_string(), "refusal 64: Profile");
    /// ```
    PROFILE = 64 / 0, "Profile";
    /// A buffer is shorter than its layout.
    BUFFER_TOO_SHORT = 256 / 0, "BufferTooShort";
    /// A buffer that is read spells nothing.
    BUFFER_SPELLS_NONE = 257 / 0, "BufferSpellsNone";
    /// A number that names no case.
    NUMBER_NAMES_NONE = 258 / 0, "NumberNamesNone";
}

/// What the number that a call gives means.
#[derive(Debug, Clone, Copy, PartialEq, Eq)]
pub enum Given {
    /// The call did what it is for.
    Done,
    /// There was nothing to do: no refusal.
    Nothing,
    /// The call was refused.
    Refused(Refusal),
}

impl Given {
    /// Reads the number that a function of [`calls`](crate::calls) gave.
    ///
    /// ```
    /// use catkhize::{Given, Refusal};
    /// assert_eq!(Given::new(0), Given::Done);
    /// assert_eq!(Given::new(9728), Given::Refused(Refusal::CLOSED));
    /// ```
    pub fn new(given: u32) -> Self {
        match given {
            0 => Self::Done,
            1 => Self::Nothing,
            refusal => Self::Refused(Refusal(refusal)),
        }
    }

    /// Whether the call was done; that there was nothing to do is `Ok(false)`.
    pub fn done(self) -> Result<bool, Refusal> {
        match self {
            Self::Done => Ok(true),
            Self::Nothing => Ok(false),
            Self::Refused(refusal) => Err(refusal),
        }
    }
}

impl Refusal {
    /// n of n/m.
    pub fn number(self) -> u32 {
        self.0 / 256
    }

    /// m of n/m, or 0 where there is none.
    pub fn field(self) -> u32 {
        self.0 % 256
    }

    /// Whether it is one of the exports' own, which the documents have not: a buffer or a number is wrong, and no lent octet was changed.
    ///
    /// ```
    /// use catkhize::Refusal;
    /// assert!(Refusal::BUFFER_TOO_SHORT.is_own() && Refusal::NUMBER_NAMES_NONE.is_own());
    /// assert!(!Refusal::TICKETS.is_own());
    /// ```
    pub fn is_own(self) -> bool {
        self.number() >= Self::BUFFER_TOO_SHORT.number()
    }

    /// n, or n/m where there is an m.
    fn put_number(self, f: &mut fmt::Formatter<'_>) -> fmt::Result {
        match self.field() {
            0 => write!(f, "{}", self.number()),
            field => write!(f, "{}/{field}", self.number()),
        }
    }
}

impl fmt::Display for Refusal {
    fn fmt(&self, f: &mut fmt::Formatter<'_>) -> fmt::Result {
        f.write_str("refusal ")?;
        self.put_number(f)?;
        write!(f, ": {}", self.name())
    }
}

impl fmt::Debug for Refusal {
    fn fmt(&self, f: &mut fmt::Formatter<'_>) -> fmt::Result {
        f.write_str("Refusal(")?;
        self.put_number(f)?;
        write!(f, " {})", self.name())
    }
}

impl Error for Refusal {}
