//! Sizes, versions and offsets of the layouts, as include/catkhize.h has them.
//!
//! RECEIVER and SENDER had 3,930 and 6,130 octets and version 1 before the profile came into them (2026-11). Given to [`calls`](crate::calls), a
//! record of that version is refused with [`Refusal::BUFFER_SPELLS_NONE`](crate::Refusal::BUFFER_SPELLS_NONE), and in a buffer of its own size with
//! [`Refusal::BUFFER_TOO_SHORT`](crate::Refusal::BUFFER_TOO_SHORT); there is no converter. PLAN is as it was.
//!
//! ```
//! use catkhize::*;
//! let peer = MobileIdentity { kind: 0, width: 34, value: 1 };
//! let receiver = Receiver::try_new(peer, HigherLayerProtocol::Segmented(0), 0, 1, PROFILE_2, 100, 0)?;
//! let mut record = receiver.record().to_vec();
//! assert_eq!((record.len(), record[0]), (layout::RECEIVER, layout::RECEIVER_VERSION));
//! assert_eq!(record[layout::receiver::PROFILE], PROFILE_2);
//! record[0] = 1;
//! let given = calls::receiver_cancel(&mut record, &mut [0; layout::STORE], 0);
//! assert_eq!(Given::new(given), Given::Refused(Refusal::BUFFER_SPELLS_NONE));
//! # Ok::<(), Refusal>(())
//! ```

/// A segment without its data.
pub const SEGMENT: usize = 15;
/// A segment without its data, and the number of its data octets.
pub const HEAD: usize = 23;
/// The heads that a frozen cutting is given by: always 256.
pub const HEADS: usize = 256 * HEAD;
/// What decoding gives.
pub const DECODED: usize = 31;
/// A segment of a plan.
pub const PART: usize = 31;
/// A response.
pub const RESPONSE: usize = 41;
/// What receiving gives: REPLY, then the message.
pub const RECEPTION: usize = reception::MESSAGE + 1 + 8;
/// What advancing a receiver gives: a response, and the figures of its map.
pub const REPLY: usize = reply::FIRST_MISSING + 2;
/// What encoding gives.
pub const WRITTEN: usize = 8;
/// A receiver's record.
pub const RECEIVER: usize = 3931;
/// A plan.
pub const PLAN: usize = 5958;
/// A sender's record.
pub const SENDER: usize = 6131;
/// What a sender's calls give.
pub const STATE: usize = 4;
/// What a sender offers.
pub const SUBMISSION: usize = 48;
/// What receiving a train gives: the number of segments received, then RECEPTION.
pub const TRAIN: usize = train::RECEPTION + RECEPTION;

/// The octets of a receiver's store; those past them are never touched.
pub const STORE: usize = 65_280;
/// The longest segment that encoding writes.
pub const ENCODING: usize = 264;

/// The first octet of a receiver's record: the version of its layout.
pub const RECEIVER_VERSION: u8 = 2;
/// The first octet of a plan.
pub const PLAN_VERSION: u8 = 1;
/// The first octet of a sender's record.
pub const SENDER_VERSION: u8 = 2;

/// Where a REPLY has what stands behind its flag and its RESPONSE.
pub mod reply {
    /// How many entries of the response's map are missing, 16 bits.
    pub const MISSING: usize = 1 + super::RESPONSE;
    /// The first missing one, 16 bits: 256 if none is, 0 where there is no response.
    pub const FIRST_MISSING: usize = MISSING + 2;
}

/// Where a RECEPTION has what stands behind its REPLY.
pub mod reception {
    /// A flag, then the number of octets handed over.
    pub const MESSAGE: usize = super::REPLY;
}

/// Where a TRAIN has what stands behind its number of segments.
pub mod train {
    /// A RECEPTION.
    pub const RECEPTION: usize = 8;
}

/// Where a receiver's record has what its accessors read.
pub mod receiver {
    /// The profile, an octet.
    pub const PROFILE: usize = 15;
    /// State, then the status with Failed.
    pub const STATE: usize = 24;
    /// The number of octets held.
    pub const STORED_OCTETS: usize = 34;
    /// A flag, then 64 bits.
    pub const DEADLINE: usize = 42;
}

/// Where a plan has what its accessors read: of a planned one and of a frozen one.
pub mod plan {
    /// 0 planned, 1 frozen.
    pub const FORM: usize = 1;
    /// The message's octets.
    pub const MESSAGE_OCTETS: [usize; 2] = [2, 53];
    /// The budget.
    pub const BUDGET: [usize; 2] = [10, 61];
    /// The window, an octet.
    pub const WINDOW: [usize; 2] = [19, 69];
    /// The number of segments.
    pub const COUNT: [usize; 2] = [36, 45];
}

/// Where a sender's record has what its accessors read.
pub mod sender {
    /// The profile, an octet.
    pub const PROFILE: usize = 14;
    /// The state, four octets.
    pub const STATE: usize = 23;
    /// A flag, then 64 bits.
    pub const DEADLINE: usize = 149;
    /// How often Layer 3 took a submission.
    pub const SUBMISSIONS: usize = 166;
}
