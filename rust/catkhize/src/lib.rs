//! The TSAR core of the bench cell: segments, plans, delivery orders, receiver and sender, over the static library of the proved
//! Rattle crates.
//!
//! The core is a port of a Rust program; types that it has too have its names. A call that is refused gives a [`Refusal`] with document
//! 01's number (docs/01-scope.md; 25, 26, 28 and 64 are docs/02-change-requests.md's). No call panics, whatever it is given. [`calls`] has the
//! entries as they are, on octets.
//!
//! # Numbers that several calls take
//!
//! - A version is the protocol version under which segments and responses are written and read: 1 is Pv1, 5 is Pv5, and 0 is refused. From
//!   1 on all are treated alike, but that a response has a support list from 5 on only.
//! - A profile says how long a machine waits, which is its own interval: [`PROFILE_1`] is the source's, [`PROFILE_2`] waits less. It is chosen
//!   when the machine is made and fixed after that; any other number is refused with [`Refusal::PROFILE`].
//! - The payload budget is how many octets one encoded segment may have. The ceiling is the source's MAX_DATA_PAYLOAD_OCTETS, the most
//!   octets that a payload of the layer below has room for; the budget is at most that.
//! - A reading (`monotonic_ms`) is now, in milliseconds of a clock that never falls. Nothing happens between calls: at a machine's deadline
//!   call its `advance` ([`Receiver::advance`], [`Sender::advance`]).
//!
//! # Refused calls
//!
//! An `Err` leaves a machine as it was, except in document 01's late cases, where the call let time act before it refused, and in one case
//! where it takes the reading alone:
//!
//! | Call | `Err` | What has changed |
//! |---|---|---|
//! | [`Receiver::receive`] | [`Refusal::CLOSED`], past the deadline under Prohibited | the receiver has expired |
//! | [`Receiver::receive`] | [`Refusal::CLOSED`], Complete, a sequence number that is not held | the last reading |
//! | [`Sender::submitted`] | [`Refusal::RECEIPT_TIME`], queued at or past the deadline under Prohibited | the sender has failed |
//! | [`Sender::accepted`], [`Sender::lower_failed`] | [`Refusal::STALE_SUBMISSION`], at or past the deadline | what [`Sender::advance`] does |
//! | [`Sender::receive_response`] | [`Refusal::CLOSED`], past a deadline that closes the sender | what [`Sender::advance`] does |
//!
//! So look at the state after an `Err` too. The exports' own refusals ([`Refusal::is_own`]) are about buffers and numbers, which these types
//! keep right.
//!
//! # Example
//!
//! A message from a sender to a receiver:
//!
//! ```
//! use catkhize::*;
//!
//! let peer = MobileIdentity { kind: 0, width: 34, value: 0x2_0000_0001 };
//! let protocol = HigherLayerProtocol::Segmented(1);
//! let message: Vec<u8> = (0..200).collect();
//! let MessagePlan::Segmented(plan) =
//!     plan_message(&message, 64, 5, AcknowledgmentWindow::Last, 1, 64)?
//! else {
//!     panic!("200 octets are more than 64");
//! };
//! let mut sender = Sender::try_new(peer, protocol, &plan, 1, PROFILE_1, 7, 1_000)?;
//! let mut receiver = Receiver::try_new(peer, protocol, 5, 1, PROFILE_1, 65_280, 1_000)?;
//! let mut output = [0; layout::ENCODING];
//! let mut now = 1_000;
//! let mut rebuilt = Vec::new();
//! while let Some(submission) = sender.submission()? {
//!     now += 10;
//!     let octets = submission.segment.encode(1, &mut output)?;
//!     sender.submitted(&submission, now, now)?;
//!     sender.accepted(&submission, now)?;
//!     let decoded = decode_segment(&output[..octets], 1)?;
//!     let reception = receiver.receive(peer, protocol, &decoded, now)?;
//!     rebuilt.extend_from_slice(reception.message.unwrap_or(&[]));
//!     if let Some(reported) = reception.response {
//!         sender.receive_response(peer, protocol, &reported.response, 0, now)?;
//!     }
//! }
//! assert_eq!(rebuilt, message);
//! assert_eq!(receiver.state(), ReceiverState::Complete);
//! assert_eq!(sender.state(), SenderState::Complete(Completion::PeerReceived));
//! # Ok::<(), Refusal>(())
//! ```

#![warn(missing_docs)]

pub mod calls;
pub mod layout;
mod link;
mod octets;
mod orders;
mod plan;
mod receiver;
mod refusal;
mod response;
mod segment;
mod sender;

pub use link::{HigherLayerProtocol, MobileIdentity, PROFILE_1, PROFILE_2};
pub use orders::{delivery_order, delivery_orders};
pub use plan::{Dialect, MessagePlan, SegmentedMessage, plan_even, plan_message};
pub use receiver::{Receiver, ReceiverState, Reception, Reported, Train};
pub use refusal::{Given, Refusal};
pub use response::{AcknowledgmentMap, Missing, OptionalServicesSupport, Response, Status};
pub use segment::{
    AcknowledgmentWindow, Compression, CrcStatus, DecodedSegment, MessageCrc, OptionalServices,
    Segment, SegmentKind, decode_segment,
};
pub use sender::{Completion, LowerLayerFailure, Sender, SenderFailure, SenderState, Submission};
