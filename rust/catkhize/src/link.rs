/// A peer: kind, width and value. A machine is made for it where the value is not 0, fits the width, and the width is at most 63. What
/// comes from a peer that is not the same in all three is refused.
///
/// ```
/// use catkhize::*;
/// let peer = MobileIdentity { kind: 0, width: 34, value: 0 };
/// let made = Receiver::try_new(peer, HigherLayerProtocol::Segmented(0), 0, 1, PROFILE_1, 100, 0);
/// assert_eq!(made.err(), Some(Refusal::IDENTITY));
/// ```
#[derive(Debug, Clone, Copy, PartialEq, Eq, Hash)]
pub struct MobileIdentity {
    /// What sort of identity it is. Any number; it is only compared.
    pub kind: u8,
    /// The number of bits of the value.
    pub width: u8,
    /// The identity itself.
    pub value: u64,
}

/// A protocol, with its octet. Segmented is served, and CarrierSpecific with both top bits set.
///
/// ```
/// use catkhize::*;
/// let peer = MobileIdentity { kind: 0, width: 34, value: 1 };
/// let new = |protocol| Receiver::try_new(peer, protocol, 0, 1, PROFILE_1, 100, 0).err();
/// assert_eq!(new(HigherLayerProtocol::CarrierSpecific(0xc0)), None);
/// assert_eq!(new(HigherLayerProtocol::CarrierSpecific(0x80)), Some(Refusal::SERVICE));
/// ```
#[derive(Debug, Clone, Copy, PartialEq, Eq, Hash)]
pub enum HigherLayerProtocol {
    /// A protocol that TSAR segments.
    Segmented(u8),
    /// A protocol of the carrier's.
    CarrierSpecific(u8),
    /// Any other.
    Other(u8),
}

/// The profile of the source: a receiver waits 300,000 ms, a sender 330,000 ms.
///
/// A profile says how long a machine waits, which is its own interval: after a segment, or after a submission. It is chosen when the machine is
/// made and fixed after that. There are two; any other number is refused with [`Refusal::PROFILE`](crate::Refusal::PROFILE). Give a sender and
/// the receiver at its other end one profile: a sender of profile 2 acts before a receiver of profile 1 has asked for what is missing.
///
/// ```
/// use catkhize::*;
/// let peer = MobileIdentity { kind: 0, width: 34, value: 1 };
/// let protocol = HigherLayerProtocol::Segmented(0);
/// for (profile, deadline) in [(PROFILE_1, 301_000), (PROFILE_2, 121_000)] {
///     let mut receiver = Receiver::try_new(peer, protocol, 0, 1, profile, 100, 0)?;
///     receiver.receive(peer, protocol, &decode_segment(&[0, 0, 0], 1)?, 1_000)?;
///     assert_eq!(receiver.deadline_monotonic_ms(), Some(deadline));
/// }
/// # Ok::<(), Refusal>(())
/// ```
pub const PROFILE_1: u8 = 1;

/// The profile with shorter waits: a receiver waits 120,000 ms, a sender 150,000 ms. See [`PROFILE_1`].
///
/// ```
/// use catkhize::*;
/// let peer = MobileIdentity { kind: 0, width: 34, value: 1 };
/// let protocol = HigherLayerProtocol::Segmented(0);
/// let MessagePlan::Segmented(plan) = plan_message(b"0123456", 6, 0, AcknowledgmentWindow::Last, 1, 6)? else {
///     panic!("7 octets are more than 6")
/// };
/// for (profile, deadline) in [(PROFILE_1, 331_000), (PROFILE_2, 151_000)] {
///     let mut sender = Sender::try_new(peer, protocol, &plan, 1, profile, 1, 0)?;
///     sender.submitted(&sender.submission()?.unwrap(), 1_000, 1_000)?;
///     assert_eq!(sender.deadline_monotonic_ms(), Some(deadline));
/// }
/// # Ok::<(), Refusal>(())
/// ```
pub const PROFILE_2: u8 = 2;

impl HigherLayerProtocol {
    /// Its number and octet, as the calls take them.
    pub fn numbers(self) -> (u8, u8) {
        match self {
            Self::Segmented(octet) => (0, octet),
            Self::CarrierSpecific(octet) => (1, octet),
            Self::Other(octet) => (2, octet),
        }
    }
}
