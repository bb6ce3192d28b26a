use crate::octets::Take;
use crate::{
    Given, HigherLayerProtocol, MobileIdentity, Refusal, Response, Segment, SegmentedMessage,
    Status, calls, layout,
};

/// How a sender came to its end.
///
/// ```
/// use catkhize::{Completion, SenderState};
/// assert_ne!(SenderState::Complete(Completion::PeerReceived), SenderState::Cancelled);
/// ```
#[derive(Debug, Clone, Copy, PartialEq, Eq, Hash)]
pub enum Completion {
    /// Layer 3 accepted all segments, and no response may be sent.
    LowerLayerAccepted,
    /// The peer has the message.
    PeerReceived,
    /// The peer had nothing to complain of.
    ExceptionIntervalElapsed,
}

/// Why Layer 3 gave a submission up.
///
/// ```
/// use catkhize::LowerLayerFailure;
/// assert_ne!(LowerLayerFailure::Rejected { cause: 1 }, LowerLayerFailure::TimedOut);
/// ```
#[derive(Debug, Clone, Copy, PartialEq, Eq, Hash)]
pub enum LowerLayerFailure {
    /// The network rejected it.
    Rejected {
        /// The network's word for it.
        cause: u8,
    },
    /// Nothing came back.
    TimedOut,
    /// Its owner withdrew it.
    Cancelled,
}

/// Why a sender failed.
///
/// ```
/// use catkhize::{SenderFailure, Status};
/// assert_ne!(SenderFailure::Peer(Status::Aborted), SenderFailure::SegmentInterval);
/// ```
#[derive(Debug, Clone, Copy, PartialEq, Eq, Hash)]
pub enum SenderFailure {
    /// A segment came too late, and no response may be sent.
    SegmentInterval,
    /// Layer 3 gave a submission up.
    LowerLayer(LowerLayerFailure),
    /// The peer's reception failed.
    Peer(Status),
}

/// How a sender stands.
///
/// ```
/// use catkhize::{SenderFailure, SenderState};
/// assert_ne!(SenderState::Prepared, SenderState::Failed(SenderFailure::SegmentInterval));
/// ```
#[derive(Debug, Clone, Copy, PartialEq, Eq, Hash)]
pub enum SenderState {
    /// A segment is offered to Layer 3.
    Prepared,
    /// Layer 3 has it.
    AwaitingAccept,
    /// All is sent; the peer's word is awaited.
    AwaitingResponse,
    /// The message is across.
    Complete(Completion),
    /// It is not.
    Failed(SenderFailure),
    /// The sender was ended by its owner.
    Cancelled,
}

impl SenderState {
    /// Reads a STATE.
    fn take(take: &mut Take) -> Option<Self> {
        let (state, case, lower, value) = (take.take8(), take.take8(), take.take8(), take.take8());
        Some(match (state, case) {
            (0, _) => Self::Prepared,
            (1, _) => Self::AwaitingAccept,
            (2, _) => Self::AwaitingResponse,
            (3, 0) => Self::Complete(Completion::LowerLayerAccepted),
            (3, 1) => Self::Complete(Completion::PeerReceived),
            (3, 2) => Self::Complete(Completion::ExceptionIntervalElapsed),
            (4, 0) => Self::Failed(SenderFailure::SegmentInterval),
            (4, 1) => Self::Failed(SenderFailure::LowerLayer(match lower {
                0 => LowerLayerFailure::Rejected { cause: value },
                1 => LowerLayerFailure::TimedOut,
                2 => LowerLayerFailure::Cancelled,
                _ => return None,
            })),
            (4, 2) => Self::Failed(SenderFailure::Peer(Status::from_number(value)?)),
            (5, _) => Self::Cancelled,
            _ => return None,
        })
    }
}

/// A segment that is offered to Layer 3. The sender's number and the ticket name it.
///
/// ```
/// use catkhize::*;
/// let peer = MobileIdentity { kind: 0, width: 34, value: 1 };
/// let MessagePlan::Segmented(plan) = plan_message(b"0123456", 6, 0, AcknowledgmentWindow::Last, 1, 6)? else {
///     panic!("7 octets are more than 6")
/// };
/// let sender = Sender::try_new(peer, HigherLayerProtocol::Segmented(0), &plan, 1, PROFILE_1, 9, 0)?;
/// let submission = sender.submission()?.unwrap();
/// assert_eq!((submission.number, submission.ticket, submission.index), (9, 0, 0));
/// assert_eq!(Some(submission.segment), plan.segment(0));
/// # Ok::<(), Refusal>(())
/// ```
#[derive(Debug, Clone, Copy, PartialEq, Eq, Hash)]
pub struct Submission<'a> {
    /// The sender that offers it.
    pub number: u64,
    /// Which of its submissions this is.
    pub ticket: u64,
    /// The segment's place in the plan.
    pub index: u8,
    /// The segment to encode and send.
    pub segment: Segment<'a>,
}

/// The sender of one message.
///
/// It is not `Clone`: two would have one number and offer the same tickets, and could not tell each other's submissions.
///
/// ```compile_fail
/// fn twice<'a>(sender: &catkhize::Sender<'a>) -> catkhize::Sender<'a> {
///     sender.clone()
/// }
/// ```
///
/// ```
/// use catkhize::*;
/// let peer = MobileIdentity { kind: 0, width: 34, value: 1 };
/// let protocol = HigherLayerProtocol::Segmented(0);
/// let MessagePlan::Segmented(plan) = plan_message(b"0123456", 6, 0, AcknowledgmentWindow::Prohibited, 1, 6)? else {
///     panic!("7 octets are more than 6")
/// };
/// let mut sender = Sender::try_new(peer, protocol, &plan, 1, PROFILE_1, 1, 0)?;
/// while let Some(submission) = sender.submission()? {
///     sender.submitted(&submission, 10, 10)?;
///     sender.accepted(&submission, 10)?;
/// }
/// assert_eq!(sender.state(), SenderState::Complete(Completion::LowerLayerAccepted));
/// assert_eq!(sender.layer3_submissions(), 3);
/// # Ok::<(), Refusal>(())
/// ```
#[derive(Debug)]
pub struct Sender<'a> {
    record: Vec<u8>,
    message: &'a [u8],
}

impl<'a> Sender<'a> {
    /// A sender of a planned message. No two senders have the same number at the same time. The profile, [`PROFILE_1`](crate::PROFILE_1) or
    /// [`PROFILE_2`](crate::PROFILE_2), says how long it waits after a submission, which is its own interval, and is fixed after this.
    ///
    /// The refusals, in this order: [`Refusal::IDENTITY`], [`Refusal::SERVICE`], [`Refusal::PROFILE`] for a profile that is neither 1 nor 2,
    /// [`Refusal::PLAN`], [`Refusal::VERSION`].
    ///
    /// ```
    /// # use catkhize::*;
    /// # let peer = MobileIdentity { kind: 0, width: 34, value: 1 };
    /// # let protocol = HigherLayerProtocol::Segmented(0);
    /// # let MessagePlan::Segmented(plan) = plan_message(b"0123456", 6, 0, AcknowledgmentWindow::Prohibited, 1, 6)? else { panic!() };
    /// let mut sender = Sender::try_new(peer, protocol, &plan, 1, PROFILE_2, 1, 0)?;
    /// sender.submitted(&sender.submission()?.unwrap(), 1_000, 1_000)?;
    /// assert_eq!(sender.deadline_monotonic_ms(), Some(151_000));
    /// assert_eq!(sender.advance(150_999)?, SenderState::AwaitingAccept);
    /// assert_eq!(sender.advance(151_000)?, SenderState::Failed(SenderFailure::SegmentInterval));
    /// assert_eq!(Sender::try_new(peer, protocol, &plan, 0, 3, 1, 0).err(), Some(Refusal::PROFILE));
    /// # Ok::<(), Refusal>(())
    /// ```
    pub fn try_new(
        peer: MobileIdentity,
        protocol: HigherLayerProtocol,
        plan: &SegmentedMessage<'a>,
        version: u8,
        profile: u8,
        number: u64,
        monotonic_ms: u64,
    ) -> Result<Self, Refusal> {
        let mut record = vec![0; layout::SENDER];
        let message = plan.message();
        let given = calls::sender_new(
            &mut record,
            calls::Origin::new(peer, protocol),
            plan.record(),
            message,
            version,
            profile,
            number,
            monotonic_ms,
        );
        Given::new(given).done()?;
        Ok(Self { record, message })
    }

    /// What a call answered.
    fn answered(given: u32, answer: &[u8]) -> Result<SenderState, Refusal> {
        Given::new(given).done()?;
        SenderState::take(&mut Take(answer)).ok_or(Refusal::BUFFER_SPELLS_NONE)
    }

    /// Lets time pass.
    ///
    /// It is to be called at [`deadline_monotonic_ms`](Self::deadline_monotonic_ms), or as soon after it as may be: nothing happens between
    /// calls. Under Prohibited the sender then fails; under Exceptions it completes if all is sent and accepted; in every other case the
    /// segment that is not accepted yet, or all that the peer has not acknowledged (the last segment if that is none), is offered again.
    /// Before the deadline it only takes the reading.
    ///
    /// ```
    /// # use catkhize::*;
    /// # let peer = MobileIdentity { kind: 0, width: 34, value: 1 };
    /// # let protocol = HigherLayerProtocol::Segmented(0);
    /// # let MessagePlan::Segmented(plan) = plan_message(b"0123456", 6, 0, AcknowledgmentWindow::Prohibited, 1, 6)? else { panic!() };
    /// let mut sender = Sender::try_new(peer, protocol, &plan, 1, PROFILE_1, 1, 0)?;
    /// sender.submitted(&sender.submission()?.unwrap(), 0, 0)?;
    /// assert_eq!(sender.advance(330_000)?, SenderState::Failed(SenderFailure::SegmentInterval));
    /// # Ok::<(), Refusal>(())
    /// ```
    pub fn advance(&mut self, monotonic_ms: u64) -> Result<SenderState, Refusal> {
        let mut answer = [0; layout::STATE];
        let given = calls::sender_advance(&mut self.record, monotonic_ms, &mut answer);
        Self::answered(given, &answer)
    }

    /// Layer 3 took the submission at `queued_monotonic_ms`; `observed_monotonic_ms` is now.
    ///
    /// [`Refusal::RECEIPT_TIME`] changes the sender where the window is Prohibited and the queued reading is at or past the deadline: it
    /// has failed.
    ///
    /// ```
    /// # use catkhize::*;
    /// # let peer = MobileIdentity { kind: 0, width: 34, value: 1 };
    /// # let protocol = HigherLayerProtocol::Segmented(0);
    /// # let MessagePlan::Segmented(plan) = plan_message(b"0123456", 6, 0, AcknowledgmentWindow::Last, 1, 6)? else { panic!() };
    /// let mut sender = Sender::try_new(peer, protocol, &plan, 1, PROFILE_1, 1, 0)?;
    /// let submission = sender.submission()?.unwrap();
    /// assert_eq!(sender.submitted(&submission, 5, 7)?, SenderState::AwaitingAccept);
    /// assert_eq!(sender.deadline_monotonic_ms(), Some(330_005));
    /// # Ok::<(), Refusal>(())
    /// ```
    pub fn submitted(
        &mut self,
        submission: &Submission<'_>,
        queued_monotonic_ms: u64,
        observed_monotonic_ms: u64,
    ) -> Result<SenderState, Refusal> {
        let mut answer = [0; layout::STATE];
        let given = calls::sender_submitted(
            &mut self.record,
            submission.number,
            submission.ticket,
            queued_monotonic_ms,
            observed_monotonic_ms,
            &mut answer,
        );
        Self::answered(given, &answer)
    }

    /// The peer's Layer 3 accepted the submission.
    ///
    /// [`Refusal::STALE_SUBMISSION`] changes the sender at or past the deadline, which acts first.
    ///
    /// ```
    /// # use catkhize::*;
    /// # let peer = MobileIdentity { kind: 0, width: 34, value: 1 };
    /// # let protocol = HigherLayerProtocol::Segmented(0);
    /// # let MessagePlan::Segmented(plan) = plan_message(b"0123456", 6, 0, AcknowledgmentWindow::Last, 1, 6)? else { panic!() };
    /// let mut sender = Sender::try_new(peer, protocol, &plan, 1, PROFILE_1, 1, 0)?;
    /// let submission = sender.submission()?.unwrap();
    /// assert_eq!(sender.accepted(&submission, 1), Err(Refusal::STALE_SUBMISSION));
    /// sender.submitted(&submission, 1, 1)?;
    /// assert_eq!(sender.accepted(&submission, 1)?, SenderState::Prepared);
    /// # Ok::<(), Refusal>(())
    /// ```
    pub fn accepted(
        &mut self,
        submission: &Submission<'_>,
        monotonic_ms: u64,
    ) -> Result<SenderState, Refusal> {
        let mut answer = [0; layout::STATE];
        let given = calls::sender_accepted(
            &mut self.record,
            submission.number,
            submission.ticket,
            monotonic_ms,
            &mut answer,
        );
        Self::answered(given, &answer)
    }

    /// Layer 3 gave the submission up.
    ///
    /// [`Refusal::STALE_SUBMISSION`] changes the sender at or past the deadline, which acts first.
    ///
    /// ```
    /// # use catkhize::*;
    /// # let peer = MobileIdentity { kind: 0, width: 34, value: 1 };
    /// # let protocol = HigherLayerProtocol::Segmented(0);
    /// # let MessagePlan::Segmented(plan) = plan_message(b"0123456", 6, 0, AcknowledgmentWindow::Last, 1, 6)? else { panic!() };
    /// let mut sender = Sender::try_new(peer, protocol, &plan, 1, PROFILE_1, 1, 0)?;
    /// let submission = sender.submission()?.unwrap();
    /// sender.submitted(&submission, 1, 1)?;
    /// let state = sender.lower_failed(&submission, LowerLayerFailure::TimedOut, 2)?;
    /// assert_eq!(state, SenderState::Failed(SenderFailure::LowerLayer(LowerLayerFailure::TimedOut)));
    /// # Ok::<(), Refusal>(())
    /// ```
    pub fn lower_failed(
        &mut self,
        submission: &Submission<'_>,
        failure: LowerLayerFailure,
        monotonic_ms: u64,
    ) -> Result<SenderState, Refusal> {
        let (failure, cause) = match failure {
            LowerLayerFailure::Rejected { cause } => (0, cause),
            LowerLayerFailure::TimedOut => (1, 0),
            LowerLayerFailure::Cancelled => (2, 0),
        };
        let mut answer = [0; layout::STATE];
        let given = calls::sender_lower_failed(
            &mut self.record,
            submission.number,
            submission.ticket,
            failure,
            cause,
            monotonic_ms,
            &mut answer,
        );
        Self::answered(given, &answer)
    }

    /// Takes a response of the peer, with the number of bits that its decoding left unparsed.
    ///
    /// [`Refusal::CLOSED`] changes the sender where the deadline has passed and closes it. A response at the deadline itself is taken, and
    /// the deadline acts after it.
    ///
    /// ```
    /// # use catkhize::*;
    /// # let peer = MobileIdentity { kind: 0, width: 34, value: 1 };
    /// # let protocol = HigherLayerProtocol::Segmented(0);
    /// # let MessagePlan::Segmented(plan) = plan_message(b"0123456", 6, 0, AcknowledgmentWindow::Last, 1, 6)? else { panic!() };
    /// let mut sender = Sender::try_new(peer, protocol, &plan, 1, PROFILE_1, 1, 0)?;
    /// let response = Response {
    ///     transaction_id: 0,
    ///     status: Status::Continuing,
    ///     acknowledgments: AcknowledgmentMap::try_new(&[true])?,
    ///     optional_services_support: None,
    /// };
    /// assert_eq!(sender.receive_response(peer, protocol, &response, 0, 1), Err(Refusal::NOT_SUBMITTED));
    /// # Ok::<(), Refusal>(())
    /// ```
    pub fn receive_response(
        &mut self,
        peer: MobileIdentity,
        protocol: HigherLayerProtocol,
        response: &Response,
        unparsed_bits: u64,
        monotonic_ms: u64,
    ) -> Result<SenderState, Refusal> {
        let mut answer = [0; layout::STATE];
        let given = calls::sender_receive_response(
            &mut self.record,
            calls::Origin::new(peer, protocol),
            &response.octets(),
            unparsed_bits,
            monotonic_ms,
            &mut answer,
        );
        Self::answered(given, &answer)
    }

    /// Ends an open sender; a closed one answers its state.
    ///
    /// ```
    /// # use catkhize::*;
    /// # let peer = MobileIdentity { kind: 0, width: 34, value: 1 };
    /// # let protocol = HigherLayerProtocol::Segmented(0);
    /// # let MessagePlan::Segmented(plan) = plan_message(b"0123456", 6, 0, AcknowledgmentWindow::Last, 1, 6)? else { panic!() };
    /// let mut sender = Sender::try_new(peer, protocol, &plan, 1, PROFILE_1, 1, 5)?;
    /// assert_eq!(sender.cancel(4), Err(Refusal::CLOCK_REGRESSION));
    /// assert_eq!(sender.cancel(5)?, SenderState::Cancelled);
    /// # Ok::<(), Refusal>(())
    /// ```
    pub fn cancel(&mut self, monotonic_ms: u64) -> Result<SenderState, Refusal> {
        let mut answer = [0; layout::STATE];
        let given = calls::sender_cancel(&mut self.record, monotonic_ms, &mut answer);
        Self::answered(given, &answer)
    }

    /// What is offered to Layer 3 now. The error is for records alone, which this type keeps right.
    pub fn submission(&self) -> Result<Option<Submission<'a>>, Refusal> {
        let mut answer = [0; layout::SUBMISSION];
        if !Given::new(calls::sender_submission(&self.record, &mut answer)).done()? {
            return Ok(None);
        }
        let mut take = Take(&answer);
        let (number, ticket, index) = (take.take64(), take.take64(), take.take8());
        let segment =
            Segment::take(&mut take, self.message, None).ok_or(Refusal::BUFFER_SPELLS_NONE)?;
        Ok(Some(Submission {
            number,
            ticket,
            index,
            segment,
        }))
    }

    /// How the sender stands.
    pub fn state(&self) -> SenderState {
        SenderState::take(&mut Take::at(&self.record, layout::sender::STATE))
            .unwrap_or(SenderState::Cancelled)
    }

    /// The profile that it was made with.
    ///
    /// ```
    /// # use catkhize::*;
    /// # let peer = MobileIdentity { kind: 0, width: 34, value: 1 };
    /// # let protocol = HigherLayerProtocol::Segmented(0);
    /// # let MessagePlan::Segmented(plan) = plan_message(b"0123456", 6, 0, AcknowledgmentWindow::Last, 1, 6)? else { panic!() };
    /// let sender = Sender::try_new(peer, protocol, &plan, 1, PROFILE_2, 1, 0)?;
    /// assert_eq!(sender.profile(), PROFILE_2);
    /// # Ok::<(), Refusal>(())
    /// ```
    pub fn profile(&self) -> u8 {
        Take::at(&self.record, layout::sender::PROFILE).take8()
    }

    /// The reading at which [`advance`](Self::advance) is to be called, if nothing comes before.
    pub fn deadline_monotonic_ms(&self) -> Option<u64> {
        let mut take = Take::at(&self.record, layout::sender::DEADLINE);
        let runs = take.flag();
        Some(take.take64()).filter(|_| runs)
    }

    /// How often Layer 3 took a submission.
    pub fn layer3_submissions(&self) -> u64 {
        Take::at(&self.record, layout::sender::SUBMISSIONS).take64()
    }

    /// The sender as the calls take it: a SENDER of [`layout`].
    pub fn record(&self) -> &[u8] {
        &self.record
    }
}
