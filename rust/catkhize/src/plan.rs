use crate::octets::Take;
use crate::segment::numbered;
use crate::{AcknowledgmentWindow, Given, Refusal, Segment, calls, layout};

const MAX_SEGMENTS: usize = 256;

numbered! {
    /// Which segments of a train state the message's length: the two dialects that [`SegmentedMessage::convert`] goes between.
    ///
    /// ```
    /// assert_eq!(catkhize::Dialect::Every as u8, 1);
    /// ```
    Dialect {
        /// The Begin alone.
        BeginOnly = 0,
        /// Every segment, as one modem family wants it.
        Every = 1,
    }
}

/// What a planner, [`plan_message`] or [`plan_even`], gives.
///
/// ```
/// use catkhize::*;
/// let plan = plan_message(b"abc", 3, 0, AcknowledgmentWindow::Prohibited, 1, 3)?;
/// assert!(matches!(plan, MessagePlan::Unsegmented));
/// # Ok::<(), Refusal>(())
/// ```
#[derive(Debug, Clone, PartialEq, Eq)]
pub enum MessagePlan<'a> {
    /// The message fits into the budget as it is.
    Unsegmented,
    /// The message goes out in segments.
    Segmented(SegmentedMessage<'a>),
}

/// The segments of a message, which stays with its owner.
///
/// ```
/// use catkhize::*;
/// let plan = plan_message(b"0123456", 6, 0, AcknowledgmentWindow::Prohibited, 1, 6)?;
/// let MessagePlan::Segmented(plan) = plan else { panic!("7 octets are more than 6") };
/// let data: Vec<&[u8]> = (0..=255).map_while(|i| plan.segment(i)).map(|s| s.segment_data).collect();
/// assert_eq!(data, [b"0".as_slice(), b"123", b"456"]);
/// assert_eq!((plan.count(), plan.message_octets(), plan.payload_budget_octets()), (3, 7, 6));
/// # Ok::<(), Refusal>(())
/// ```
#[derive(Debug, Clone, PartialEq, Eq)]
pub struct SegmentedMessage<'a> {
    record: Vec<u8>,
    message: &'a [u8],
}

/// Cuts a message into segments of at most `payload_budget_octets`, which is at most `ceiling`, the source's MAX_DATA_PAYLOAD_OCTETS.
///
/// Exceptions is no window for a new train: a message that needs segments is refused under it, with [`Refusal::EXCEPTIONS_WINDOW`], after
/// [`Refusal::PAYLOAD_BUDGET`] and [`MessagePlan::Unsegmented`] and before every other refusal. A train that has it already goes through
/// [`SegmentedMessage::try_from_frozen`], and is sent and received under it.
///
/// ```
/// use catkhize::*;
/// let refused = plan_message(&[0; 257], 4, 0, AcknowledgmentWindow::Prohibited, 1, 4);
/// assert_eq!(refused, Err(Refusal::SEGMENT_COUNT));
/// let exceptions = AcknowledgmentWindow::Exceptions;
/// assert_eq!(plan_message(&[0; 257], 4, 0, exceptions, 1, 3), Err(Refusal::PAYLOAD_BUDGET));
/// assert_eq!(plan_message(&[0; 4], 4, 0, exceptions, 1, 4), Ok(MessagePlan::Unsegmented));
/// assert_eq!(plan_message(&[0; 257], 4, 0, exceptions, 1, 4), Err(Refusal::EXCEPTIONS_WINDOW));
/// ```
pub fn plan_message(
    message: &[u8],
    payload_budget_octets: u64,
    transaction_id: u8,
    acknowledgment_window: AcknowledgmentWindow,
    version: u8,
    ceiling: u64,
) -> Result<MessagePlan<'_>, Refusal> {
    planned(message, |record| {
        calls::plan_message(
            message,
            payload_budget_octets,
            transaction_id,
            acknowledgment_window as u8,
            version,
            ceiling,
            record,
        )
    })
}

/// Cuts a message as [`plan_message`] does, but with later segments of even length: for modems that drop a very short End.
///
/// The Begin and the number of segments are those that [`plan_message`] gives; the octets behind the Begin's are spread over the later
/// segments, the End among them, so that no two of these differ by more than an octet, the longer ones first. No least length is set. It
/// is refused, and gives [`MessagePlan::Unsegmented`], exactly where [`plan_message`] is and does.
///
/// ```
/// use catkhize::*;
/// let lengths = |plan: MessagePlan<'_>| {
///     let MessagePlan::Segmented(plan) = plan else { panic!("8 octets are more than 6") };
///     (0..=255).map_while(|i| plan.segment(i)).map(|s| s.segment_data.len()).collect::<Vec<_>>()
/// };
/// let window = AcknowledgmentWindow::Prohibited;
/// assert_eq!(lengths(plan_even(b"01234567", 6, 0, window, 1, 6)?), [1, 3, 2, 2]);
/// assert_eq!(lengths(plan_message(b"01234567", 6, 0, window, 1, 6)?), [1, 3, 3, 1]);
/// assert_eq!(plan_even(&[0; 257], 4, 0, window, 1, 4), Err(Refusal::SEGMENT_COUNT));
/// let exceptions = AcknowledgmentWindow::Exceptions;
/// assert_eq!(plan_even(&[0; 257], 4, 0, exceptions, 1, 4), Err(Refusal::EXCEPTIONS_WINDOW));
/// # Ok::<(), Refusal>(())
/// ```
pub fn plan_even(
    message: &[u8],
    payload_budget_octets: u64,
    transaction_id: u8,
    acknowledgment_window: AcknowledgmentWindow,
    version: u8,
    ceiling: u64,
) -> Result<MessagePlan<'_>, Refusal> {
    planned(message, |record| {
        calls::plan_even(
            message,
            payload_budget_octets,
            transaction_id,
            acknowledgment_window as u8,
            version,
            ceiling,
            record,
        )
    })
}

/// What a planner's call says of the message and writes to a record.
fn planned(
    message: &[u8],
    call: impl FnOnce(&mut [u8]) -> u32,
) -> Result<MessagePlan<'_>, Refusal> {
    let mut record = vec![0; layout::PLAN];
    let given = call(&mut record);
    Ok(if Given::new(given).done()? {
        MessagePlan::Segmented(SegmentedMessage { record, message })
    } else {
        MessagePlan::Unsegmented
    })
}

impl<'a> SegmentedMessage<'a> {
    /// Takes segments as they were sent earlier, under any window. Only a true cutting of the message is accepted.
    ///
    /// ```
    /// use catkhize::*;
    /// let begin = SegmentKind::Begin { message_length: None, services: None };
    /// let end = SegmentKind::End { message_length: None, crc: None };
    /// let segment = |sequence_number, segment_data, kind| Segment { transaction_id: 2, sequence_number, segment_data, kind };
    /// let segments = [segment(0, b"ab", begin), segment(1, b"c", end)];
    /// let plan = SegmentedMessage::try_from_frozen(&segments, b"abc", 5, 1, 5)?;
    /// assert_eq!(plan.segment(1), Some(segments[1]));
    /// let other = SegmentedMessage::try_from_frozen(&segments, b"abd", 5, 1, 5);
    /// assert_eq!(other, Err(Refusal::FROZEN_PLAN));
    /// # Ok::<(), Refusal>(())
    /// ```
    ///
    /// A train under Exceptions, sent to its end:
    ///
    /// ```
    /// use catkhize::*;
    /// let services = OptionalServices { acknowledgment_window: AcknowledgmentWindow::Exceptions, ..Default::default() };
    /// let begin = SegmentKind::Begin { message_length: None, services: Some(services) };
    /// let end = SegmentKind::End { message_length: None, crc: None };
    /// let segment = |sequence_number, segment_data, kind| Segment { transaction_id: 2, sequence_number, segment_data, kind };
    /// let segments = [segment(0, b"ab", begin), segment(1, b"c", end)];
    /// let plan = SegmentedMessage::try_from_frozen(&segments, b"abc", 7, 1, 7)?;
    /// assert_eq!(plan.acknowledgment_window(), AcknowledgmentWindow::Exceptions);
    /// let peer = MobileIdentity { kind: 0, width: 34, value: 1 };
    /// let mut sender = Sender::try_new(peer, HigherLayerProtocol::Segmented(0), &plan, 1, PROFILE_1, 9, 0)?;
    /// while let Some(submission) = sender.submission()? {
    ///     sender.submitted(&submission, 10, 10)?;
    ///     sender.accepted(&submission, 10)?;
    /// }
    /// assert_eq!(sender.advance(330_009)?, SenderState::AwaitingResponse);
    /// assert_eq!(sender.advance(330_010)?, SenderState::Complete(Completion::ExceptionIntervalElapsed));
    /// # Ok::<(), Refusal>(())
    /// ```
    pub fn try_from_frozen(
        segments: &[Segment<'_>],
        message: &'a [u8],
        payload_budget_octets: u64,
        version: u8,
        ceiling: u64,
    ) -> Result<Self, Refusal> {
        Self::of(segments, message, |heads, joined, record| {
            calls::try_from_frozen(
                heads,
                segments.len() as u64,
                joined,
                message,
                payload_budget_octets,
                version,
                ceiling,
                record,
            )
        })
    }

    /// Converts the train out of the dialect being read into the other: one modem family wants the message's length on every segment, the
    /// rest have it on the Begin only. What comes out is a frozen plan of the same message, budget and window; its segments are the plan's
    /// own, but for the length that the later ones state.
    ///
    /// It is refused, in this order:
    /// - as [`try_from_frozen`](Self::try_from_frozen) is: with a plan's own segments that is for a ceiling below the budget
    ///   ([`Refusal::PAYLOAD_BUDGET`]), then for a version below 1 ([`Refusal::VERSION`]);
    /// - for a train that is not in the dialect being read, also one that is in the wanted dialect already, or in none
    ///   ([`Refusal::OTHER_PATTERN`]); [`dialect`](Self::dialect) tells which it is in;
    /// - where a converted segment passes the budget ([`Refusal::PAYLOAD_BUDGET`]): in [`Dialect::Every`] each later segment is 2 octets
    ///   longer. A train that is read in [`Dialect::Every`] is never refused for this.
    ///
    /// There and back, and what is refused:
    ///
    /// ```
    /// use catkhize::*;
    /// let begin = SegmentKind::Begin { message_length: Some(3), services: None };
    /// let end = |message_length| SegmentKind::End { message_length, crc: None };
    /// let segment = |sequence_number, segment_data, kind| Segment { transaction_id: 2, sequence_number, segment_data, kind };
    /// let segments = [segment(0, b"a", begin), segment(1, b"bc", end(None))];
    /// let plan = SegmentedMessage::try_from_frozen(&segments, b"abc", 7, 1, 7)?;
    /// let every = plan.convert(Dialect::BeginOnly, 1, 7)?;
    /// assert_eq!(every.segment(0), Some(segments[0]));
    /// assert_eq!(every.segment(1), Some(segment(1, b"bc", end(Some(3)))));
    /// assert_eq!(every.convert(Dialect::Every, 1, 7)?, plan);
    ///
    /// assert_eq!(plan.convert(Dialect::Every, 1, 7), Err(Refusal::OTHER_PATTERN));
    /// assert_eq!(every.convert(Dialect::BeginOnly, 1, 7), Err(Refusal::OTHER_PATTERN));
    /// let tight = SegmentedMessage::try_from_frozen(&segments, b"abc", 6, 1, 6)?;
    /// assert_eq!(tight.convert(Dialect::BeginOnly, 1, 6), Err(Refusal::PAYLOAD_BUDGET));
    /// # Ok::<(), Refusal>(())
    /// ```
    ///
    /// A planner's plan is converted too, where its Begin states the length ([`dialect`](Self::dialect)). The way back then gives the frozen
    /// plan of the same segments, and not the planned one. Where its segments leave no room in its budget, give them to
    /// [`try_from_frozen`](Self::try_from_frozen) with a larger one first; 2 octets more are then enough, where the ceiling allows them:
    ///
    /// ```
    /// use catkhize::*;
    /// let window = AcknowledgmentWindow::Prohibited;
    /// let segments = |plan: &SegmentedMessage<'static>| (0..=255).map_while(|i| plan.segment(i)).collect::<Vec<_>>();
    /// // Of 3, 3 and 3 octets.
    /// let MessagePlan::Segmented(plan) = plan_even(b"012345678", 8, 2, window, 1, 10)? else { panic!("9 octets are more than 8") };
    /// let frozen = SegmentedMessage::try_from_frozen(&segments(&plan), plan.message(), 8, 1, 10)?;
    /// let back = plan.convert(Dialect::BeginOnly, 1, 10)?.convert(Dialect::Every, 1, 10)?;
    /// assert_eq!(back, frozen);
    /// assert_ne!(back, plan);
    ///
    /// // Of 3, 5 and 1.
    /// let MessagePlan::Segmented(plan) = plan_message(b"012345678", 8, 2, window, 1, 10)? else { panic!("9 octets are more than 8") };
    /// assert_eq!(plan.convert(Dialect::BeginOnly, 1, 10), Err(Refusal::PAYLOAD_BUDGET));
    /// let frozen = SegmentedMessage::try_from_frozen(&segments(&plan), plan.message(), 10, 1, 10)?;
    /// assert_eq!(frozen.convert(Dialect::BeginOnly, 1, 10)?.convert(Dialect::Every, 1, 10)?, frozen);
    /// # Ok::<(), Refusal>(())
    /// ```
    pub fn convert(&self, read: Dialect, version: u8, ceiling: u64) -> Result<Self, Refusal> {
        let segments: Vec<Segment<'a>> = self.segments().collect();
        Self::of(&segments, self.message, |heads, joined, record| {
            calls::convert(
                heads,
                segments.len() as u64,
                joined,
                self.message,
                self.payload_budget_octets(),
                version,
                ceiling,
                read as u8,
                record,
            )
        })
    }

    /// The plan that a call makes of segments: it is given their HEADs, their data joined, and a record to write.
    fn of(
        segments: &[Segment<'_>],
        message: &'a [u8],
        call: impl FnOnce(&[u8], &[u8], &mut [u8]) -> u32,
    ) -> Result<Self, Refusal> {
        let mut heads = vec![0; layout::HEADS];
        let mut joined = Vec::new();
        for (head, segment) in heads
            .chunks_mut(layout::HEAD)
            .zip(segments)
            .take(MAX_SEGMENTS)
        {
            segment.put_head(head);
            joined.extend_from_slice(segment.segment_data);
        }
        let mut record = vec![0; layout::PLAN];
        let given = call(&heads, &joined, &mut record);
        Given::new(given).done()?;
        Ok(Self { record, message })
    }

    /// Segment `index`, if there is one.
    pub fn segment(&self, index: u8) -> Option<Segment<'a>> {
        let mut answer = [0; layout::PART];
        let given = calls::plan_segment(&self.record, index, &mut answer);
        if Given::new(given) != Given::Done {
            return None;
        }
        Segment::take(&mut Take(&answer), self.message, None)
    }

    /// All segments, from the Begin on.
    fn segments(&self) -> impl Iterator<Item = Segment<'a>> {
        (0..=u8::MAX).map_while(|index| self.segment(index))
    }

    /// The dialect that the plan's train is in, if it is in one. [`convert`](Self::convert) gives [`Refusal::OTHER_PATTERN`] for every other.
    ///
    /// A train whose Begin states no length is in none. Planners make such trains of messages over 4,095 octets, and where the budget passes
    /// the Begin's bare header (3 octets, or 5 with services) by 2 or less.
    ///
    /// ```
    /// use catkhize::*;
    /// let dialect = |budget| {
    ///     let plan = plan_message(b"0123456", budget, 2, AcknowledgmentWindow::Prohibited, 1, 6)?;
    ///     let MessagePlan::Segmented(plan) = plan else { panic!("7 octets are more than 6") };
    ///     Ok::<_, Refusal>(plan.dialect())
    /// };
    /// assert_eq!(dialect(6)?, Some(Dialect::BeginOnly));
    /// assert_eq!(dialect(5)?, None);
    /// # Ok::<(), Refusal>(())
    /// ```
    pub fn dialect(&self) -> Option<Dialect> {
        let stated: Vec<bool> = self
            .segments()
            .map(|segment| segment.kind.message_length().is_some())
            .collect();
        match stated.as_slice() {
            [true, later @ ..] if !later.contains(&true) => Some(Dialect::BeginOnly),
            [true, later @ ..] if !later.contains(&false) => Some(Dialect::Every),
            _ => None,
        }
    }

    /// Whether the plan is a frozen one: which of two offsets holds.
    fn form(&self) -> usize {
        usize::from(Take::at(&self.record, layout::plan::FORM).flag())
    }

    fn number(&self, offsets: [usize; 2]) -> u64 {
        let [planned, frozen] = offsets;
        let offset = if self.form() == 0 { planned } else { frozen };
        Take::at(&self.record, offset).take64()
    }

    /// How many segments there are: 2 to 256.
    pub fn count(&self) -> u64 {
        self.number(layout::plan::COUNT)
    }

    /// The number of the message's octets.
    pub fn message_octets(&self) -> u64 {
        self.number(layout::plan::MESSAGE_OCTETS)
    }

    /// What no segment's encoding passes.
    pub fn payload_budget_octets(&self) -> u64 {
        self.number(layout::plan::BUDGET)
    }

    /// The window that the Begin asks for.
    pub fn acknowledgment_window(&self) -> AcknowledgmentWindow {
        let [planned, frozen] = layout::plan::WINDOW;
        let offset = if self.form() == 0 { planned } else { frozen };
        let number = Take::at(&self.record, offset).take8();
        AcknowledgmentWindow::from_number(number).unwrap_or(AcknowledgmentWindow::Prohibited)
    }

    /// The message that the plan cuts.
    pub fn message(&self) -> &'a [u8] {
        self.message
    }

    /// The plan as the calls take it: a PLAN of [`layout`].
    pub fn record(&self) -> &[u8] {
        &self.record
    }
}
