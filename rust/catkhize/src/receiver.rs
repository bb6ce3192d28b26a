use crate::octets::{Take, part};
use crate::{
    DecodedSegment, Given, HigherLayerProtocol, Missing, MobileIdentity, Refusal, Response, Status,
    calls, layout,
};

/// How a reception stands.
///
/// ```
/// use catkhize::*;
/// let peer = MobileIdentity { kind: 0, width: 34, value: 1 };
/// let receiver = Receiver::try_new(peer, HigherLayerProtocol::Segmented(0), 0, 1, PROFILE_1, 100, 0)?;
/// assert_eq!(receiver.state(), ReceiverState::AwaitingBegin);
/// # Ok::<(), Refusal>(())
/// ```
#[derive(Debug, Clone, Copy, PartialEq, Eq, Hash)]
pub enum ReceiverState {
    /// Nothing came so far.
    AwaitingBegin,
    /// Some segments are held.
    Receiving,
    /// The message was handed over.
    Complete,
    /// The train cannot become a message.
    Failed(Status),
    /// The peer fell silent, where no response may be sent.
    Expired,
    /// The reception was canceled, or released once it was complete.
    Canceled,
}

/// A response, and beside it the figures of its map, as the receiver gives them. The response alone is sent: a peer is not told the figures.
/// The map's entries go to the end where it is known, and else to the highest segment held (in a timeout answer one further): that none of them
/// is missing does not say that the message is whole, [`Status::Received`] does.
///
/// ```
/// use catkhize::*;
/// let peer = MobileIdentity { kind: 0, width: 34, value: 1 };
/// let protocol = HigherLayerProtocol::Segmented(0);
/// let mut receiver = Receiver::try_new(peer, protocol, 0, 1, PROFILE_1, 100, 0)?;
/// // The Begin asks for a response to every fourth segment.
/// receiver.receive(peer, protocol, &decode_segment(&[0, 0, 1, b'a', 0x20, 0x08], 1)?, 0)?;
/// let reception = receiver.receive(peer, protocol, &decode_segment(&[8, 3, 1, b'd'], 1)?, 0)?;
/// let Reported { response, missing } = reception.response.unwrap();
/// assert_eq!(response.acknowledgments, AcknowledgmentMap::try_new(&[true, false, false, true])?);
/// assert_eq!(missing, Missing { count: 2, first: 1 });
/// # Ok::<(), Refusal>(())
/// ```
#[derive(Debug, Clone, Copy, PartialEq, Eq, Hash)]
pub struct Reported {
    /// What is to be sent to the peer.
    pub response: Response,
    /// How many entries of its map are missing, and the first missing one.
    pub missing: Missing,
}

impl Reported {
    /// What a REPLY has; the outer none is for what spells none.
    fn read(reply: &[u8]) -> Option<Option<Self>> {
        let response = Response::take(&mut Take(reply))?;
        let missing = Missing {
            count: Take::at(reply, layout::reply::MISSING).take16(),
            first: Take::at(reply, layout::reply::FIRST_MISSING).take16(),
        };
        Some(response.map(|response| Self { response, missing }))
    }
}

/// What receiving gives.
///
/// ```
/// use catkhize::*;
/// let peer = MobileIdentity { kind: 0, width: 34, value: 1 };
/// let protocol = HigherLayerProtocol::Segmented(0);
/// let mut receiver = Receiver::try_new(peer, protocol, 0, 1, PROFILE_1, 100, 0)?;
/// // The Begin asks for a response to every fourth segment; it is not the fourth.
/// let reception = receiver.receive(peer, protocol, &decode_segment(&[0, 0, 1, b'a', 0x20, 0x08], 1)?, 0)?;
/// assert_eq!(reception, Reception { response: None, message: None });
/// let reception = receiver.receive(peer, protocol, &decode_segment(&[16, 1, 1, b'b'], 1)?, 0)?;
/// assert_eq!(reception.response.map(|reported| reported.response.status), Some(Status::Received));
/// assert_eq!(reception.response.map(|reported| reported.missing), Some(Missing { count: 0, first: 256 }));
/// assert_eq!(reception.message, Some(b"ab".as_slice()));
/// # Ok::<(), Refusal>(())
/// ```
#[derive(Debug, Clone, Copy, PartialEq, Eq)]
pub struct Reception<'a> {
    /// What is to be sent to the peer, and the figures of its map.
    pub response: Option<Reported>,
    /// The message, once it is whole.
    pub message: Option<&'a [u8]>,
}

/// What receiving a train gives.
///
/// ```
/// use catkhize::*;
/// let peer = MobileIdentity { kind: 0, width: 34, value: 1 };
/// let protocol = HigherLayerProtocol::Segmented(0);
/// let mut receiver = Receiver::try_new(peer, protocol, 0, 1, PROFILE_1, 100, 0)?;
/// let train = receiver.receive_train(peer, protocol, &[0, 0, 1, b'a', 16, 1, 1, b'b'], &[4, 4], 5)?;
/// assert_eq!((train.received, train.stopped), (2, None));
/// assert_eq!(train.message(), Some(b"ab".as_slice()));
/// # Ok::<(), Refusal>(())
/// ```
#[derive(Debug, Clone, PartialEq, Eq)]
pub struct Train<'a> {
    /// How many segments were received.
    pub received: u64,
    /// Why the next one was refused, if one was.
    pub stopped: Option<Refusal>,
    /// Every reception that carried a response or a message, in order, each with how many segments had been received, its own counted. A
    /// response has the figures of its map beside it.
    pub receptions: Vec<(u64, Reception<'a>)>,
}

impl<'a> Train<'a> {
    /// What is to be sent to the peer, in order; the figures are in [`receptions`](Self::receptions).
    pub fn responses(&self) -> impl Iterator<Item = Response> {
        let receptions = self.receptions.iter();
        receptions.filter_map(|(_, reception)| Some(reception.response?.response))
    }

    /// The message, if the train handed it over.
    pub fn message(&self) -> Option<&'a [u8]> {
        let mut receptions = self.receptions.iter();
        receptions.find_map(|(_, reception)| reception.message)
    }
}

/// The receiver of one transaction, with the store for its segments and the output for its message.
///
/// Failure, expiry, [`cancel`](Self::cancel) and [`release`](Self::release) set the store to 0. A hand-over does not: a Complete receiver compares
/// repeats with what its store holds.
///
/// ```
/// use catkhize::*;
/// let peer = MobileIdentity { kind: 0, width: 34, value: 1 };
/// let protocol = HigherLayerProtocol::Segmented(0);
/// let mut receiver = Receiver::try_new(peer, protocol, 0, 1, PROFILE_1, 65_280, 1_000)?;
/// receiver.receive(peer, protocol, &decode_segment(&[0, 0, 1, b'a'], 1)?, 1_000)?;
/// assert_eq!(receiver.deadline_monotonic_ms(), Some(301_000));
/// let reception = receiver.receive(peer, protocol, &decode_segment(&[16, 1, 1, b'b'], 1)?, 1_200)?;
/// assert_eq!(reception.message, Some(b"ab".as_slice()));
/// # Ok::<(), Refusal>(())
/// ```
#[derive(Debug, Clone)]
pub struct Receiver {
    record: Vec<u8>,
    store: Vec<u8>,
    output: Vec<u8>,
}

/// The response of a RECEPTION with its figures, and the number of octets handed over.
type Found = (Option<Reported>, Option<u64>);

fn found(reception: &[u8]) -> Option<Found> {
    let response = Reported::read(reception)?;
    let mut take = Take::at(reception, layout::reception::MESSAGE);
    let handed_over = take.flag();
    let octets = take.take64();
    Some((response, handed_over.then_some(octets)))
}

impl Receiver {
    /// A receiver of messages of up to `maximum_message_octets` from one peer in one transaction. The profile, [`PROFILE_1`](crate::PROFILE_1) or
    /// [`PROFILE_2`](crate::PROFILE_2), says how long it waits for the next segment, which is its own interval, and is fixed after this.
    ///
    /// The refusals, in this order: [`Refusal::IDENTITY`], [`Refusal::SERVICE`], [`Refusal::PROFILE`] for a profile that is neither 1 nor 2,
    /// [`Refusal::VERSION`], [`Refusal::FIELD_TRANSACTION_ID`].
    ///
    /// ```
    /// use catkhize::*;
    /// let peer = MobileIdentity { kind: 0, width: 34, value: 1 };
    /// let protocol = HigherLayerProtocol::Segmented(0);
    /// let mut receiver = Receiver::try_new(peer, protocol, 0, 1, PROFILE_2, 100, 1_000)?;
    /// receiver.receive(peer, protocol, &decode_segment(&[0, 0, 0, 0x20, 0x08], 1)?, 1_000)?;
    /// assert_eq!(receiver.deadline_monotonic_ms(), Some(121_000));
    /// assert_eq!(receiver.advance(120_999)?, None);
    /// let reported = receiver.advance(121_000)?.unwrap();
    /// assert_eq!(reported.response.status, Status::InterSegmentTimeout);
    /// assert_eq!(Receiver::try_new(peer, protocol, 8, 0, 3, 100, 1_000).err(), Some(Refusal::PROFILE));
    /// # Ok::<(), Refusal>(())
    /// ```
    pub fn try_new(
        peer: MobileIdentity,
        protocol: HigherLayerProtocol,
        transaction_id: u8,
        version: u8,
        profile: u8,
        maximum_message_octets: u64,
        monotonic_ms: u64,
    ) -> Result<Self, Refusal> {
        let mut record = vec![0; layout::RECEIVER];
        let given = calls::receiver_new(
            &mut record,
            calls::Origin::new(peer, protocol),
            transaction_id,
            version,
            profile,
            maximum_message_octets,
            monotonic_ms,
        );
        Given::new(given).done()?;
        let room = usize::try_from(maximum_message_octets).unwrap_or(usize::MAX);
        Ok(Self {
            record,
            store: vec![0; layout::STORE],
            output: vec![0; room.min(layout::STORE)],
        })
    }

    /// Takes one decoded segment. A failed reception is no refusal: the state has its status. A response, also that of a failed reception,
    /// has the figures of its map beside it.
    ///
    /// Two refusals change the receiver, both [`Refusal::CLOSED`]: past the deadline under Prohibited it expires, and a Complete receiver
    /// takes the reading of a segment that it does not hold. Past the deadline under any other window the segment is refused with
    /// [`Refusal::TIMER_DUE`], and nothing is changed: [`advance`](Self::advance), then give it again.
    ///
    /// ```
    /// use catkhize::*;
    /// let peer = MobileIdentity { kind: 0, width: 34, value: 1 };
    /// let protocol = HigherLayerProtocol::Segmented(0);
    /// let mut receiver = Receiver::try_new(peer, protocol, 0, 1, PROFILE_1, 100, 0)?;
    /// receiver.receive(peer, protocol, &decode_segment(&[0, 0, 0], 1)?, 0)?;
    /// let late = receiver.receive(peer, protocol, &decode_segment(&[8, 1, 0], 1)?, 300_001);
    /// assert_eq!(late, Err(Refusal::CLOSED));
    /// assert_eq!(receiver.state(), ReceiverState::Expired);
    /// # Ok::<(), Refusal>(())
    /// ```
    pub fn receive(
        &mut self,
        peer: MobileIdentity,
        protocol: HigherLayerProtocol,
        decoded: &DecodedSegment<'_>,
        monotonic_ms: u64,
    ) -> Result<Reception<'_>, Refusal> {
        let mut answer = [0; layout::RECEPTION];
        let given = calls::receiver_receive(
            &mut self.record,
            &mut self.store,
            &mut self.output,
            calls::Origin::new(peer, protocol),
            &decoded.segment.octets(),
            decoded.segment.segment_data,
            decoded.unparsed_octets.len() as u64,
            monotonic_ms,
            &mut answer,
        );
        Given::new(given).done()?;
        found(&answer)
            .and_then(|found| self.reception(found))
            .ok_or(Refusal::BUFFER_SPELLS_NONE)
    }

    /// Takes segments that stand one after another in `octets`, each as long as `lengths` says, all with one reading, up to the first
    /// that decoding or receiving refuses. The entry stops behind each segment that is answered or that hands over the message; this goes
    /// on with the rest and gives every response, with the figures of its map, and the message. The error is for buffers alone, which this type
    /// keeps right.
    ///
    /// ```
    /// use catkhize::*;
    /// let peer = MobileIdentity { kind: 0, width: 34, value: 1 };
    /// let protocol = HigherLayerProtocol::Segmented(0);
    /// let mut receiver = Receiver::try_new(peer, protocol, 0, 1, PROFILE_1, 100, 0)?;
    /// // The Begin asks for a response to every fourth segment; the third comes last.
    /// let segments: [&[u8]; 6] = [
    ///     &[0, 0, 1, b'a', 0x20, 0x08], &[8, 1, 1, b'b'], &[8, 3, 1, b'd'], &[8, 4, 1, b'e'], &[16, 5, 1, b'f'], &[8, 2, 1, b'c'],
    /// ];
    /// let lengths = segments.map(|octets| octets.len() as u16);
    /// let train = receiver.receive_train(peer, protocol, &segments.concat(), &lengths, 5)?;
    /// assert_eq!((train.received, train.stopped), (6, None));
    /// for response in train.responses() {
    ///     println!("send {response:?}");
    /// }
    /// let figures = train.receptions.iter().map(|(received, reception)| (*received, reception.response.unwrap().missing));
    /// let one = Missing { count: 1, first: 2 };
    /// let none = Missing { count: 0, first: Missing::NONE };
    /// assert_eq!(figures.collect::<Vec<_>>(), [(3, one), (5, one), (6, none)]);
    /// assert_eq!(train.message(), Some(b"abcdef".as_slice()));
    /// # Ok::<(), Refusal>(())
    /// ```
    pub fn receive_train(
        &mut self,
        peer: MobileIdentity,
        protocol: HigherLayerProtocol,
        octets: &[u8],
        lengths: &[u16],
        monotonic_ms: u64,
    ) -> Result<Train<'_>, Refusal> {
        let (mut octets, mut lengths) = (octets, lengths);
        let mut received = 0;
        let mut carried = Vec::new();
        let stopped = loop {
            let lengths_octets: Vec<u8> = lengths
                .iter()
                .flat_map(|length| length.to_be_bytes())
                .collect();
            let mut answer = [0; layout::TRAIN];
            let given = calls::receiver_train(
                &mut self.record,
                &mut self.store,
                &mut self.output,
                calls::Origin::new(peer, protocol),
                octets,
                &lengths_octets,
                monotonic_ms,
                &mut answer,
            );
            let stopped = Given::new(given).done().err();
            if let Some(refusal) = stopped.filter(|refusal| refusal.is_own()) {
                return Err(refusal);
            }
            let count = Take(&answer).take64();
            received += count;
            let reception = &answer[layout::train::RECEPTION..];
            let found = found(reception).ok_or(Refusal::BUFFER_SPELLS_NONE)?;
            if found != (None, None) {
                carried.push((received, found));
            }
            let taken = usize::try_from(count).map_or(lengths.len(), |n| n.min(lengths.len()));
            let (done, rest) = lengths.split_at(taken);
            for length in done {
                octets = &octets[usize::from(*length).min(octets.len())..];
            }
            lengths = rest;
            if stopped.is_some() || taken == 0 || lengths.is_empty() {
                break stopped;
            }
        };
        let receptions = carried
            .into_iter()
            .map(|(received, found)| Some((received, self.reception(found)?)))
            .collect::<Option<_>>()
            .ok_or(Refusal::BUFFER_SPELLS_NONE)?;
        Ok(Train {
            received,
            stopped,
            receptions,
        })
    }

    fn reception(&self, (response, octets): Found) -> Option<Reception<'_>> {
        let message = match octets {
            Some(octets) => Some(part(&self.output, 0, octets)?),
            None => None,
        };
        Some(Reception { response, message })
    }

    /// Lets time pass. A response asks the peer for what is missing, and has the figures of its map beside it. Where the end is not known, the
    /// map has one more entry, past the highest sequence number held; that entry is missing and is counted. Where 255 is held there is none.
    ///
    /// It is to be called at [`deadline_monotonic_ms`](Self::deadline_monotonic_ms), or as soon after it as may be: nothing happens between
    /// calls. Under Prohibited the receiver then expires; under any other window it answers and stays open, without a deadline until the
    /// next segment. Before the deadline it only takes the reading. A segment that comes at the deadline itself is taken if it is received
    /// first.
    ///
    /// ```
    /// use catkhize::*;
    /// let peer = MobileIdentity { kind: 0, width: 34, value: 1 };
    /// let protocol = HigherLayerProtocol::Segmented(0);
    /// let mut receiver = Receiver::try_new(peer, protocol, 0, 1, PROFILE_1, 100, 0)?;
    /// receiver.receive(peer, protocol, &decode_segment(&[0, 0, 0, 0x20, 0x08], 1)?, 0)?;
    /// let Reported { response, missing } = receiver.advance(300_000)?.unwrap();
    /// assert_eq!(response.status, Status::InterSegmentTimeout);
    /// assert_eq!(response.acknowledgments.received(1), Some(false));
    /// assert_eq!(missing, Missing { count: 1, first: 1 });
    /// # Ok::<(), Refusal>(())
    /// ```
    pub fn advance(&mut self, monotonic_ms: u64) -> Result<Option<Reported>, Refusal> {
        let mut answer = [0; layout::REPLY];
        let given =
            calls::receiver_advance(&mut self.record, &mut self.store, monotonic_ms, &mut answer);
        Given::new(given).done()?;
        Reported::read(&answer).ok_or(Refusal::BUFFER_SPELLS_NONE)
    }

    /// Ends an open reception, AwaitingBegin or Receiving, and sets the store to 0. In any other state it is refused with [`Refusal::CLOSED`]; a
    /// Complete one is [released](Self::release).
    ///
    /// ```
    /// use catkhize::*;
    /// let peer = MobileIdentity { kind: 0, width: 34, value: 1 };
    /// let mut receiver = Receiver::try_new(peer, HigherLayerProtocol::Segmented(0), 0, 1, PROFILE_1, 100, 0)?;
    /// receiver.cancel(1)?;
    /// assert_eq!(receiver.state(), ReceiverState::Canceled);
    /// assert_eq!(receiver.cancel(1), Err(Refusal::CLOSED));
    /// # Ok::<(), Refusal>(())
    /// ```
    pub fn cancel(&mut self, monotonic_ms: u64) -> Result<(), Refusal> {
        Given::new(calls::receiver_cancel(
            &mut self.record,
            &mut self.store,
            monotonic_ms,
        ))
        .done()
        .map(|_| ())
    }

    /// Closes a Complete receiver: the store becomes 0, no segment is held any more and the state is [`ReceiverState::Canceled`]. In any other
    /// state it is refused with [`Refusal::CLOSED`]; an open one is [canceled](Self::cancel). A repeat that comes after it is refused with
    /// [`Refusal::CLOSED`] and not answered.
    ///
    /// ```
    /// use catkhize::*;
    /// let peer = MobileIdentity { kind: 0, width: 34, value: 1 };
    /// let protocol = HigherLayerProtocol::Segmented(0);
    /// let mut receiver = Receiver::try_new(peer, protocol, 0, 1, PROFILE_1, 100, 0)?;
    /// receiver.receive(peer, protocol, &decode_segment(&[0, 0, 1, b'a'], 1)?, 0)?;
    /// assert_eq!(receiver.release(0), Err(Refusal::CLOSED));
    /// let end = decode_segment(&[16, 1, 1, b'b'], 1)?;
    /// assert_eq!(receiver.receive(peer, protocol, &end, 0)?.message, Some(b"ab".as_slice()));
    /// assert_eq!((receiver.store()[0], receiver.store()[255]), (b'a', b'b'));
    /// assert_eq!(receiver.cancel(1), Err(Refusal::CLOSED));
    /// receiver.release(1)?;
    /// assert_eq!((receiver.state(), receiver.stored_octets()), (ReceiverState::Canceled, 0));
    /// assert!(receiver.store().iter().all(|octet| *octet == 0));
    /// assert_eq!(receiver.receive(peer, protocol, &end, 1), Err(Refusal::CLOSED));
    /// assert_eq!(receiver.release(1), Err(Refusal::CLOSED));
    /// # Ok::<(), Refusal>(())
    /// ```
    pub fn release(&mut self, monotonic_ms: u64) -> Result<(), Refusal> {
        Given::new(calls::receiver_release(
            &mut self.record,
            &mut self.store,
            monotonic_ms,
        ))
        .done()
        .map(|_| ())
    }

    /// How the reception stands.
    pub fn state(&self) -> ReceiverState {
        let mut take = Take::at(&self.record, layout::receiver::STATE);
        let (state, status) = (take.take8(), take.take8());
        match state {
            0 => ReceiverState::AwaitingBegin,
            1 => ReceiverState::Receiving,
            2 => ReceiverState::Complete,
            3 => ReceiverState::Failed(Status::from_number(status).unwrap_or(Status::Aborted)),
            4 => ReceiverState::Expired,
            _ => ReceiverState::Canceled,
        }
    }

    /// The profile that it was made with.
    ///
    /// ```
    /// use catkhize::*;
    /// let peer = MobileIdentity { kind: 0, width: 34, value: 1 };
    /// let receiver = Receiver::try_new(peer, HigherLayerProtocol::Segmented(0), 0, 1, PROFILE_2, 100, 0)?;
    /// assert_eq!(receiver.profile(), PROFILE_2);
    /// # Ok::<(), Refusal>(())
    /// ```
    pub fn profile(&self) -> u8 {
        Take::at(&self.record, layout::receiver::PROFILE).take8()
    }

    /// The reading at which [`advance`](Self::advance) is to be called, if no segment comes before.
    pub fn deadline_monotonic_ms(&self) -> Option<u64> {
        let mut take = Take::at(&self.record, layout::receiver::DEADLINE);
        let runs = take.flag();
        Some(take.take64()).filter(|_| runs)
    }

    /// The number of octets held.
    pub fn stored_octets(&self) -> u64 {
        Take::at(&self.record, layout::receiver::STORED_OCTETS).take64()
    }

    /// The store: 255 octets for each of 256 sequence numbers, of which a held segment fills the first.
    pub fn store(&self) -> &[u8] {
        &self.store
    }

    /// The receiver as the calls take it: a RECEIVER of [`layout`].
    pub fn record(&self) -> &[u8] {
        &self.record
    }
}
