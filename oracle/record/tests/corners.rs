//! Every corner of document 01, asked of the original. A failure here means that docs/src and
//! document 01 disagree.

use bts136::l3::broadcast::ProtocolVersion;
use bts136::l3::relay::{HigherLayerProtocol, set_ceiling};
use bts136::l3::tsar::{
    AcknowledgmentMap, AcknowledgmentWindow, DecodedResponse, DecodedSegment, Error, MessageCrc,
    MessagePlan, OptionalServices, PlanningError, Response, Segment, SegmentKind, SegmentedMessage,
    Status, decode_segment, plan_message,
};
use bts136::link::rach::MobileIdentity;
use bts136::link::tsar::{
    Completion, Error as SendError, LowerLayerFailure, ReceiveError, Receiver, ReceiverState,
    Reception, Sender, SenderFailure, SenderState,
};

const V1: ProtocolVersion = ProtocolVersion::Pv1;
const PEER: MobileIdentity = MobileIdentity {
    kind: 1,
    width: 34,
    value: 5,
};
const PROTOCOL: HigherLayerProtocol = HigherLayerProtocol::Segmented(1);
const REASSEMBLY_MS: u64 = 300_000;
const SEGMENT_INTERVAL_MS: u64 = 330_000;

fn segment(transaction_id: u8, sequence_number: u8, data: &[u8], kind: SegmentKind) -> Segment {
    Segment {
        transaction_id,
        sequence_number,
        segment_data: data.to_vec(),
        kind,
    }
}

fn begin(message_length: Option<u16>, services: Option<OptionalServices>) -> SegmentKind {
    SegmentKind::Begin {
        message_length,
        services,
    }
}

fn continuing() -> SegmentKind {
    SegmentKind::Continue {
        message_length: None,
    }
}

fn end(crc: Option<MessageCrc>) -> SegmentKind {
    SegmentKind::End {
        message_length: None,
        crc,
    }
}

fn asking(acknowledgment_window: AcknowledgmentWindow) -> Option<OptionalServices> {
    Some(OptionalServices {
        acknowledgment_window,
        ..OptionalServices::default()
    })
}

fn reads(octets: &[u8], expected: Segment, unparsed: &[u8]) {
    let decoded = decode_segment(octets, V1).unwrap();
    assert_eq!(decoded.segment, expected);
    assert_eq!(decoded.unparsed_octets, unparsed);
}

fn refuses(octets: &[u8], error: Error) {
    assert_eq!(decode_segment(octets, V1), Err(error));
}

#[test]
fn codec_reads() {
    let every4 = asking(AcknowledgmentWindow::Every4);
    reads(&[0, 0, 0], segment(0, 0, &[], begin(None, None)), &[]);
    reads(
        &[0x0b, 1, 2, 0x41, 0x42],
        segment(3, 1, &[0x41, 0x42], continuing()),
        &[],
    );
    let crc = Some(MessageCrc::Crc16(0x1234));
    reads(
        &[0x10, 1, 0, 0x21, 0x23, 0x40],
        segment(0, 1, &[], end(crc)),
        &[],
    );
    reads(
        &[0, 0, 0, 0x20, 0x08],
        segment(0, 0, &[], begin(None, every4)),
        &[],
    );
    reads(
        &[8, 1, 0, 0x20, 0x08],
        segment(0, 1, &[], continuing()),
        &[0x20, 0x08],
    );
    let both = segment(0, 0, &[], begin(Some(5), every4));
    reads(&[0, 0, 0, 0x20, 0x08, 0x10, 0x05], both.clone(), &[]);
    reads(&[0, 0, 0, 0x10, 0x05, 0x20, 0x08], both.clone(), &[]);
    assert_eq!(both.encode(V1).unwrap(), [0, 0, 0, 0x10, 0x05, 0x20, 0x08]);
}

#[test]
fn codec_refuses() {
    refuses(&[0x10, 1, 0, 0x21, 0x23, 0x41], Error::Reserved);
    refuses(&[0, 0, 0, 0x20, 0x09], Error::Reserved);
    refuses(
        &[0, 0, 0, 0x10, 0x05, 0x10, 0x05],
        Error::DuplicateParameter,
    );
    refuses(&[0, 0, 0, 0x10], Error::Truncated);
    refuses(&[], Error::Truncated);
    refuses(&[0x18], Error::UnsupportedResponse);
    refuses(&[0x20], Error::MessageType);
    refuses(&[0x40], Error::Protocol);
    refuses(&[0, 1], Error::Truncated);
    refuses(&[0, 1, 0], Error::Field("begin_sequence_number"));
    // A repeat comes before a cut, and either CRC name after either is a repeat.
    refuses(&[0, 0, 0, 0x10, 0x05, 0x10], Error::DuplicateParameter);
    refuses(&[0x10, 1, 0, 0x20, 0, 0, 0x30], Error::DuplicateParameter);
    let longest = segment(0, 0, &[], begin(Some(4095), None));
    assert_eq!(longest.encode(V1).unwrap(), [0, 0, 0, 0x1f, 0xff]);
    let longer = segment(0, 0, &[], begin(Some(4096), None));
    assert_eq!(longer.encode(V1), Err(Error::Field("message_length")));
}

fn plan(
    octets: usize,
    budget: usize,
    window: AcknowledgmentWindow,
) -> Result<MessagePlan, PlanningError> {
    set_ceiling(budget);
    plan_message(&vec![7; octets], budget, 0, window, V1)
}

fn segmented(octets: usize, budget: usize, window: AcknowledgmentWindow) -> SegmentedMessage {
    match plan(octets, budget, window) {
        Ok(MessagePlan::Segmented(plan)) => plan,
        other => panic!("{other:?}"),
    }
}

#[test]
fn planner() {
    let prohibited = AcknowledgmentWindow::Prohibited;
    let every4 = AcknowledgmentWindow::Every4;
    let train = segmented(7, 6, prohibited);
    let lengths: Vec<usize> = train
        .segments()
        .iter()
        .map(|s| s.segment_data.len())
        .collect();
    assert_eq!(lengths, [1, 3, 3]);
    assert_eq!(
        train.segments()[0].encode(V1).unwrap(),
        [0, 0, 1, 7, 0x10, 0x07]
    );
    assert_eq!(segmented(256, 4, prohibited).segments().len(), 256);
    assert_eq!(plan(257, 4, prohibited), Err(PlanningError::SegmentCount));
    assert!(matches!(
        plan(3, 3, prohibited),
        Ok(MessagePlan::Unsegmented(_))
    ));
    assert_eq!(plan(4, 3, prohibited), Err(PlanningError::HeaderCapacity));
    let train = segmented(510, 5, every4);
    assert_eq!(train.segments().len(), 256);
    assert!(train.segments()[0].segment_data.is_empty());
    assert_eq!(plan(511, 5, every4), Err(PlanningError::SegmentCount));
    assert_eq!(plan(5, 4, every4), Err(PlanningError::HeaderCapacity));
    set_ceiling(0);
    let empty = plan_message(&[], 0, 8, prohibited, ProtocolVersion(0));
    assert_eq!(empty, Ok(MessagePlan::Unsegmented(Vec::new())));
}

#[test]
fn frozen_check() {
    set_ceiling(10);
    let train = vec![
        segment(0, 0, &[], begin(None, None)),
        segment(0, 1, &[], end(None)),
    ];
    assert!(SegmentedMessage::try_from_frozen(train, &[], 3, V1).is_ok());
    let train = vec![
        segment(0, 0, &[], continuing()),
        segment(0, 1, &[], end(None)),
    ];
    let refused = SegmentedMessage::try_from_frozen(train, &[], 3, ProtocolVersion(0));
    assert_eq!(refused, Err(PlanningError::FrozenPlan));
}

fn receiver() -> Receiver {
    Receiver::try_new(PEER, PROTOCOL, 0, V1, 65_280, 0).unwrap()
}

fn receive(receiver: &mut Receiver, segment: Segment, now: u64) -> Result<Reception, ReceiveError> {
    let decoded = DecodedSegment {
        segment,
        unparsed_octets: Vec::new(),
    };
    receiver.receive(PEER, PROTOCOL, &decoded, now)
}

#[test]
fn receiver_hands_over_and_aborts() {
    let mut first = receiver();
    receive(&mut first, segment(0, 0, &[], begin(None, None)), 0).unwrap();
    let answer = receive(&mut first, segment(0, 1, &[], end(None)), 0).unwrap();
    assert_eq!(answer.message, Some(Vec::new()));
    // In Complete an unheld sequence is refused and takes the reading.
    let unheld = receive(&mut first, segment(0, 2, &[], continuing()), 50);
    assert_eq!(unheld, Err(ReceiveError::Closed));
    assert_eq!(first.advance(49), Err(ReceiveError::ClockRegression));
    let mut second = receiver();
    receive(&mut second, segment(0, 0, &[], begin(None, None)), 0).unwrap();
    receive(&mut second, segment(0, 255, &[], continuing()), 0).unwrap();
    assert_eq!(second.state(), ReceiverState::Failed(Status::Aborted));
}

#[test]
fn receiver_deadline() {
    let window = asking(AcknowledgmentWindow::Every4);
    for (services, state) in [
        (None, ReceiverState::Expired),
        (window, ReceiverState::Receiving),
    ] {
        let mut first = receiver();
        receive(&mut first, segment(0, 0, &[], begin(None, services)), 0).unwrap();
        let answer = first.advance(REASSEMBLY_MS).unwrap();
        assert_eq!(answer.is_some(), services.is_some());
        assert_eq!(first.state(), state);
        let mut second = receiver();
        receive(&mut second, segment(0, 0, &[], begin(None, services)), 0).unwrap();
        receive(&mut second, segment(0, 1, &[], continuing()), REASSEMBLY_MS).unwrap();
        let late = receive(
            &mut second,
            segment(0, 2, &[], continuing()),
            2 * REASSEMBLY_MS + 1,
        );
        let refusal = match services {
            None => ReceiveError::Closed,
            Some(_) => ReceiveError::TimerDue,
        };
        assert_eq!(late, Err(refusal));
        assert_eq!(second.state(), state);
    }
}

#[test]
fn receiver_repeats() {
    for complete in [false, true] {
        for (repeat, status) in [
            (
                segment(0, 0, &[1, 2], begin(None, None)),
                Status::DuplicateSizeMismatch,
            ),
            (segment(0, 0, &[2], begin(None, None)), Status::Aborted),
            (
                segment(0, 0, &[1], begin(None, Some(OptionalServices::default()))),
                Status::Aborted,
            ),
        ] {
            let mut receiver = receiver();
            receive(&mut receiver, segment(0, 0, &[1], begin(None, None)), 0).unwrap();
            if complete {
                receive(&mut receiver, segment(0, 1, &[], end(None)), 0).unwrap();
            }
            receive(&mut receiver, repeat, 0).unwrap();
            assert_eq!(receiver.state(), ReceiverState::Failed(status));
        }
    }
}

/// The frozen plan of the same segments, for a message of as many octets as `segmented` has.
fn frozen(plan: &SegmentedMessage) -> SegmentedMessage {
    let message = vec![7; plan.message_octets()];
    let budget = plan.payload_budget_octets();
    SegmentedMessage::try_from_frozen(plan.segments().to_vec(), &message, budget, V1).unwrap()
}

/// A sender of two segments, both submitted and accepted at 0.
fn sent(plan: SegmentedMessage) -> Sender {
    assert_eq!(plan.segments().len(), 2);
    let mut sender = Sender::try_new(PEER, PROTOCOL, plan, V1, 0).unwrap();
    for _ in 0..2 {
        let submission = sender.submission().unwrap().clone();
        sender.submitted(&submission, 0, 0).unwrap();
        sender.accepted(&submission, 0).unwrap();
    }
    sender
}

fn respond(sender: &mut Sender, status: Status, now: u64) -> Result<SenderState, SendError> {
    let response = Response {
        transaction_id: 0,
        status,
        acknowledgments: AcknowledgmentMap::try_new(vec![true; 2]).unwrap(),
        optional_services_support: None,
    };
    let decoded = DecodedResponse {
        response,
        unparsed_bits: Vec::new(),
    };
    sender.receive_response(PEER, PROTOCOL, &decoded, now)
}

#[test]
fn sender_at_the_deadline() {
    let received = Ok(SenderState::Complete(Completion::PeerReceived));
    let every4 = segmented(13, 12, AcknowledgmentWindow::Every4);
    let mut first = sent(every4.clone());
    assert_eq!(
        respond(&mut first, Status::Received, SEGMENT_INTERVAL_MS),
        received
    );
    let mut second = sent(every4);
    let prepared = Ok(SenderState::Prepared);
    assert_eq!(
        respond(&mut second, Status::Continuing, SEGMENT_INTERVAL_MS),
        prepared
    );
    assert_eq!(second.submission().unwrap().segment().sequence_number, 1);
    // Document 02, 2026-09: a plan under Exceptions is a frozen one.
    let exceptions = frozen(&segmented(13, 12, AcknowledgmentWindow::Exceptions));
    assert_eq!(
        exceptions.acknowledgment_window(),
        AcknowledgmentWindow::Exceptions
    );
    let mut third = sent(exceptions);
    let elapsed = Ok(SenderState::Complete(Completion::ExceptionIntervalElapsed));
    assert_eq!(
        respond(&mut third, Status::Continuing, SEGMENT_INTERVAL_MS),
        elapsed
    );
}

#[test]
fn sender_late_word_of_the_lower_layer() {
    for late in [SEGMENT_INTERVAL_MS, SEGMENT_INTERVAL_MS + 1] {
        for failed in [false, true] {
            let plan = segmented(13, 12, AcknowledgmentWindow::Last);
            let mut sender = Sender::try_new(PEER, PROTOCOL, plan, V1, 0).unwrap();
            let submission = sender.submission().unwrap().clone();
            sender.submitted(&submission, 0, 0).unwrap();
            let answer = if failed {
                sender.lower_failed(&submission, LowerLayerFailure::TimedOut, late)
            } else {
                sender.accepted(&submission, late)
            };
            assert_eq!(answer, Err(SendError::StaleSubmission));
            assert_eq!(sender.state(), SenderState::Prepared);
        }
    }
}

#[test]
fn sender_prohibited_and_closed() {
    for queued in [SEGMENT_INTERVAL_MS, SEGMENT_INTERVAL_MS + 1] {
        let plan = segmented(13, 12, AcknowledgmentWindow::Prohibited);
        let mut sender = Sender::try_new(PEER, PROTOCOL, plan, V1, 0).unwrap();
        let submission = sender.submission().unwrap().clone();
        sender.submitted(&submission, 0, 0).unwrap();
        sender.accepted(&submission, 0).unwrap();
        let submission = sender.submission().unwrap().clone();
        let late = sender.submitted(&submission, queued, queued);
        assert_eq!(late, Err(SendError::ReceiptTime));
        let failed = SenderState::Failed(SenderFailure::SegmentInterval);
        assert_eq!(sender.state(), failed);
        assert_eq!(sender.cancel(queued), Ok(failed));
    }
}
