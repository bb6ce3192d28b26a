//! Calls every entry, with right buffers and wrong ones, and the typed layer with whatever its types allow; the machines of both profiles.

use catkhize::calls::{self, Origin};
use catkhize::*;

const FILLING: u8 = 0xa5;
const PEER: MobileIdentity = MobileIdentity {
    kind: 1,
    width: 34,
    value: 5,
};
const PROTOCOL: HigherLayerProtocol = HigherLayerProtocol::CarrierSpecific(0xc1);
const MESSAGE: &[u8] = b"0123456";
/// The profiles, each with how long a receiver and a sender of it wait.
const PROFILES: [(u8, u64, u64); 2] = [(1, 300_000, 330_000), (2, 120_000, 150_000)];
/// Numbers that are no profile.
const NEITHER: [u8; 9] = [0, 3, 4, 127, 128, 129, 130, 254, 255];

fn filled(octets: usize) -> Vec<u8> {
    vec![FILLING; octets]
}

fn untouched(octets: &[u8]) -> bool {
    octets.iter().all(|octet| *octet == FILLING)
}

fn origin() -> Origin {
    Origin::new(PEER, PROTOCOL)
}

fn refusal(given: u32) -> Refusal {
    match Given::new(given) {
        Given::Refused(refusal) => refusal,
        other => panic!("{other:?} is no refusal"),
    }
}

fn number(octets: &[u8]) -> u64 {
    octets
        .iter()
        .fold(0, |value, octet| value << 8 | u64::from(*octet))
}

/// A SEGMENT without parameters.
fn segment(transaction: u8, sequence: u8, kind: u8) -> [u8; layout::SEGMENT] {
    let mut segment = [0; layout::SEGMENT];
    segment[..3].copy_from_slice(&[transaction, sequence, kind]);
    segment
}

fn plan(window: u8) -> Vec<u8> {
    let mut plan = filled(layout::PLAN);
    assert_eq!(
        calls::plan_message(MESSAGE, 6, 2, window, 1, 6, &mut plan),
        0
    );
    plan
}

fn receiver_of(profile: u8, maximum: u64) -> Vec<u8> {
    let mut record = filled(layout::RECEIVER);
    let given = calls::receiver_new(&mut record, origin(), 2, 1, profile, maximum, 100);
    assert_eq!(given, 0);
    record
}

fn receiver(maximum: u64) -> Vec<u8> {
    receiver_of(PROFILE_1, maximum)
}

fn sender_of(profile: u8, window: u8) -> Vec<u8> {
    let mut record = filled(layout::SENDER);
    let plan = plan(window);
    let given = calls::sender_new(&mut record, origin(), &plan, MESSAGE, 1, profile, 9, 100);
    assert_eq!(given, 0);
    record
}

fn sender(window: u8) -> Vec<u8> {
    sender_of(PROFILE_1, window)
}

#[test]
fn encode() {
    let mut output = filled(8);
    let mut answer = filled(layout::WRITTEN);
    let right = segment(3, 1, 1);
    let given = calls::encode(&right, b"AB", 1, &mut output, &mut answer);
    assert_eq!((given, number(&answer)), (0, 5));
    assert_eq!(output, [0x0b, 1, 2, 0x41, 0x42, FILLING, FILLING, FILLING]);
    let mut output = filled(8);
    let mut answer = filled(layout::WRITTEN);
    let mut refused = |segment: &[u8], data: &[u8], version, room: usize| {
        let given = calls::encode(segment, data, version, &mut output[..room], &mut answer);
        assert!(untouched(&output) && untouched(&answer));
        refusal(given)
    };
    assert_eq!(refused(&right, b"AB", 1, 4), Refusal::OUTPUT_TOO_SHORT);
    assert_eq!(refused(&right, b"AB", 0, 8), Refusal::VERSION);
    assert_eq!(
        refused(&right, &[0; 256], 1, 8),
        Refusal::SEGMENT_DATA_LENGTH
    );
    assert_eq!(
        refused(&segment(0, 1, 0), &[], 1, 8),
        Refusal::BEGIN_SEQUENCE_NUMBER
    );
    for octets in 0..layout::SEGMENT {
        assert_eq!(
            refused(&right[..octets], b"AB", 0, 8),
            Refusal::BUFFER_TOO_SHORT
        );
    }
    assert_eq!(
        refused(&segment(0, 1, 3), &[], 0, 8),
        Refusal::BUFFER_SPELLS_NONE
    );
}

#[test]
fn decode() {
    let mut answer = filled(layout::DECODED);
    assert_eq!(calls::decode(&[8, 1, 0, 0x20, 8], 1, &mut answer), 0);
    assert_eq!((answer[2], number(&answer[23..])), (1, 2));
    let mut answer = filled(layout::DECODED);
    assert_eq!(
        refusal(calls::decode(&[0x40], 1, &mut answer)),
        Refusal::PROTOCOL
    );
    assert!(untouched(&answer));
    for octets in 0..layout::DECODED {
        let given = calls::decode(&[], 0, &mut answer[..octets]);
        assert_eq!(refusal(given), Refusal::BUFFER_TOO_SHORT);
    }
    assert!(untouched(&answer));
}

#[test]
fn plans() {
    let record = plan(0);
    let mut answer = filled(layout::PART);
    assert_eq!(calls::plan_segment(&record, 2, &mut answer), 0);
    assert_eq!((number(&answer[15..23]), number(&answer[23..])), (3, 4));
    let mut answer = filled(layout::PART);
    assert_eq!(calls::plan_segment(&record, 3, &mut answer), 1);
    let short = calls::plan_segment(&record[..layout::PLAN - 1], 0, &mut answer);
    assert_eq!(refusal(short), Refusal::BUFFER_TOO_SHORT);
    assert!(untouched(&answer));
    let mut record = filled(layout::PLAN);
    assert_eq!(calls::plan_message(MESSAGE, 7, 2, 0, 1, 7, &mut record), 1);
    let window = calls::plan_message(MESSAGE, 6, 2, 6, 1, 6, &mut record);
    assert_eq!(refusal(window), Refusal::NUMBER_NAMES_NONE);
    assert!(untouched(&record));
}

/// An even plan as octets and as a type, and a sender of it, sent to its end.
#[test]
fn even_plans() {
    let message = b"01234567";
    let mut record = filled(layout::PLAN);
    assert_eq!(calls::plan_even(message, 8, 2, 0, 1, 8, &mut record), 1);
    let window = calls::plan_even(message, 6, 2, 6, 1, 6, &mut record);
    assert_eq!(refusal(window), Refusal::NUMBER_NAMES_NONE);
    let budget = calls::plan_even(message, 6, 2, 0, 1, 5, &mut record);
    assert_eq!(refusal(budget), Refusal::PAYLOAD_BUDGET);
    let short = calls::plan_even(message, 6, 2, 0, 1, 6, &mut record[..layout::PLAN - 1]);
    assert_eq!(refusal(short), Refusal::BUFFER_TOO_SHORT);
    assert!(untouched(&record));
    assert_eq!(calls::plan_even(message, 6, 2, 0, 1, 6, &mut record), 0);
    let parts: Vec<(u64, u64)> = (0..4)
        .map(|index| {
            let mut answer = filled(layout::PART);
            assert_eq!(calls::plan_segment(&record, index, &mut answer), 0);
            (number(&answer[23..]), number(&answer[15..23]))
        })
        .collect();
    assert_eq!(parts, [(0, 1), (1, 3), (4, 2), (6, 2)]);
    assert_eq!(
        calls::plan_segment(&record, 4, &mut filled(layout::PART)),
        1
    );

    let prohibited = AcknowledgmentWindow::Prohibited;
    let Ok(MessagePlan::Segmented(plan)) = plan_even(message, 6, 2, prohibited, 1, 6) else {
        panic!("8 octets are more than 6");
    };
    assert!(plan.record() == record);
    let mut sender =
        Sender::try_new(PEER, PROTOCOL, &plan, 1, PROFILE_1, 9, 0).expect("a planner's plan");
    let mut sent: Vec<&[u8]> = Vec::new();
    while let Ok(Some(submission)) = sender.submission() {
        sent.push(submission.segment.segment_data);
        assert!(sender.submitted(&submission, 10, 10).is_ok());
        assert!(sender.accepted(&submission, 10).is_ok());
    }
    assert_eq!(sent, [b"0".as_slice(), b"123", b"45", b"67"]);
    assert_eq!(
        sender.state(),
        SenderState::Complete(Completion::LowerLayerAccepted)
    );
}

/// 25 of both planners, behind 20 and 'nothing' and before 1, 6/1, 21 and 22, which Last has in its place.
#[test]
fn exceptions_window() {
    use Given::{Done, Nothing, Refused};
    type Planner = fn(&[u8], u64, u8, u8, u8, u64, &mut [u8]) -> u32;
    let long = filled(511);
    let exceptions = Refused(Refusal::EXCEPTIONS_WINDOW);
    let budget = Refused(Refusal::PAYLOAD_BUDGET);
    let transaction = Refused(Refusal::FIELD_TRANSACTION_ID);
    // Octets, budget, transaction, version, ceiling; under Exceptions, under Last.
    let rows = [
        (8, 7, 8, 0, 6, budget, budget),
        (8, 8, 8, 0, 8, Nothing, Nothing),
        (8, 7, 2, 1, 7, exceptions, Done),
        (8, 7, 2, 0, 7, exceptions, Refused(Refusal::VERSION)),
        (8, 7, 8, 1, 7, exceptions, transaction),
        (8, 4, 2, 1, 7, exceptions, Refused(Refusal::HEADER_CAPACITY)),
        (511, 5, 2, 1, 7, exceptions, Refused(Refusal::SEGMENT_COUNT)),
    ];
    for plans in [calls::plan_message as Planner, calls::plan_even] {
        for (octets, budget, transaction, version, ceiling, under_exceptions, under_last) in rows {
            let planned = |window: AcknowledgmentWindow| {
                let mut record = filled(layout::PLAN);
                let given = plans(
                    &long[..octets],
                    budget,
                    transaction,
                    window as u8,
                    version,
                    ceiling,
                    &mut record,
                );
                assert_eq!(untouched(&record), given != 0);
                Given::new(given)
            };
            assert_eq!(planned(AcknowledgmentWindow::Exceptions), under_exceptions);
            assert_eq!(planned(AcknowledgmentWindow::Last), under_last);
        }
    }
    assert_eq!(refusal(6400).to_string(), "refusal 25: ExceptionsWindow");
    let window = AcknowledgmentWindow::Exceptions;
    for (budget, expected) in [
        (6, Err(Refusal::EXCEPTIONS_WINDOW)),
        (7, Ok(MessagePlan::Unsegmented)),
    ] {
        assert_eq!(plan_message(MESSAGE, budget, 2, window, 1, 7), expected);
        assert_eq!(plan_even(MESSAGE, budget, 2, window, 1, 7), expected);
    }
}

/// Of a planned record under Exceptions, as a library before 2026-09 made it, no sender is made; of its segments as a frozen plan one is.
#[test]
fn exceptions_kept() {
    let mut record = plan(AcknowledgmentWindow::Last as u8);
    let [planned, frozen] = layout::plan::WINDOW;
    record[planned] = AcknowledgmentWindow::Exceptions as u8;
    let new = |plan: &[u8]| {
        let mut sender = filled(layout::SENDER);
        let given = calls::sender_new(&mut sender, origin(), plan, MESSAGE, 1, PROFILE_1, 9, 100);
        assert_eq!(untouched(&sender), given != 0);
        Given::new(given)
    };
    assert_eq!(new(&record), Given::Refused(Refusal::PLAN));
    let mut accepted = filled(layout::PLAN);
    let heads = heads_of(&record, 3);
    let given = calls::try_from_frozen(&heads, 3, MESSAGE, MESSAGE, 6, 1, 6, &mut accepted);
    assert_eq!((given, accepted[frozen]), (0, record[planned]));
    assert_eq!(new(&accepted), Given::Done);
}

/// The heads of a plan's first segments.
fn heads_of(record: &[u8], count: usize) -> Vec<u8> {
    let mut heads = vec![0; layout::HEADS];
    for (index, head) in heads.chunks_mut(layout::HEAD).take(count).enumerate() {
        let mut answer = filled(layout::PART);
        assert_eq!(calls::plan_segment(record, index as u8, &mut answer), 0);
        head.copy_from_slice(&answer[..layout::HEAD]);
    }
    heads
}

#[test]
fn frozen() {
    let heads = heads_of(&plan(0), 3);
    let mut frozen = filled(layout::PLAN);
    let check = |count, joined: &[u8], frozen: &mut [u8]| {
        calls::try_from_frozen(&heads, count, joined, MESSAGE, 6, 1, 6, frozen)
    };
    assert_eq!(
        refusal(check(1, MESSAGE, &mut frozen)),
        Refusal::SEGMENT_COUNT
    );
    assert_eq!(refusal(check(3, b"", &mut frozen)), Refusal::JOINED_LENGTH);
    assert_eq!(
        refusal(check(3, b"0123457", &mut frozen)),
        Refusal::FROZEN_PLAN
    );
    assert!(untouched(&frozen));
    assert_eq!(check(3, MESSAGE, &mut frozen), 0);
    assert_eq!(frozen[70..], heads);
}

/// HEADS with the message's length where `states` says so, and without it elsewhere.
fn restated(heads: &[u8], states: &[bool]) -> Vec<u8> {
    let mut heads = heads.to_vec();
    for (head, states) in heads.chunks_mut(layout::HEAD).zip(states) {
        let stated = [1, 0, MESSAGE.len() as u8];
        head[3..6].copy_from_slice(if *states { &stated } else { &[0; 3] });
    }
    heads
}

/// Both ways and back, by whole plans: those that the frozen check gives of the two trains. A head past the count comes out empty.
#[test]
fn conversions() {
    let begin_only = heads_of(&plan(0), 3);
    let every = restated(&begin_only, &[true; 3]);
    assert_eq!(restated(&every, &[true, false, false]), begin_only);
    let frozen = |heads: &[u8]| {
        let mut record = filled(layout::PLAN);
        let given = calls::try_from_frozen(heads, 3, MESSAGE, MESSAGE, 8, 1, 8, &mut record);
        assert_eq!(given, 0);
        record
    };
    let converted = |heads: &[u8], dialect| {
        let mut record = filled(layout::PLAN + 9);
        let given = calls::convert(heads, 3, MESSAGE, MESSAGE, 8, 1, 8, dialect, &mut record);
        assert_eq!(given, 0);
        assert!(untouched(&record[layout::PLAN..]));
        record.truncate(layout::PLAN);
        record
    };
    for (dialect, read, written) in [(0, &begin_only, &every), (1, &every, &begin_only)] {
        let mut more = read.clone();
        more.copy_within(layout::HEAD..2 * layout::HEAD, 3 * layout::HEAD);
        assert_ne!(&more, read);
        let record = converted(&more, dialect);
        assert!(record == frozen(written));
        let back = converted(&record[layout::PLAN - layout::HEADS..], 1 - dialect);
        assert!(back == frozen(read));
    }
}

/// 256, 257, 258, the frozen check's refusals, 26 and 20, each before the next. Beside each the plan is as it was.
#[test]
fn conversions_refused() {
    let begin_only = heads_of(&plan(0), 3);
    let every = restated(&begin_only, &[true; 3]);
    let none = restated(&begin_only, &[false; 3]);
    // The last head is a Begin with a CRC.
    let mut wrong = none.clone();
    wrong[layout::HEADS - 9] = 1;
    let short = &wrong[..layout::HEADS - 1];
    let (empty, other) = (b"".as_slice(), b"0123457".as_slice());
    let too_short = Refusal::BUFFER_TOO_SHORT;
    let pattern = Refusal::OTHER_PATTERN;
    let over = Refusal::PAYLOAD_BUDGET;
    // HEADS, count, joined data, budget, version, dialect, octets that PLAN lacks; the ceiling is 8.
    let rows = [
        (short, 1, empty, 9, 0, 2, 0, too_short),
        (&wrong, 1, empty, 9, 0, 2, 1, too_short),
        (&wrong, 1, empty, 9, 0, 2, 0, Refusal::BUFFER_SPELLS_NONE),
        (&none, 1, empty, 9, 0, 2, 0, Refusal::NUMBER_NAMES_NONE),
        (&none, 1, empty, 9, 0, 255, 0, Refusal::NUMBER_NAMES_NONE),
        (&none, 1, empty, 9, 0, 0, 0, over),
        (&none, 1, empty, 6, 0, 0, 0, Refusal::SEGMENT_COUNT),
        (&none, 3, empty, 6, 0, 0, 0, Refusal::JOINED_LENGTH),
        (&none, 3, other, 6, 0, 0, 0, Refusal::VERSION),
        (&none, 3, other, 6, 1, 0, 0, Refusal::FROZEN_PLAN),
        (&none, 3, MESSAGE, 5, 1, 0, 0, over),
        (&none, 3, MESSAGE, 6, 1, 0, 0, pattern),
        (&none, 3, MESSAGE, 6, 1, 1, 0, pattern),
        (&begin_only, 3, MESSAGE, 6, 1, 1, 0, pattern),
        (&every, 3, MESSAGE, 8, 1, 0, 0, pattern),
        (&begin_only, 3, MESSAGE, 6, 1, 0, 0, over),
        (&begin_only, 3, MESSAGE, 7, 1, 0, 0, over),
    ];
    for (heads, count, joined, budget, version, dialect, lacks, expected) in rows {
        let mut record = filled(layout::PLAN);
        let given = calls::convert(
            heads,
            count,
            joined,
            MESSAGE,
            budget,
            version,
            8,
            dialect,
            &mut record[lacks..],
        );
        assert_eq!(refusal(given), expected);
        assert!(untouched(&record));
    }
    assert_eq!(refusal(6656), Refusal::OTHER_PATTERN);
    assert_eq!(refusal(6656).to_string(), "refusal 26: OtherPattern");
    assert_eq!(format!("{:?}", refusal(6656)), "Refusal(26 OtherPattern)");
    assert!(!Refusal::OTHER_PATTERN.is_own());
}

/// A message in segments of an octet each, which state its length where `states` says so.
fn one_by_one(message: &[u8], states: impl Fn(usize) -> bool) -> Vec<Segment<'_>> {
    let last = message.len() - 1;
    let segment = |(index, segment_data)| {
        let message_length = Some(message.len() as u16).filter(|_| states(index));
        let services = None;
        let kind = match index {
            0 => SegmentKind::Begin {
                message_length,
                services,
            },
            _ if index == last => end(message_length),
            _ => SegmentKind::Continue { message_length },
        };
        Segment {
            transaction_id: 2,
            sequence_number: index as u8,
            segment_data,
            kind,
        }
    };
    message.chunks(1).enumerate().map(segment).collect()
}

/// Every pattern of stated lengths in 2 to 6 segments, and some in 256: `dialect` agrees with 26, and what is converted goes back.
#[test]
fn dialects() {
    use Dialect::{BeginOnly, Every};
    let octets: Vec<u8> = (0..=255).collect();
    let judge = |count: usize, states: &dyn Fn(usize) -> bool, dialect: Option<Dialect>| {
        let message = &octets[..count];
        let frozen = |segments: &[Segment<'_>]| {
            let plan = SegmentedMessage::try_from_frozen(segments, message, 6, 1, 6);
            plan.expect("a true cutting")
        };
        let plan = frozen(&one_by_one(message, states));
        assert_eq!(plan.dialect(), dialect);
        let every = frozen(&one_by_one(message, |_| true));
        let begin_only = frozen(&one_by_one(message, |index| index == 0));
        for (read, written, other) in [(BeginOnly, every, Every), (Every, begin_only, BeginOnly)] {
            if dialect == Some(read) {
                assert_eq!(plan.convert(read, 1, 6), Ok(written.clone()));
                assert_eq!(written.dialect(), Some(other));
                assert_eq!(written.convert(other, 1, 6), Ok(plan.clone()));
            } else {
                assert_eq!(plan.convert(read, 1, 6), Err(Refusal::OTHER_PATTERN));
            }
        }
    };
    for count in 2..=6 {
        for pattern in 0..1 << count {
            let dialect = match pattern {
                1 => Some(BeginOnly),
                _ if pattern == (1 << count) - 1 => Some(Every),
                _ => None,
            };
            judge(count, &|index| pattern >> index & 1 == 1, dialect);
        }
    }
    judge(256, &|index| index == 0, Some(BeginOnly));
    judge(256, &|_| true, Some(Every));
    judge(256, &|_| false, None);
    judge(256, &|index| index != 0, None);
    for odd in [1, 128, 254, 255] {
        judge(256, &|index| index == 0 || index == odd, None);
        judge(256, &|index| index != odd, None);
    }
}

/// The smallest trains, of 0 octets and of 1: as they are encoded, and the budgets that they are converted with.
#[test]
fn smallest_conversions() {
    let encoded = |plan: &SegmentedMessage<'_>| {
        [0, 1].map(|index| {
            let mut output = filled(layout::ENCODING);
            let segment = plan.segment(index).expect("two segments");
            let written = segment.encode(1, &mut output).expect("a plan's segments");
            output[..written].to_vec()
        })
    };
    // The message, its Begin, its End, the End that states the length, and the least budget with room for that.
    let judge = |message: &[u8], begin: &[u8], end: &[u8], stating: &[u8], least: u64| {
        let segments = [begin, end].map(|octets| decoded(octets).segment);
        let frozen =
            |budget| SegmentedMessage::try_from_frozen(&segments, message, budget, 1, budget);
        assert_eq!(frozen(4), Err(Refusal::PAYLOAD_BUDGET));
        for budget in 5..least {
            let plan = frozen(budget).expect("a true cutting");
            let refused = plan.convert(Dialect::BeginOnly, 1, budget);
            assert_eq!(refused, Err(Refusal::PAYLOAD_BUDGET));
        }
        let plan = frozen(least).expect("a true cutting");
        assert_eq!(encoded(&plan), [begin, end]);
        let every = plan.convert(Dialect::BeginOnly, 1, least);
        let every = every.expect("there is room");
        assert_eq!(encoded(&every), [begin, stating]);
        assert_eq!(every.convert(Dialect::Every, 1, least), Ok(plan));
    };
    let (begin, end, stating) = ([0, 0, 0, 0x10, 0], [0x10, 1, 0], [0x10, 1, 0, 0x10, 0]);
    judge(b"", &begin, &end, &stating, 5);
    let (begin, end) = ([0, 0, 0, 0x10, 1], [0x10, 1, 1, 0x41]);
    judge(b"A", &begin, &end, &[0x10, 1, 1, 0x41, 0x10, 1], 6);
}

/// Plans of both planners: which dialect they are in, what their own budget has room for, and that 2 octets more are enough.
#[test]
fn planned_dialects() {
    type Planner =
        fn(&[u8], u64, u8, AcknowledgmentWindow, u8, u64) -> Result<MessagePlan<'_>, Refusal>;
    let long = vec![7; 4_096];
    let mut seen = [0; 3];
    let mut judge = |plans: Planner, octets: usize, budget: u64, window: AcknowledgmentWindow| {
        let Ok(MessagePlan::Segmented(plan)) = plans(&long[..octets], budget, 2, window, 1, 300)
        else {
            return;
        };
        let segments: Vec<Segment<'_>> = (0..=255).map_while(|i| plan.segment(i)).collect();
        let bare = match window {
            AcknowledgmentWindow::Prohibited => 3,
            _ => 5,
        };
        if octets > 4_095 || budget <= bare + 2 {
            seen[0] += 1;
            assert_eq!(plan.dialect(), None);
            for read in [Dialect::BeginOnly, Dialect::Every] {
                assert_eq!(plan.convert(read, 1, 300), Err(Refusal::OTHER_PATTERN));
            }
            return;
        }
        assert_eq!(plan.dialect(), Some(Dialect::BeginOnly));
        let fits = |segment: &Segment<'_>| segment.segment_data.len() as u64 + 5 <= budget;
        let converted = plan.convert(Dialect::BeginOnly, 1, 300);
        let frozen =
            |budget| SegmentedMessage::try_from_frozen(&segments, plan.message(), budget, 1, 300);
        if segments[1..].iter().all(fits) {
            seen[1] += 1;
            let converted = converted.expect("there is room");
            assert_eq!(converted.convert(Dialect::Every, 1, 300), frozen(budget));
        } else {
            seen[2] += 1;
            assert_eq!(converted, Err(Refusal::PAYLOAD_BUDGET));
        }
        let more = frozen(budget + 2).expect("a true cutting");
        let converted = more
            .convert(Dialect::BeginOnly, 1, 300)
            .expect("2 octets more");
        assert_eq!(converted.convert(Dialect::Every, 1, 300), Ok(more));
    };
    for plans in [plan_message as Planner, plan_even] {
        for window in [AcknowledgmentWindow::Prohibited, AcknowledgmentWindow::Last] {
            for budget in (4..=12).chain(258..=261) {
                for octets in (5..=24).chain([509, 510, 1_000, 4_095, 4_096]) {
                    judge(plans, octets, budget, window);
                }
            }
        }
    }
    assert!(!seen.contains(&0), "{seen:?}");
}

/// A converted plan, from a sender to a receiver in both dialects.
#[test]
fn converted_exchange() {
    let message = b"0123456789";
    let window = AcknowledgmentWindow::Last;
    let Ok(MessagePlan::Segmented(plan)) = plan_even(message, 9, 2, window, 1, 9) else {
        panic!("10 octets are more than 9");
    };
    let every = plan
        .convert(Dialect::BeginOnly, 1, 9)
        .expect("there is room");
    let begin_only = every
        .convert(Dialect::Every, 1, 9)
        .expect("it is the way back");
    for (plan, stated) in [(every, [0x10, 10].as_slice()), (begin_only, &[])] {
        let train = [
            b"\x02\x00\x0201\x10\x0a\x20\x20".to_vec(),
            [b"\x0a\x01\x042345", stated].concat(),
            [b"\x12\x02\x046789", stated].concat(),
        ];
        assert_eq!(plan.acknowledgment_window(), window);
        let mut sender =
            Sender::try_new(PEER, PROTOCOL, &plan, 1, PROFILE_1, 9, 0).expect("a frozen plan");
        let mut receiver =
            Receiver::try_new(PEER, PROTOCOL, 2, 1, PROFILE_1, 10, 0).expect("a right peer");
        for (index, octets) in train.iter().enumerate() {
            let submission = sender.submission().ok().flatten().expect("an offer");
            let mut output = filled(layout::ENCODING);
            let written = submission.segment.encode(1, &mut output);
            assert_eq!(written, Ok(octets.len()));
            assert_eq!(&output[..octets.len()], octets);
            assert!(sender.submitted(&submission, 10, 10).is_ok());
            assert!(sender.accepted(&submission, 10).is_ok());
            let reception = receiver.receive(PEER, PROTOCOL, &decoded(octets), 10);
            let reception = reception.expect("it is taken");
            assert_eq!(
                reception.message,
                Some(message.as_slice()).filter(|_| index == 2)
            );
            assert_eq!(reception.response.is_some(), index == 2);
            if let Some(reported) = reception.response {
                let state = sender.receive_response(PEER, PROTOCOL, &reported.response, 0, 10);
                assert_eq!(state, Ok(SenderState::Complete(Completion::PeerReceived)));
            }
        }
        assert_eq!(sender.submission(), Ok(None));
        assert_eq!(receiver.state(), ReceiverState::Complete);
    }
}

/// The next order in lexicographic order, with the Begin first, if there is one.
fn next_order(order: &[u8]) -> Option<Vec<u8>> {
    let mut next = order.to_vec();
    let later = &mut next[1..];
    let at = later.windows(2).rposition(|pair| pair[0] < pair[1])?;
    let greater = later.iter().rposition(|number| *number > later[at])?;
    later.swap(at, greater);
    later[at + 1..].reverse();
    Some(next)
}

/// Every order of a train, each made of the one before it.
fn all_orders(segments: u8) -> Vec<Vec<u8>> {
    let first = (0..segments).collect();
    std::iter::successors(Some(first), |order: &Vec<u8>| next_order(order)).collect()
}

/// An order by the call, in so many octets of a longer buffer; what the call gives, and the whole buffer.
fn delivered(segments: u8, number: u64, octets: usize) -> (Given, Vec<u8>) {
    let mut output = filled(300);
    let given = calls::delivery_order(segments, number, &mut output[..octets]);
    (Given::new(given), output)
}

/// Every order of 2 to 6 segments, by the call in outputs with and without octets to spare, and by the functions.
#[test]
fn orders() {
    for (segments, count) in (2..).zip([1, 2, 6, 24, 120]) {
        let expected = all_orders(segments);
        assert_eq!(expected.len(), count);
        for (number, order) in (0..).zip(&expected) {
            for octets in [order.len(), order.len() + 1, 300] {
                let (given, output) = delivered(segments, number, octets);
                assert_eq!(given, Given::Done);
                assert!(output.starts_with(order) && untouched(&output[order.len()..]));
            }
            assert_eq!(delivery_order(segments, number).as_ref(), Ok(order));
        }
        let past = delivery_order(segments, count as u64);
        assert_eq!(past, Err(Refusal::ORDER_NUMBER));
        assert_eq!(delivery_orders(segments), Ok(expected));
    }
}

/// 28, for an output of any length, and after it 61. Beside each the output is as it was.
#[test]
fn orders_refused() {
    let refused = |segments, number, octets| {
        let (given, output) = delivered(segments, number, octets);
        assert!(untouched(&output));
        given
    };
    let none = Refusal::ORDER_NUMBER;
    for segments in (0..=1).chain(7..=255) {
        for number in [0, 1, 119, 120, 1 << 32, u64::MAX] {
            let exactly = usize::from(segments);
            for octets in [0, exactly.saturating_sub(1), exactly, 300] {
                assert_eq!(refused(segments, number, octets), Given::Refused(none));
            }
            assert_eq!(delivery_order(segments, number), Err(none));
        }
        assert_eq!(delivery_orders(segments), Err(none));
    }
    for segments in 2..=6 {
        let count = all_orders(segments).len() as u64;
        let cut = [8, 16, 32, 63].map(|bits| 1 << bits);
        for number in [count, count + 1, u64::MAX].into_iter().chain(cut) {
            for octets in 0..=7 {
                assert_eq!(refused(segments, number, octets), Given::Refused(none));
            }
            assert_eq!(delivery_order(segments, number), Err(none));
        }
        for octets in 0..segments.into() {
            for number in 0..count {
                let short = Given::Refused(Refusal::OUTPUT_TOO_SHORT);
                assert_eq!(refused(segments, number, octets), short);
            }
        }
    }
    assert_eq!(refusal(7168), none);
    assert_eq!(refusal(7168).to_string(), "refusal 28: OrderNumber");
    assert_eq!(format!("{:?}", refusal(7168)), "Refusal(28 OrderNumber)");
    assert_eq!(refusal(15_616), Refusal::OUTPUT_TOO_SHORT);
    assert!(!none.is_own());
}

/// A train of six segments in every order: the last segment hands the message over, and no other, nor a repeat after it.
#[test]
fn orders_received() {
    let message = b"0123456789abcdefghijkl";
    // Of 2, 4, 4, 4, 4 and 4 octets, and of 1, 5, 5, 5, 5 and 1.
    let budgets = [
        (AcknowledgmentWindow::Prohibited, 7),
        (AcknowledgmentWindow::Last, 8),
    ];
    for (window, budget) in budgets {
        let planned = plan_message(message, budget, 2, window, 1, budget);
        let Ok(MessagePlan::Segmented(plan)) = planned else {
            panic!("22 octets are more than {budget}");
        };
        let train: Vec<Vec<u8>> = (0..=255)
            .map_while(|index| plan.segment(index))
            .map(|segment| {
                let mut output = filled(layout::ENCODING);
                let written = segment.encode(1, &mut output).expect("a plan's segments");
                output[..written].to_vec()
            })
            .collect();
        assert_eq!(train.len(), 6);
        let answers = window != AcknowledgmentWindow::Prohibited;
        for number in 0..120 {
            let order = delivery_order(6, number).expect("one of 120");
            let made = Receiver::try_new(PEER, PROTOCOL, 2, 1, PROFILE_1, 22, 0);
            let mut receiver = made.expect("a right peer");
            for (place, sequence) in (1..).zip(&order) {
                let octets = &train[usize::from(*sequence)];
                let reception = receiver.receive(PEER, PROTOCOL, &decoded(octets), place);
                let reception = reception.expect("it is taken");
                let expected = Some(message.as_slice()).filter(|_| place == 6);
                assert_eq!(reception.message, expected, "{order:?}");
            }
            assert_eq!(receiver.state(), ReceiverState::Complete);
            for octets in &train {
                let repeat = receiver.receive(PEER, PROTOCOL, &decoded(octets), 6);
                let repeat = repeat.expect("it is held");
                assert_eq!((repeat.message, repeat.response.is_some()), (None, answers));
            }
        }
    }
}

#[test]
fn receivers() {
    let mut record = receiver(65_280);
    let mut store = filled(layout::STORE + 9);
    let mut output = filled(layout::STORE);
    let mut answer = filled(layout::RECEPTION);
    let mut receive = |segment: [u8; 15], data: &[u8], reading| {
        let given = calls::receiver_receive(
            &mut record,
            &mut store,
            &mut output,
            origin(),
            &segment,
            data,
            0,
            reading,
            &mut answer,
        );
        (given, record.clone(), store.clone(), output.clone())
    };
    assert_eq!(
        refusal(receive(segment(2, 1, 2), b"c", 100).0),
        Refusal::BEGIN_REQUIRED
    );
    let (given, record, store, _) = receive(segment(2, 0, 0), b"ab", 100);
    assert_eq!((given, record[layout::receiver::STATE]), (0, 1));
    assert!(store.starts_with(b"ab") && untouched(&store[2..]));
    let (given, record, _, output) = receive(segment(2, 1, 2), b"c", 200);
    assert_eq!((given, record[layout::receiver::STATE]), (0, 2));
    assert!(output.starts_with(b"abc") && untouched(&output[3..]));
    let message = &answer[layout::reception::MESSAGE..];
    assert_eq!((message[0], number(&message[1..])), (1, 3));
}

#[test]
fn receivers_in_time() {
    let mut record = receiver(0);
    let mut store = filled(layout::STORE + 9);
    let mut answer = filled(layout::REPLY);
    assert_eq!(
        calls::receiver_advance(&mut record, &mut store, 200, &mut answer),
        0
    );
    let before = record.clone();
    let regress = calls::receiver_advance(&mut record, &mut store, 199, &mut answer);
    assert_eq!(refusal(regress), Refusal::CLOCK_REGRESSION);
    let short = calls::receiver_cancel(&mut record, &mut store[..layout::STORE - 1], 200);
    assert_eq!(refusal(short), Refusal::STORE_TOO_SHORT);
    assert!(record == before && untouched(&store));
    assert_eq!(calls::receiver_cancel(&mut record, &mut store, 200), 0);
    assert!(store[..layout::STORE].iter().all(|octet| *octet == 0));
    assert!(untouched(&store[layout::STORE..]));
    record[layout::receiver::STORED_OCTETS] = 1;
    let impossible = calls::receiver_cancel(&mut record, &mut store, 200);
    assert_eq!(refusal(impossible), Refusal::IMPOSSIBLE_STATE);
    record[0] = 1;
    let none = calls::receiver_cancel(&mut record, &mut store, 200);
    assert_eq!(refusal(none), Refusal::BUFFER_SPELLS_NONE);
}

#[test]
fn receivers_released() {
    let mut record = receiver(10);
    let mut store = filled(layout::STORE + 9);
    let receive = |record: &mut [u8], store: &mut [u8], segment: [u8; 15], data: &[u8], reading| {
        let mut output = filled(10);
        let mut answer = filled(layout::RECEPTION);
        let given = calls::receiver_receive(
            record,
            store,
            &mut output,
            origin(),
            &segment,
            data,
            0,
            reading,
            &mut answer,
        );
        (given, untouched(&output) && untouched(&answer))
    };
    let begun = receive(&mut record, &mut store, segment(2, 0, 0), b"ab", 100);
    assert_eq!((begun.0, record[layout::receiver::STATE]), (0, 1));
    let before = (record.clone(), store.clone());
    let open = calls::receiver_release(&mut record, &mut store, 100);
    assert_eq!(refusal(open), Refusal::CLOSED);
    assert!((&record, &store) == (&before.0, &before.1));
    let ended = receive(&mut record, &mut store, segment(2, 1, 2), b"c", 100);
    assert_eq!((ended.0, record[layout::receiver::STATE]), (0, 2));
    assert!(store.starts_with(b"ab") && store[255] == b'c');

    let before = (record.clone(), store.clone());
    let short = calls::receiver_release(&mut record, &mut store[..layout::STORE - 1], 100);
    assert_eq!(refusal(short), Refusal::STORE_TOO_SHORT);
    let regress = calls::receiver_release(&mut record, &mut store, 99);
    assert_eq!(refusal(regress), Refusal::CLOCK_REGRESSION);
    assert!((&record, &store) == (&before.0, &before.1));
    assert_eq!(calls::receiver_release(&mut record, &mut store, 200), 0);
    assert_eq!(record[layout::receiver::STATE], 5);
    assert!(store[..layout::STORE].iter().all(|octet| *octet == 0));
    assert!(untouched(&store[layout::STORE..]));

    let before = (record.clone(), store.clone());
    let early = receive(&mut record, &mut store, segment(2, 1, 2), b"c", 199);
    assert_eq!(refusal(early.0), Refusal::CLOCK_REGRESSION);
    let repeat = receive(&mut record, &mut store, segment(2, 1, 2), b"c", 200);
    assert_eq!((refusal(repeat.0), repeat.1), (Refusal::CLOSED, true));
    let again = calls::receiver_release(&mut record, &mut store, 200);
    assert_eq!(refusal(again), Refusal::CLOSED);
    assert!((&record, &store) == (&before.0, &before.1));
    record[layout::receiver::STORED_OCTETS] = 1;
    let impossible = calls::receiver_release(&mut record, &mut store, 200);
    assert_eq!(refusal(impossible), Refusal::IMPOSSIBLE_STATE);
    record[0] = 1;
    let none = calls::receiver_release(&mut record, &mut store, 200);
    assert_eq!(refusal(none), Refusal::BUFFER_SPELLS_NONE);
}

#[test]
fn trains() {
    let mut record = receiver(10);
    let mut store = filled(layout::STORE);
    let mut output = filled(10);
    let octets = [2, 0, 1, b'a', 0x12, 1, 1, b'b', 0x12, 1, 1, b'b', 0x40];
    let lengths = [0, 4, 0, 4, 0, 4, 0, 1];
    let mut train = |octets: &[u8], lengths: &[u8]| {
        let mut answer = filled(layout::TRAIN);
        let given = calls::receiver_train(
            &mut record,
            &mut store,
            &mut output,
            origin(),
            octets,
            lengths,
            100,
            &mut answer,
        );
        (given, number(&answer[..8]), answer[8..].to_vec())
    };
    let (given, received, reception) = train(&octets, &lengths);
    assert_eq!((given, received), (0, 2));
    let (reply, message) = reception.split_at(layout::reception::MESSAGE);
    assert!(reply.iter().all(|octet| *octet == 0));
    assert_eq!(message, [1, 0, 0, 0, 0, 0, 0, 0, 2]);
    let (given, received, reception) = train(&octets[8..], &lengths[4..]);
    assert_eq!((refusal(given), received), (Refusal::PROTOCOL, 1));
    assert!(reception.iter().all(|octet| *octet == 0));
    assert!(output.starts_with(b"ab") && untouched(&output[2..]));
}

/// A segment of one octet of data in transaction 2; a Begin has a window.
fn one_octet(window: u8, kind: u8, sequence: u8) -> Vec<u8> {
    let mut octets = vec![8 * kind + 2, sequence, 1, b'a'.wrapping_add(sequence)];
    if kind == 0 {
        octets.extend([0x20, 8 * window]);
    }
    octets
}

/// The typed layer goes on with the rest of a train, and gives every response and the message.
#[test]
fn trains_go_on() {
    let train_of = |window: u8, sequences: &[u8]| -> (Vec<u8>, Vec<u16>) {
        let kind = |sequence| match sequence {
            0 => 0,
            9 => 2,
            _ => 1,
        };
        let segments: Vec<Vec<u8>> = sequences
            .iter()
            .map(|sequence| one_octet(window, kind(*sequence), *sequence))
            .collect();
        let lengths = segments.iter().map(|octets| octets.len() as u16);
        (segments.concat(), lengths.collect())
    };
    let sequences: Vec<u8> = (0..10).chain([9, 3, 1]).collect();
    for (window, behind) in [
        (0, vec![10]),
        (1, vec![4, 8, 10, 11, 12, 13]),
        (2, vec![8, 10, 11, 12, 13]),
        (4, vec![10, 11, 12, 13]),
        (5, vec![10]),
    ] {
        let (octets, lengths) = train_of(window, &sequences);
        let mut one =
            Receiver::try_new(PEER, PROTOCOL, 2, 1, PROFILE_1, 100, 0).expect("a right peer");
        let mut single = one.clone();
        let train = one.receive_train(PEER, PROTOCOL, &octets, &lengths, 100);
        let train = train.expect("right buffers");
        assert_eq!((train.received, train.stopped), (13, None));
        let found: Vec<u64> = train.receptions.iter().map(|(n, _)| *n).collect();
        assert_eq!(found, behind, "window {window}");
        assert_eq!(train.message(), Some(b"abcdefghij".as_slice()));
        // The same segments in single calls.
        let mut expected = Vec::new();
        let mut rest = octets.as_slice();
        for (index, length) in lengths.iter().enumerate() {
            let (segment, next) = rest.split_at(usize::from(*length));
            rest = next;
            let decoded = decode_segment(segment, 1).expect("a segment");
            let reception = single.receive(PEER, PROTOCOL, &decoded, 100);
            let reception = reception.expect("it is taken");
            if let Some(reported) = reception.response {
                expected.push((index as u64 + 1, reported));
            }
        }
        let reported = train.receptions.iter();
        let reported: Vec<(u64, Reported)> = reported
            .filter_map(|(n, reception)| Some((*n, reception.response?)))
            .collect();
        assert_eq!(reported, expected);
        let responses = expected.iter().map(|(_, reported)| reported.response);
        assert!(train.responses().eq(responses));
        drop(train);
        assert_eq!(one.record(), single.record());
    }
    // A failure that is not answered, and then what is refused; a refusal in the middle; no segments.
    let mut receiver =
        Receiver::try_new(PEER, PROTOCOL, 2, 1, PROFILE_1, 100, 0).expect("a right peer");
    let (octets, lengths) = train_of(0, &[0, 255, 1]);
    let train = receiver.receive_train(PEER, PROTOCOL, &octets, &lengths, 100);
    let train = train.expect("right buffers");
    assert_eq!((train.received, train.stopped), (2, Some(Refusal::CLOSED)));
    assert!(train.receptions.is_empty());
    assert_eq!(receiver.state(), ReceiverState::Failed(Status::Aborted));
    let mut receiver =
        Receiver::try_new(PEER, PROTOCOL, 2, 1, PROFILE_1, 100, 0).expect("a right peer");
    let (octets, lengths) = train_of(1, &[0, 1, 2, 3, 4, 5]);
    let train = receiver.receive_train(PEER, PROTOCOL, &octets[..24], &lengths, 100);
    let train = train.expect("right buffers");
    assert_eq!(
        (train.received, train.stopped),
        (5, Some(Refusal::TRUNCATED))
    );
    assert_eq!(train.receptions.len(), 1);
    let train = receiver.receive_train(PEER, PROTOCOL, &[], &[], 100);
    assert_eq!(train.map(|train| train.received), Ok(0));
}

const CONTINUING: Status = Status::Continuing;
const RECEIVED: Status = Status::Received;
const TIMEOUT: Status = Status::InterSegmentTimeout;

/// Status, number of entries, how many of them are missing, and the first missing one.
type Figures = (Status, usize, u16, u16);

/// What is said beside a response: the same as its map says of itself.
fn figures(reported: Reported) -> Figures {
    let map = reported.response.acknowledgments;
    assert_eq!(reported.missing, map.missing());
    let Missing { count, first } = reported.missing;
    (reported.response.status, map.bit_count(), count, first)
}

fn begin(
    acknowledgment_window: AcknowledgmentWindow,
    compression: Compression,
    crc_status: CrcStatus,
) -> SegmentKind {
    SegmentKind::Begin {
        message_length: None,
        services: Some(OptionalServices {
            compression,
            acknowledgment_window,
            crc_status,
        }),
    }
}

const CONTINUE: SegmentKind = SegmentKind::Continue {
    message_length: None,
};

fn end(message_length: Option<u16>) -> SegmentKind {
    SegmentKind::End {
        message_length,
        crc: None,
    }
}

/// A receiver of transaction 2, at version 5.
fn new_receiver_of(profile: u8) -> Receiver {
    Receiver::try_new(PEER, PROTOCOL, 2, 5, profile, 65_280, 0).expect("a right peer")
}

fn new_receiver() -> Receiver {
    new_receiver_of(PROFILE_1)
}

/// Receives a segment; what is said beside the response, if there is one.
fn receive(
    receiver: &mut Receiver,
    sequence: u8,
    kind: SegmentKind,
    data: &[u8],
) -> Option<Figures> {
    let segment = Segment {
        transaction_id: 2,
        sequence_number: sequence,
        segment_data: data,
        kind,
    };
    let decoded = DecodedSegment {
        segment,
        unparsed_octets: &[],
    };
    let reception = receiver.receive(PEER, PROTOCOL, &decoded, 0);
    reception.expect("it is taken").response.map(figures)
}

/// Receives a Begin under a window, then these segments of one octet, `last` as the End; what is said beside each response.
fn receive_all(
    receiver: &mut Receiver,
    window: AcknowledgmentWindow,
    sequences: impl IntoIterator<Item = u8>,
    last: u8,
) -> Vec<Figures> {
    let begin = begin(window, Compression::None, CrcStatus::None);
    assert_eq!(receive(receiver, 0, begin, b"a"), None);
    let kind = |sequence| {
        if sequence == last {
            end(None)
        } else {
            CONTINUE
        }
    };
    let sequences = sequences.into_iter();
    sequences
        .filter_map(|sequence| receive(receiver, sequence, kind(sequence), &[sequence]))
        .collect()
}

/// The figures beside the responses to whole trains, written by hand.
#[test]
fn figures_of_trains() {
    use AcknowledgmentWindow::{Every4, Every8, Every16, Last, Prohibited};
    // In order, without 2, 5 and 8; then these.
    let mut receiver = new_receiver();
    let said = receive_all(&mut receiver, Every4, [1, 3, 4, 6, 7, 9, 8, 5, 2], 9);
    let expected = [
        (CONTINUING, 4, 1, 2),
        (CONTINUING, 8, 2, 2),
        (CONTINUING, 10, 3, 2),
        (RECEIVED, 10, 0, 256),
    ];
    assert_eq!(said, expected);
    // A repeat after that, and one that differs.
    assert_eq!(
        receive(&mut receiver, 3, CONTINUE, &[3]),
        Some((RECEIVED, 10, 0, 256))
    );
    assert_eq!(
        receive(&mut receiver, 3, CONTINUE, &[4]),
        Some((Status::Aborted, 10, 0, 256))
    );
    // Reversed.
    let said = receive_all(&mut new_receiver(), Every4, (1..10).rev(), 9);
    let expected = [
        (CONTINUING, 10, 8, 1),
        (CONTINUING, 10, 6, 1),
        (CONTINUING, 10, 2, 1),
        (RECEIVED, 10, 0, 256),
    ];
    assert_eq!(said, expected);
    // A full train: the entries next to the borders of the words come last, and 255 before them.
    let late = [63, 64, 127, 128, 191, 192];
    let sequences = (1..=254).filter(|sequence| !late.contains(sequence));
    let sequences = sequences.chain([255]).chain(late);
    let said = receive_all(&mut new_receiver(), Every16, sequences, 255);
    let expected = [
        (CONTINUING, 16, 0, 256),
        (CONTINUING, 32, 0, 256),
        (CONTINUING, 48, 0, 256),
        (CONTINUING, 80, 2, 63),
        (CONTINUING, 96, 2, 63),
        (CONTINUING, 112, 2, 63),
        (CONTINUING, 144, 4, 63),
        (CONTINUING, 160, 4, 63),
        (CONTINUING, 176, 4, 63),
        (CONTINUING, 208, 6, 63),
        (CONTINUING, 224, 6, 63),
        (CONTINUING, 240, 6, 63),
        (CONTINUING, 256, 6, 63),
        (CONTINUING, 256, 5, 64),
        (CONTINUING, 256, 3, 128),
        (CONTINUING, 256, 1, 192),
        (RECEIVED, 256, 0, 256),
    ];
    assert_eq!(said, expected);
    // A full train, reversed.
    let said = receive_all(&mut new_receiver(), Last, (1..=255).rev(), 255);
    assert_eq!(said, [(CONTINUING, 256, 254, 1), (RECEIVED, 256, 0, 256)]);
    // The entries end where a word does, or one past it.
    let said = receive_all(&mut new_receiver(), Every8, [63, 64], 255);
    assert_eq!(said, [(CONTINUING, 64, 62, 1)]);
    let said = receive_all(&mut new_receiver(), Last, [64], 64);
    assert_eq!(said, [(CONTINUING, 65, 63, 1)]);
    // Without responses there are none.
    let said = receive_all(&mut new_receiver(), Prohibited, (1..10).rev(), 9);
    assert_eq!(said, []);
}

/// The figures beside the responses to receptions that fail, written by hand.
#[test]
fn figures_of_failures() {
    use AcknowledgmentWindow::{Every4, Exceptions, Last};
    // A repeat that differs: the slot holds what came first.
    let mut receiver = new_receiver();
    assert_eq!(receive_all(&mut receiver, Last, [2, 4], 9), []);
    assert_eq!(
        receive(&mut receiver, 2, CONTINUE, b"!"),
        Some((Status::Aborted, 5, 2, 1))
    );
    let mut receiver = new_receiver();
    assert_eq!(receive_all(&mut receiver, Last, [2, 4], 9), []);
    assert_eq!(
        receive(&mut receiver, 4, CONTINUE, b""),
        Some((Status::DuplicateSizeMismatch, 5, 2, 1))
    );
    // Another length than is stated, when all is there, and before that: there the segment is not held.
    let mut receiver = new_receiver();
    assert_eq!(receive_all(&mut receiver, Last, [1], 9), []);
    let length_error = Status::MessageLengthError;
    assert_eq!(
        receive(&mut receiver, 2, end(Some(4)), b"c"),
        Some((length_error, 3, 0, 256))
    );
    let mut receiver = new_receiver();
    assert_eq!(receive_all(&mut receiver, Exceptions, [2], 9), []);
    assert_eq!(
        receive(&mut receiver, 4, end(Some(2)), b"e"),
        Some((length_error, 3, 1, 1))
    );
    // A Begin that fails is not held either.
    let mut receiver = new_receiver();
    let compressed = begin(Every4, Compression::V42Bis, CrcStatus::None);
    assert_eq!(
        receive(&mut receiver, 0, compressed, b"a"),
        Some((Status::CompressionUnsupported, 1, 1, 0))
    );
    // The same with a support list.
    let mut receiver = new_receiver();
    let both = begin(Every4, Compression::V42Bis, CrcStatus::Crc16);
    assert_eq!(
        receive(&mut receiver, 0, both, b"a"),
        Some((Status::MultipleServicesUnsupported, 1, 1, 0))
    );
}

/// The figures beside timeout answers, written by hand, at the receiver's own deadline.
#[test]
fn figures_of_timeouts() {
    use AcknowledgmentWindow::{Exceptions, Last, Prohibited};
    let all: Vec<u8> = (1..=254).collect();
    for (profile, waits, _) in PROFILES {
        let timeout = |window, sequences: &[u8], last| {
            let mut receiver = new_receiver_of(profile);
            receive_all(&mut receiver, window, sequences.iter().copied(), last);
            assert_eq!(receiver.advance(waits - 1), Ok(None));
            let reported = receiver.advance(waits).expect("a right reading");
            reported.map(figures)
        };
        // The end is not known: the map goes one entry past the highest.
        assert_eq!(timeout(Last, &[], 9), Some((TIMEOUT, 2, 1, 1)));
        assert_eq!(timeout(Exceptions, &[1, 2, 4], 9), Some((TIMEOUT, 6, 2, 3)));
        assert_eq!(timeout(Last, &all, 255), Some((TIMEOUT, 256, 1, 255)));
        // It is known.
        assert_eq!(timeout(Last, &[9, 1], 9), Some((TIMEOUT, 10, 7, 2)));
        assert_eq!(timeout(Last, &[255], 255), Some((TIMEOUT, 256, 254, 1)));
        // No response.
        assert_eq!(timeout(Prohibited, &[1, 3], 9), None);
    }
}

/// A REPLY's figures in its octets. Slot 255 held without a known end, which only a made up record has: 256 entries.
#[test]
fn figures_in_octets() {
    let mut store = filled(layout::STORE);
    let mut advance = |record: &mut [u8], reading| {
        let mut answer = filled(layout::REPLY + 9);
        let given = calls::receiver_advance(record, &mut store, reading, &mut answer);
        assert_eq!(given, 0);
        assert!(untouched(&answer[layout::REPLY..]));
        answer.truncate(layout::REPLY);
        answer
    };
    let [(profile, waits, _), _] = PROFILES;
    let mut receiver = new_receiver_of(profile);
    let said = receive_all(&mut receiver, AcknowledgmentWindow::Last, [7, 255], 255);
    assert_eq!(said, [(CONTINUING, 256, 253, 1)]);
    let mut record = receiver.record().to_vec();
    assert_eq!(record[29..31], [1, 255]);
    record[29..31].fill(0);
    assert_eq!(advance(&mut record, waits - 1), [0; layout::REPLY]);
    let answer = advance(&mut record, waits);
    assert_eq!(answer[..5], [1, 2, TIMEOUT as u8, 1, 0]);
    assert_eq!(answer[42..], [0, 253, 0, 1]);
    // Entries 0, 7 and 255.
    let words = [0x81, 0, 0, 1 << 63];
    let octets = words.map(u64::to_be_bytes).concat();
    assert_eq!(answer[5..37], octets);
    let received: Vec<bool> = (0..256)
        .map(|i| words[i / 64] >> (i % 64) & 1 == 1)
        .collect();
    let map = AcknowledgmentMap::try_new(&received).expect("256 entries");
    let (count, first) = (253, 1);
    assert_eq!(map.missing(), Missing { count, first });
}

/// Answers shorter than their layouts, by an octet and by the figures.
#[test]
fn short_answers() {
    let mut record = receiver(10);
    let before = record.clone();
    let mut store = filled(layout::STORE);
    let mut output = filled(10);
    let mut answer = filled(layout::TRAIN);
    for less in [1, 4] {
        let given = [
            calls::receiver_receive(
                &mut record,
                &mut store,
                &mut output,
                origin(),
                &segment(2, 0, 0),
                b"a",
                0,
                100,
                &mut answer[..layout::RECEPTION - less],
            ),
            calls::receiver_advance(
                &mut record,
                &mut store,
                100,
                &mut answer[..layout::REPLY - less],
            ),
            calls::receiver_train(
                &mut record,
                &mut store,
                &mut output,
                origin(),
                &[2, 0, 1, b'a'],
                &[0, 4],
                100,
                &mut answer[..layout::TRAIN - less],
            ),
        ];
        assert_eq!(given.map(refusal), [Refusal::BUFFER_TOO_SHORT; 3]);
    }
    assert_eq!(record, before);
    assert!(untouched(&store) && untouched(&output) && untouched(&answer));
}

#[test]
fn senders() {
    let mut record = sender(4);
    let mut state = filled(layout::STATE);
    let mut offer = filled(layout::SUBMISSION);
    for ticket in 0..3 {
        assert_eq!(calls::sender_submission(&record, &mut offer), 0);
        assert_eq!((number(&offer[..8]), number(&offer[8..16])), (9, ticket));
        let stale = calls::sender_accepted(&mut record, 9, ticket, 100, &mut state);
        assert_eq!(refusal(stale), Refusal::STALE_SUBMISSION);
        assert_eq!(
            calls::sender_submitted(&mut record, 9, ticket, 100, 100, &mut state),
            0
        );
        assert_eq!(
            calls::sender_accepted(&mut record, 9, ticket, 100, &mut state),
            0
        );
    }
    assert_eq!(state, [2, 0, 0, 0]);
    let mut offer = filled(layout::SUBMISSION);
    assert_eq!(calls::sender_submission(&record, &mut offer), 1);
    assert!(untouched(&offer));
    let mut response = [0; layout::RESPONSE];
    response[..4].copy_from_slice(&[2, 10, 0, 3]);
    response[11] = 7;
    let given =
        calls::sender_receive_response(&mut record, origin(), &response, 0, 200, &mut state);
    assert_eq!((given, state.as_slice()), (0, &[3, 1, 0, 0][..]));
    response[1] = 14;
    let given =
        calls::sender_receive_response(&mut record, origin(), &response, 0, 200, &mut state);
    assert_eq!(refusal(given), Refusal::BUFFER_SPELLS_NONE);
}

#[test]
fn senders_end() {
    let mut state = filled(layout::STATE);
    let mut record = sender(0);
    assert_eq!(calls::sender_advance(&mut record, 150, &mut state), 0);
    assert_eq!(
        calls::sender_submitted(&mut record, 9, 0, 150, 150, &mut state),
        0
    );
    let none = calls::sender_lower_failed(&mut record, 9, 0, 3, 0, 150, &mut state);
    assert_eq!(refusal(none), Refusal::NUMBER_NAMES_NONE);
    let failed = calls::sender_lower_failed(&mut record, 9, 0, 0, 33, 150, &mut state);
    assert_eq!((failed, state.as_slice()), (0, &[4, 1, 0, 33][..]));
    let mut record = sender(0);
    assert_eq!(calls::sender_cancel(&mut record, 150, &mut state), 0);
    assert_eq!(state, [5, 0, 0, 0]);
    let mut state = filled(3);
    let short = calls::sender_cancel(&mut record, 150, &mut state);
    assert_eq!(refusal(short), Refusal::BUFFER_TOO_SHORT);
    assert!(untouched(&state));
}

/// Every buffer empty: each entry with a layout refuses with 256, delivery_order with 61, and nothing is read or written.
#[test]
fn empty_buffers() {
    let none = &mut [][..];
    let (a, b, c) = (&mut [][..], &mut [][..], &mut [][..]);
    let given = [
        calls::encode(&[], &[], 1, a, none),
        calls::decode(&[], 1, none),
        calls::plan_message(&[], 0, 0, 0, 0, 0, none),
        calls::plan_even(&[], 0, 0, 0, 0, 0, none),
        calls::plan_segment(&[], 0, none),
        calls::try_from_frozen(&[], 0, &[], &[], 0, 0, 0, none),
        calls::convert(&[], 0, &[], &[], 0, 0, 0, 9, none),
        calls::receiver_new(none, origin(), 0, 0, 0, 0, 0),
        calls::receiver_receive(none, a, b, origin(), &[], &[], 0, 0, c),
        calls::receiver_advance(none, a, 0, b),
        calls::receiver_cancel(none, a, 0),
        calls::receiver_release(none, a, 0),
        calls::receiver_train(none, a, b, origin(), &[], &[], 0, c),
        calls::sender_new(none, origin(), &[], &[], 0, 0, 0, 0),
        calls::sender_advance(none, 0, a),
        calls::sender_cancel(none, 0, a),
        calls::sender_submitted(none, 0, 0, 0, 0, a),
        calls::sender_accepted(none, 0, 0, 0, a),
        calls::sender_lower_failed(none, 0, 0, 9, 0, 0, a),
        calls::sender_receive_response(none, origin(), &[], 0, 0, a),
        calls::sender_submission(&[], none),
    ];
    assert!(
        given
            .map(refusal)
            .iter()
            .all(|r| *r == Refusal::BUFFER_TOO_SHORT)
    );
    let order = calls::delivery_order(2, 0, none);
    assert_eq!(refusal(order), Refusal::OUTPUT_TOO_SHORT);
}

/// The typed layer on inputs that no one would give.
#[test]
fn odd_arguments() {
    for octets in 0..300 {
        for filling in [0, 8, 0x10, 0x20, 0xff] {
            let _ = decode_segment(&vec![filling; octets], filling);
        }
    }
    let long = vec![7; 70_000];
    let kind = SegmentKind::End {
        message_length: Some(u16::MAX),
        crc: Some(MessageCrc::Crc24(u32::MAX)),
    };
    let segment = Segment {
        transaction_id: 255,
        sequence_number: 255,
        segment_data: &long,
        kind,
    };
    assert_eq!(
        segment.encode(255, &mut []),
        Err(Refusal::FIELD_TRANSACTION_ID)
    );
    let many = vec![segment; 300];
    for count in [0, 1, 2, 256, 257, 300] {
        let budget = u64::MAX;
        let frozen = SegmentedMessage::try_from_frozen(&many[..count], &long, budget, 0, budget);
        assert!(frozen.is_err());
    }
    for (budget, ceiling) in [(0, 0), (3, u64::MAX), (258, 258), (u64::MAX, u64::MAX)] {
        let _ = plan_message(&long, budget, 9, AcknowledgmentWindow::Every16, 0, ceiling);
        let _ = plan_even(&long, budget, 9, AcknowledgmentWindow::Every16, 0, ceiling);
    }
    let plan = planned(AcknowledgmentWindow::Prohibited);
    for read in [Dialect::BeginOnly, Dialect::Every] {
        let below = plan.payload_budget_octets() - 1;
        assert_eq!(plan.convert(read, 0, below), Err(Refusal::PAYLOAD_BUDGET));
        assert_eq!(plan.convert(read, 0, u64::MAX), Err(Refusal::VERSION));
    }
    assert_eq!(Dialect::from_number(2), None);
    let mut receiver = Receiver::try_new(PEER, PROTOCOL, 7, 1, PROFILE_1, u64::MAX, u64::MAX)
        .expect("a right peer");
    let decoded = DecodedSegment {
        segment,
        unparsed_octets: &long,
    };
    assert!(receiver.receive(PEER, PROTOCOL, &decoded, 0).is_err());
    let train = receiver.receive_train(PEER, PROTOCOL, &long, &[65_535; 9], u64::MAX);
    assert_eq!(train.map(|train| train.received), Ok(0));
    assert_eq!(receiver.advance(u64::MAX), Ok(None));
    assert_eq!(receiver.release(u64::MAX), Err(Refusal::CLOSED));
    assert_eq!(receiver.cancel(u64::MAX), Ok(()));
}

/// A message of 256 segments of 255 octets, out of order.
#[test]
fn full_message() {
    let message: Vec<u8> = (0..65_280u32)
        .map(|index| (index * 7 + index / 255) as u8)
        .collect();
    let planned = plan_message(&message, 258, 6, AcknowledgmentWindow::Prohibited, 1, 258);
    let Ok(MessagePlan::Segmented(plan)) = planned else {
        panic!("256 segments");
    };
    assert_eq!(plan.count(), 256);
    let mut receiver =
        Receiver::try_new(PEER, PROTOCOL, 6, 1, PROFILE_1, 65_280, 0).expect("a right peer");
    let order = std::iter::once(0).chain((1..=255).rev());
    for (reading, index) in (0..).zip(order) {
        let segment = plan.segment(index).expect("256 segments");
        let mut octets = [0; layout::ENCODING];
        let written = segment.encode(1, &mut octets).expect("a plan's segments");
        let decoded = decode_segment(&octets[..written], 1).expect("it was written");
        let reception = receiver.receive(PEER, PROTOCOL, &decoded, reading);
        let reception = reception.expect("no call is refused");
        assert_eq!(reception.message.is_some(), index == 1);
        if let Some(handed_over) = reception.message {
            assert!(handed_over == message);
        }
    }
    assert_eq!(receiver.stored_octets(), 65_280);
}

/// The exports' own refusals, as numbers and in words.
#[test]
fn own_refusals() {
    let own = [65_536, 65_792, 66_048].map(refusal);
    let named = [
        Refusal::BUFFER_TOO_SHORT,
        Refusal::BUFFER_SPELLS_NONE,
        Refusal::NUMBER_NAMES_NONE,
    ];
    assert_eq!(own, named);
    assert!(own.iter().all(|refusal| refusal.is_own()));
    assert!((256..65_536).all(|given| !refusal(given).is_own()));
    assert_eq!(format!("{:?}", own[1]), "Refusal(257 BufferSpellsNone)");
    let closed: Result<(), Refusal> = Err(refusal(9728));
    assert_eq!(format!("{closed:?}"), "Err(Refusal(38 Closed))");
}

fn decoded(octets: &[u8]) -> DecodedSegment<'_> {
    decode_segment(octets, 1).expect("a right segment")
}

fn planned(window: AcknowledgmentWindow) -> SegmentedMessage<'static> {
    let Ok(MessagePlan::Segmented(plan)) = plan_message(MESSAGE, 6, 2, window, 1, 6) else {
        panic!("7 octets are more than 6");
    };
    plan
}

/// The segments that plan_message gives under Last, with Exceptions in their Begin, as a frozen plan.
fn frozen_exceptions() -> SegmentedMessage<'static> {
    let asks = |window| begin(window, Compression::None, CrcStatus::None);
    let plan = planned(AcknowledgmentWindow::Last);
    let mut segments: Vec<Segment<'_>> = (0..=255).map_while(|i| plan.segment(i)).collect();
    assert_eq!(segments[0].kind, asks(AcknowledgmentWindow::Last));
    segments[0].kind = asks(AcknowledgmentWindow::Exceptions);
    SegmentedMessage::try_from_frozen(&segments, MESSAGE, 6, 1, 6).expect("a true cutting")
}

/// The refusals that change a receiver: past the deadline under Prohibited, and an unheld sequence when Complete.
#[test]
fn late_receivers() {
    for (profile, waits, _) in PROFILES {
        let new =
            || Receiver::try_new(PEER, PROTOCOL, 0, 1, profile, 100, 0).expect("a right peer");
        let mut receiver = new();
        let begin = receiver.receive(PEER, PROTOCOL, &decoded(&[0, 0, 0]), 0);
        assert!(begin.is_ok());
        let late = receiver.receive(PEER, PROTOCOL, &decoded(&[8, 1, 0]), waits + 1);
        assert_eq!(late, Err(Refusal::CLOSED));
        assert_eq!(receiver.state(), ReceiverState::Expired);

        let mut receiver = new();
        for (octets, reading) in [([0, 0, 0], 0), ([16, 1, 0], 1)] {
            let taken = receiver.receive(PEER, PROTOCOL, &decoded(&octets), reading);
            assert!(taken.is_ok());
        }
        let unheld = receiver.receive(PEER, PROTOCOL, &decoded(&[8, 2, 0]), 9);
        assert_eq!(unheld, Err(Refusal::CLOSED));
        assert_eq!(receiver.state(), ReceiverState::Complete);
        assert_eq!(receiver.advance(8), Err(Refusal::CLOCK_REGRESSION));
        assert_eq!(receiver.advance(9), Ok(None));
    }
}

fn offered<'a>(sender: &Sender<'a>) -> Submission<'a> {
    sender.submission().ok().flatten().expect("an offer")
}

/// A response to the three segments of the message.
fn response(status: Status, received: [bool; 3]) -> Response {
    Response {
        transaction_id: 2,
        status,
        acknowledgments: AcknowledgmentMap::try_new(&received).expect("three entries"),
        optional_services_support: None,
    }
}

/// The refusals that change a sender: the late 44, 42 and 38.
#[test]
fn late_senders() {
    let failed = SenderState::Failed(SenderFailure::SegmentInterval);
    let prohibited = planned(AcknowledgmentWindow::Prohibited);
    let exceptions = frozen_exceptions();
    for (profile, _, waits) in PROFILES {
        let of = |plan| {
            Sender::try_new(PEER, PROTOCOL, plan, 1, profile, 9, 0).expect("a planner's plan")
        };
        let deadline = 5 + waits;
        let mut sender = of(&prohibited);
        let first = offered(&sender);
        assert!(sender.submitted(&first, 5, 5).is_ok());
        assert_eq!(sender.accepted(&first, 6), Ok(SenderState::Prepared));
        let late = sender.submitted(&offered(&sender), deadline, deadline + 1);
        assert_eq!((late, sender.state()), (Err(Refusal::RECEIPT_TIME), failed));

        let stale = Err(Refusal::STALE_SUBMISSION);
        let mut sender = of(&prohibited);
        assert!(sender.submitted(&first, 5, 5).is_ok());
        let late = sender.accepted(&first, deadline);
        assert_eq!((late, sender.state()), (stale, failed));

        let mut sender = of(&prohibited);
        assert!(sender.submitted(&first, 5, 5).is_ok());
        let late = sender.lower_failed(&first, LowerLayerFailure::TimedOut, deadline);
        assert_eq!((late, sender.state()), (stale, failed));

        let mut sender = of(&exceptions);
        for _ in 0..3 {
            let submission = offered(&sender);
            assert!(sender.submitted(&submission, 5, 5).is_ok());
            assert!(sender.accepted(&submission, 5).is_ok());
        }
        let response = response(Status::Continuing, [true; 3]);
        let late = sender.receive_response(PEER, PROTOCOL, &response, 0, deadline + 1);
        let elapsed = SenderState::Complete(Completion::ExceptionIntervalElapsed);
        assert_eq!((late, sender.state()), (Err(Refusal::CLOSED), elapsed));
    }
}

/// The constants, 64 in words, and what a machine in octets has of its profile: the octet, and the size and the version of its layout.
#[test]
fn profiles() {
    assert_eq!(
        [PROFILE_1, PROFILE_2],
        PROFILES.map(|(profile, ..)| profile)
    );
    assert_eq!((layout::RECEIVER, layout::RECEIVER_VERSION), (3931, 2));
    assert_eq!((layout::PLAN, layout::PLAN_VERSION), (5958, 1));
    assert_eq!((layout::SENDER, layout::SENDER_VERSION), (6131, 2));
    assert_eq!(
        (layout::receiver::PROFILE, layout::sender::PROFILE),
        (15, 14)
    );
    assert_eq!(refusal(16_384), Refusal::PROFILE);
    assert_eq!(Refusal::PROFILE.to_string(), "refusal 64: Profile");
    assert_eq!(format!("{:?}", refusal(16_384)), "Refusal(64 Profile)");
    assert!(!Refusal::PROFILE.is_own());

    let prohibited = planned(AcknowledgmentWindow::Prohibited);
    assert_eq!(prohibited.record()[0], 1);
    for (profile, ..) in PROFILES {
        let mut record = filled(layout::RECEIVER + 9);
        let given = calls::receiver_new(&mut record, origin(), 2, 6, profile, 99, 0x1234);
        assert_eq!(given, 0);
        let mut expected = vec![0; 3931];
        expected[..16].copy_from_slice(&[2, 1, 34, 0, 0, 0, 0, 0, 0, 0, 5, 1, 0xc1, 2, 6, profile]);
        expected[23] = 99;
        expected[57..59].copy_from_slice(&[0x12, 0x34]);
        assert!(record[..3931] == expected && untouched(&record[3931..]));
        let made = Receiver::try_new(PEER, PROTOCOL, 2, 6, profile, 99, 0x1234);
        let made = made.expect("a right peer");
        assert!(made.record() == expected);
        assert_eq!(made.profile(), profile);

        let mut record = filled(layout::SENDER + 9);
        let plan = prohibited.record();
        let given = calls::sender_new(&mut record, origin(), plan, MESSAGE, 6, profile, 77, 0x1234);
        assert_eq!(given, 0);
        let mut expected = vec![0; 174];
        expected[..15].copy_from_slice(&[2, 1, 34, 0, 0, 0, 0, 0, 0, 0, 5, 1, 0xc1, 6, profile]);
        expected[22] = 77;
        // Submission 0 is there, prepared at this reading, which is the last one too.
        expected[27] = 1;
        expected[43..45].copy_from_slice(&[0x12, 0x34]);
        expected[164..166].copy_from_slice(&[0x12, 0x34]);
        expected.extend_from_slice(&plan[1..]);
        assert!(record[..6131] == expected && untouched(&record[6131..]));
        let made = Sender::try_new(PEER, PROTOCOL, &prohibited, 6, profile, 77, 0x1234);
        let made = made.expect("a planner's plan");
        assert!(made.record() == expected);
        assert_eq!(made.profile(), profile);
    }
}

/// What makings are refused with: 256, 257 (the sender's plan), 258, 30, 31, 64, then the codec's, of a sender 40 before it. Each before the next, for
/// any profile.
#[test]
fn makings_refused() {
    let right = origin();
    let unserved = Origin {
        protocol: 2,
        ..right
    };
    let no_peer = Origin {
        value: 0,
        ..unserved
    };
    let unnamed = Origin {
        protocol: 3,
        ..no_peer
    };
    let (last, mut wrong) = (plan(4), plan(4));
    wrong[0] = 2;
    for profile in 0..=255 {
        let known = profile == PROFILE_1 || profile == PROFILE_2;
        let or_64 = |refusal| if known { refusal } else { Refusal::PROFILE };
        // Octets that RECEIVER lacks, origin, transaction, version.
        let rows = [
            (1, unnamed, 8, 0, Refusal::BUFFER_TOO_SHORT),
            (0, unnamed, 8, 0, Refusal::NUMBER_NAMES_NONE),
            (0, no_peer, 8, 0, Refusal::IDENTITY),
            (0, unserved, 8, 0, Refusal::SERVICE),
            (0, right, 8, 0, or_64(Refusal::VERSION)),
            (0, right, 2, 0, or_64(Refusal::VERSION)),
            (0, right, 8, 1, or_64(Refusal::FIELD_TRANSACTION_ID)),
        ];
        for (lacks, from, transaction, version, expected) in rows {
            let mut record = filled(layout::RECEIVER);
            let place = &mut record[lacks..];
            let given = calls::receiver_new(place, from, transaction, version, profile, 100, 0);
            assert_eq!(refusal(given), expected, "profile {profile}");
            assert!(untouched(&record));
        }
        let mut record = filled(layout::RECEIVER);
        let given = calls::receiver_new(&mut record, right, 2, 1, profile, 100, 0);
        assert_eq!(
            Given::new(given).done().err(),
            (!known).then_some(Refusal::PROFILE)
        );
        assert_eq!(untouched(&record), !known);
        // Octets that SENDER lacks, plan, origin, octets of the message, version.
        let rows = [
            (1, &wrong, unnamed, 6, 0, Refusal::BUFFER_TOO_SHORT),
            (0, &wrong, unnamed, 6, 0, Refusal::BUFFER_SPELLS_NONE),
            (0, &last, unnamed, 6, 0, Refusal::NUMBER_NAMES_NONE),
            (0, &last, no_peer, 6, 0, Refusal::IDENTITY),
            (0, &last, unserved, 6, 0, Refusal::SERVICE),
            (0, &last, right, 6, 0, or_64(Refusal::PLAN)),
            (0, &last, right, 6, 1, or_64(Refusal::PLAN)),
            (0, &last, right, 7, 0, or_64(Refusal::VERSION)),
        ];
        for (lacks, plan, from, octets, version, expected) in rows {
            let mut record = filled(layout::SENDER);
            let (place, message) = (&mut record[lacks..], &MESSAGE[..octets]);
            let given = calls::sender_new(place, from, plan, message, version, profile, 9, 0);
            assert_eq!(refusal(given), expected, "profile {profile}");
            assert!(untouched(&record));
        }
        let mut record = filled(layout::SENDER);
        let given = calls::sender_new(&mut record, right, &last, MESSAGE, 1, profile, 9, 0);
        assert_eq!(
            Given::new(given).done().err(),
            (!known).then_some(Refusal::PROFILE)
        );
        assert_eq!(untouched(&record), !known);
    }
}

/// A receiver's own interval: after a Begin, a repeat, another segment, one of a train, and one after a timeout answer; before, at and past the
/// deadline.
#[test]
fn receivers_wait() {
    const EVERY16: [u8; 6] = [0, 0, 1, b'a', 0x20, 0x18];
    const PROHIBITED: [u8; 4] = [0, 0, 1, b'a'];
    const LATER: [u8; 3] = [8, 1, 0];
    for (profile, waits, _) in PROFILES {
        let begun = |octets: &[u8]| {
            let made = Receiver::try_new(PEER, PROTOCOL, 0, 1, profile, 100, 500);
            let mut receiver = made.expect("a right peer");
            assert_eq!(receiver.deadline_monotonic_ms(), None);
            take(&mut receiver, octets, 1_000);
            assert_eq!(receiver.deadline_monotonic_ms(), Some(1_000 + waits));
            receiver
        };
        let mut receiver = begun(&EVERY16);
        for (octets, reading) in [
            (EVERY16.as_slice(), 1_001),
            (&LATER, 1_003),
            (&LATER, 1_007),
        ] {
            take(&mut receiver, octets, reading);
            assert_eq!(receiver.deadline_monotonic_ms(), Some(reading + waits));
        }
        let train = receiver.receive_train(PEER, PROTOCOL, &[8, 2, 0], &[3], 1_010);
        assert_eq!(train.map(|train| train.received), Ok(1));
        let deadline = 1_010 + waits;
        assert_eq!(receiver.deadline_monotonic_ms(), Some(deadline));
        assert_eq!(receiver.advance(deadline - 1), Ok(None));
        assert_eq!(receiver.deadline_monotonic_ms(), Some(deadline));
        let reported = receiver.advance(deadline).expect("a right reading");
        assert_eq!(reported.map(figures), Some((TIMEOUT, 4, 1, 3)));
        assert_eq!(receiver.deadline_monotonic_ms(), None);
        take(&mut receiver, &LATER, 2 * deadline);
        assert_eq!(receiver.deadline_monotonic_ms(), Some(2 * deadline + waits));
        assert_eq!(receiver.profile(), profile);

        let (deadline, behind) = (1_000 + waits, 1_000 + 2 * waits);
        let expired = ReceiverState::Expired;
        for (begin, refusal, state) in [
            (
                EVERY16.as_slice(),
                Refusal::TIMER_DUE,
                ReceiverState::Receiving,
            ),
            (&PROHIBITED, Refusal::CLOSED, expired),
        ] {
            let mut receiver = begun(begin);
            take(&mut receiver, &LATER, deadline);
            assert_eq!(receiver.deadline_monotonic_ms(), Some(behind));
            let late = receiver.receive(PEER, PROTOCOL, &decoded(&LATER), behind + 1);
            assert_eq!(late, Err(refusal));
            assert_eq!(receiver.state(), state);
        }
        let mut receiver = begun(&PROHIBITED);
        assert_eq!(receiver.advance(deadline - 1), Ok(None));
        assert_eq!(receiver.state(), ReceiverState::Receiving);
        assert_eq!(receiver.advance(deadline), Ok(None));
        assert_eq!((receiver.state(), receiver.profile()), (expired, profile));
    }
}

fn take(receiver: &mut Receiver, octets: &[u8], reading: u64) {
    let reception = receiver.receive(PEER, PROTOCOL, &decoded(octets), reading);
    assert_eq!(reception.map(|reception| reception.message), Ok(None));
}

/// A sender's own interval, from queued on; before and at the deadline.
#[test]
fn senders_wait() {
    use SenderState::{AwaitingAccept, AwaitingResponse, Prepared};
    let failed = SenderState::Failed(SenderFailure::SegmentInterval);
    let last = planned(AcknowledgmentWindow::Last);
    let prohibited = planned(AcknowledgmentWindow::Prohibited);
    for (profile, _, waits) in PROFILES {
        let begun = |plan| {
            let made = Sender::try_new(PEER, PROTOCOL, plan, 1, profile, 9, 0);
            let mut sender = made.expect("a planner's plan");
            assert_eq!(sender.deadline_monotonic_ms(), None);
            let first = offered(&sender);
            assert_eq!(sender.submitted(&first, 10, 20), Ok(AwaitingAccept));
            assert_eq!(sender.deadline_monotonic_ms(), Some(10 + waits));
            (sender, first)
        };
        let (mut sender, first) = begun(&last);
        assert_eq!(sender.accepted(&first, 30), Ok(Prepared));
        assert_eq!(
            sender.submitted(&offered(&sender), 40, 50),
            Ok(AwaitingAccept)
        );
        assert_eq!(sender.deadline_monotonic_ms(), Some(40 + waits));
        assert_eq!(sender.advance(39 + waits), Ok(AwaitingAccept));
        assert_eq!(sender.advance(40 + waits), Ok(Prepared));
        let again = offered(&sender);
        assert_eq!((again.ticket, again.index), (2, 1));
        assert_eq!(
            (sender.deadline_monotonic_ms(), sender.profile()),
            (None, profile)
        );

        let (mut sender, first) = begun(&prohibited);
        assert_eq!(sender.advance(9 + waits), Ok(AwaitingAccept));
        assert_eq!(sender.accepted(&first, 9 + waits), Ok(Prepared));
        let second = offered(&sender);
        assert_eq!(
            sender.submitted(&second, 9 + waits, 9 + waits),
            Ok(AwaitingAccept)
        );
        assert_eq!(sender.deadline_monotonic_ms(), Some(9 + 2 * waits));
        let (mut sender, _) = begun(&prohibited);
        assert_eq!(sender.advance(10 + waits), Ok(failed));
        assert_eq!(
            (sender.deadline_monotonic_ms(), sender.profile()),
            (None, profile)
        );

        // Observed before the deadline that it sets, and at it.
        for (observed, state) in [(9 + waits, AwaitingAccept), (10 + waits, Prepared)] {
            let made = Sender::try_new(PEER, PROTOCOL, &last, 1, profile, 9, 0);
            let mut sender = made.expect("a planner's plan");
            assert_eq!(sender.submitted(&offered(&sender), 10, observed), Ok(state));
        }

        // Responses before the deadline, and at it.
        let all = response(Status::Continuing, [true; 3]);
        for (reading, state) in [(9 + waits, AwaitingResponse), (10 + waits, Prepared)] {
            let made = Sender::try_new(PEER, PROTOCOL, &last, 1, profile, 9, 0);
            let mut sender = made.expect("a planner's plan");
            while let Ok(Some(submission)) = sender.submission() {
                assert!(sender.submitted(&submission, 10, 10).is_ok());
                assert!(sender.accepted(&submission, 10).is_ok());
            }
            let answered = sender.receive_response(PEER, PROTOCOL, &all, 0, reading);
            assert_eq!(answered, Ok(state));
        }
    }
}

/// The last reading from which a machine's own interval fits, and 34 one past it, which changes nothing.
#[test]
fn latest_readings() {
    let last = planned(AcknowledgmentWindow::Last);
    for (profile, receiver_waits, sender_waits) in PROFILES {
        let latest = u64::MAX - receiver_waits;
        let made = Receiver::try_new(PEER, PROTOCOL, 0, 1, profile, 100, latest);
        let mut receiver = made.expect("a right peer");
        // A Begin, and its repeat.
        for _ in 0..2 {
            let before = receiver.record().to_vec();
            let late = receiver.receive(PEER, PROTOCOL, &decoded(&[0, 0, 0]), latest + 1);
            assert_eq!(late, Err(Refusal::TIME_OVERFLOW));
            let train = receiver.receive_train(PEER, PROTOCOL, &[0, 0, 0], &[3], latest + 1);
            assert_eq!(
                train.map(|train| (train.received, train.stopped)),
                Ok((0, Some(Refusal::TIME_OVERFLOW)))
            );
            assert!(receiver.record() == before);
            take(&mut receiver, &[0, 0, 0], latest);
            assert_eq!(receiver.deadline_monotonic_ms(), Some(u64::MAX));
        }
        let latest = u64::MAX - sender_waits;
        let made = Sender::try_new(PEER, PROTOCOL, &last, 1, profile, 9, 0);
        let mut sender = made.expect("a planner's plan");
        let before = sender.record().to_vec();
        let first = offered(&sender);
        let late = sender.submitted(&first, latest + 1, latest + 1);
        assert_eq!(late, Err(Refusal::TIME_OVERFLOW));
        assert!(sender.record() == before);
        let queued = sender.submitted(&first, latest, latest);
        assert_eq!(queued, Ok(SenderState::AwaitingAccept));
        assert_eq!(sender.deadline_monotonic_ms(), Some(u64::MAX));
    }
}

/// A train whose second segment is lost, from a sender to a receiver of one profile: each waits as long as it is its own.
#[test]
fn exchange_of_profiles() {
    let plan = planned(AcknowledgmentWindow::Last);
    for (profile, receiver_waits, sender_waits) in PROFILES {
        let made = Sender::try_new(PEER, PROTOCOL, &plan, 1, profile, 9, 0);
        let mut sender = made.expect("a planner's plan");
        let made = Receiver::try_new(PEER, PROTOCOL, 2, 1, profile, 7, 0);
        let mut receiver = made.expect("a right peer");
        let send = |sender: &mut Sender<'_>, receiver: &mut Receiver, lost, reading| {
            let submission = offered(sender);
            let mut output = filled(layout::ENCODING);
            let written = submission.segment.encode(1, &mut output);
            let octets = &output[..written.expect("a plan's segments")];
            assert!(sender.submitted(&submission, reading, reading).is_ok());
            assert!(sender.accepted(&submission, reading).is_ok());
            if lost {
                return None;
            }
            let reception = receiver.receive(PEER, PROTOCOL, &decoded(octets), reading);
            let reception = reception.expect("it is taken");
            let response = reception.response;
            let whole = response.filter(|reported| reported.response.status == RECEIVED);
            assert_eq!(reception.message, whole.map(|_| MESSAGE));
            response
        };
        for (lost, reading) in [(false, 10), (true, 20), (false, 30)] {
            let reported = send(&mut sender, &mut receiver, lost, reading);
            let report = reported.map(figures);
            assert_eq!(report, (reading == 30).then_some((CONTINUING, 3, 1, 1)));
        }
        assert_eq!(receiver.deadline_monotonic_ms(), Some(30 + receiver_waits));
        assert_eq!(sender.deadline_monotonic_ms(), Some(30 + sender_waits));
        let now = 30 + receiver_waits;
        let reported = receiver
            .advance(now)
            .ok()
            .flatten()
            .expect("a timeout answer");
        assert_eq!(figures(reported), (TIMEOUT, 3, 1, 1));
        let state = sender.receive_response(PEER, PROTOCOL, &reported.response, 0, now);
        assert_eq!(state, Ok(SenderState::Prepared));
        let reported = send(&mut sender, &mut receiver, false, now).expect("the last segment");
        assert_eq!(figures(reported), (RECEIVED, 3, 0, 256));
        assert_eq!(sender.deadline_monotonic_ms(), Some(now + sender_waits));
        let state = sender.receive_response(PEER, PROTOCOL, &reported.response, 0, now);
        assert_eq!(state, Ok(SenderState::Complete(Completion::PeerReceived)));
        assert_eq!((sender.profile(), receiver.profile()), (profile, profile));
    }
}

/// What each call on a receiver gives, with a store and an output of so many octets. None of them changes record, store, output or answer, but for the
/// answer of a train.
fn receiver_calls(
    record: &[u8],
    store_octets: usize,
    output_octets: usize,
    reading: u64,
) -> [u32; 5] {
    let mut now = record.to_vec();
    let mut store = filled(layout::STORE);
    let mut output = filled(layout::STORE);
    let mut answer = filled(layout::RECEPTION);
    let mut train = filled(layout::TRAIN);
    let (lent, room) = (&mut store[..store_octets], &mut output[..output_octets]);
    let begin = segment(2, 0, 0);
    let octets = [2, 0, 1, b'a'];
    let given = [
        calls::receiver_receive(
            &mut now,
            lent,
            room,
            origin(),
            &begin,
            b"a",
            0,
            reading,
            &mut answer,
        ),
        calls::receiver_train(
            &mut now,
            lent,
            room,
            origin(),
            &octets,
            &[0, 4],
            reading,
            &mut train,
        ),
        calls::receiver_advance(&mut now, lent, reading, &mut answer),
        calls::receiver_cancel(&mut now, lent, reading),
        calls::receiver_release(&mut now, lent, reading),
    ];
    assert!(now == record && untouched(&store) && untouched(&output) && untouched(&answer));
    let empty = !refusal(given[1]).is_own();
    assert!(if empty {
        train == [0; layout::TRAIN]
    } else {
        untouched(&train)
    });
    given
}

/// A receiver of neither profile: 62 from every call, behind 60 and 61 and before 33. With its own profile the same record gets 33.
#[test]
fn receivers_of_neither() {
    let (all, short) = (layout::STORE, layout::STORE - 1);
    let cancelled = |mut record: Vec<u8>| {
        let mut store = filled(layout::STORE);
        assert_eq!(calls::receiver_cancel(&mut record, &mut store, 100), 0);
        record
    };
    let received = |mut record: Vec<u8>, segments: &[[u8; 15]]| {
        let (mut store, mut output) = (filled(layout::STORE), filled(layout::STORE));
        for segment in segments {
            let mut answer = filled(layout::RECEPTION);
            let given = calls::receiver_receive(
                &mut record,
                &mut store,
                &mut output,
                origin(),
                segment,
                b"a",
                0,
                100,
                &mut answer,
            );
            assert_eq!(given, 0);
        }
        record
    };
    for (profile, ..) in PROFILES {
        let new = receiver_of(profile, 65_280);
        let (begin, end) = (segment(2, 0, 0), segment(2, 1, 2));
        let records = [
            (0, new.clone()),
            (1, received(new.clone(), &[begin])),
            (2, received(new.clone(), &[begin, end])),
            (5, cancelled(new)),
        ];
        for (state, mut record) in records {
            assert_eq!(record[layout::receiver::STATE], state);
            assert_eq!(record[layout::receiver::PROFILE], profile);
            let regress = receiver_calls(&record, all, all, 99);
            assert_eq!(regress.map(refusal), [Refusal::CLOCK_REGRESSION; 5]);
            for other in NEITHER {
                record[layout::receiver::PROFILE] = other;
                let calls = |store, output, reading| {
                    receiver_calls(&record, store, output, reading).map(refusal)
                };
                let (impossible, output) = (Refusal::IMPOSSIBLE_STATE, Refusal::OUTPUT_TOO_SHORT);
                for reading in [99, 100, u64::MAX] {
                    assert_eq!(calls(all, all, reading), [impossible; 5]);
                }
                let first = [output, output, impossible, impossible, impossible];
                assert_eq!(calls(all, short, 99), first);
                assert_eq!(calls(short, short, 99), [Refusal::STORE_TOO_SHORT; 5]);
            }
        }
    }
}

/// What each call on a sender gives. None of them changes record or answer.
fn sender_calls(record: &[u8], reading: u64) -> [u32; 6] {
    let mut now = record.to_vec();
    let mut answer = filled(layout::STATE);
    let mut response = [0; layout::RESPONSE];
    response[..4].copy_from_slice(&[2, 0, 0, 3]);
    let given = [
        calls::sender_advance(&mut now, reading, &mut answer),
        calls::sender_cancel(&mut now, reading, &mut answer),
        calls::sender_submitted(&mut now, 9, 0, reading, reading, &mut answer),
        calls::sender_accepted(&mut now, 9, 0, reading, &mut answer),
        calls::sender_lower_failed(&mut now, 9, 0, 0, 0, reading, &mut answer),
        calls::sender_receive_response(&mut now, origin(), &response, 0, reading, &mut answer),
    ];
    assert!(now == record && untouched(&answer));
    given
}

/// What a sender offers, and the answer's octets.
fn submission(record: &[u8]) -> (u32, Vec<u8>) {
    let mut answer = filled(layout::SUBMISSION);
    (calls::sender_submission(record, &mut answer), answer)
}

/// A sender of neither profile: 62 from every call, before 33, but what it offers is as it was. With its own profile the same record gets 33.
#[test]
fn senders_of_neither() {
    let mut state = filled(layout::STATE);
    for (profile, ..) in PROFILES {
        let prepared = sender_of(profile, 4);
        let mut submitted = prepared.clone();
        let given = calls::sender_submitted(&mut submitted, 9, 0, 100, 100, &mut state);
        assert_eq!((given, state[0]), (0, 1));
        let mut sent = submitted.clone();
        assert_eq!(calls::sender_accepted(&mut sent, 9, 0, 100, &mut state), 0);
        for ticket in [1, 2] {
            let given = calls::sender_submitted(&mut sent, 9, ticket, 100, 100, &mut state);
            assert_eq!(given, 0);
            assert_eq!(
                calls::sender_accepted(&mut sent, 9, ticket, 100, &mut state),
                0
            );
        }
        assert_eq!(state[0], 2);
        let mut closed = prepared.clone();
        let given = calls::sender_cancel(&mut closed, 100, &mut state);
        assert_eq!((given, state[0]), (0, 5));
        for mut record in [prepared, submitted, sent, closed] {
            assert_eq!(record[layout::sender::PROFILE], profile);
            let regress = sender_calls(&record, 99);
            assert_eq!(regress.map(refusal), [Refusal::CLOCK_REGRESSION; 6]);
            let offer = submission(&record);
            for other in NEITHER {
                record[layout::sender::PROFILE] = other;
                for reading in [99, 100, u64::MAX] {
                    let given = sender_calls(&record, reading);
                    assert_eq!(given.map(refusal), [Refusal::IMPOSSIBLE_STATE; 6]);
                }
                assert_eq!(submission(&record), offer);
            }
        }
    }
}

/// Other versions of the layouts, and records as they were before 2026-11, without a profile: 257 from every call, in buffers of their own size 256.
#[test]
fn former_records() {
    let former =
        |record: &[u8], profile| [&[1], &record[1..profile], &record[profile + 1..]].concat();
    let none = Refusal::BUFFER_SPELLS_NONE;
    let short = Refusal::BUFFER_TOO_SHORT;
    for (profile, ..) in PROFILES {
        let judge_receiver = |record: &[u8], expected| {
            for store in [0, layout::STORE] {
                let given = receiver_calls(record, store, store, 100);
                assert_eq!(given.map(refusal), [expected; 5]);
            }
        };
        let judge_sender = |record: &[u8], expected| {
            assert_eq!(sender_calls(record, 100).map(refusal), [expected; 6]);
            let (given, answer) = submission(record);
            assert_eq!(refusal(given), expected);
            assert!(untouched(&answer));
        };
        let (mut receiver, mut sender) = (receiver_of(profile, 65_280), sender_of(profile, 4));
        for version in [0, 1, 3, 130, 255] {
            (receiver[0], sender[0]) = (version, version);
            judge_receiver(&receiver, none);
            judge_sender(&sender, none);
        }
        let mut receiver = former(&receiver, layout::receiver::PROFILE);
        let mut sender = former(&sender, layout::sender::PROFILE);
        judge_receiver(&receiver, short);
        judge_sender(&sender, short);
        receiver.push(FILLING);
        sender.push(FILLING);
        judge_receiver(&receiver, none);
        judge_sender(&sender, none);
    }
}
