//! Inputs for ops 30 to 37. A list opens with op 30 or 36 and runs to the next one.

use super::frozen::{any_cutting, large_cutting};
use super::heads::WINDOWS;
use super::receiver::{any_wrong_peer, any_wrong_protocol, changed_peer, changed_protocol};
use super::sender_run::{
    AWAITING_ACCEPT, AWAITING_RESPONSE, LAST_QUEUED, PREPARED, SEGMENT_INTERVAL_MS, SenderRun,
    Token, any_opening, wanted,
};
use crate::fields::STATUSES;
use crate::list::Recorder;
use crate::play::sender::{Reply, Sending};
use crate::random::Random;
use bts136::l3::tsar::OptionalServicesSupport;

type Record = Recorder<Sending>;

const PROHIBITED: u8 = 0;
/// Rejected with a cause, TimedOut, Cancelled.
const FAILURES: [[u8; 2]; 5] = [[0, 0], [0, 255], [0, 33], [1, 0], [2, 0]];
const CONTINUING: u8 = 0;
const TIMEOUT: u8 = 1;
const RECEIVED: u8 = 10;
const CRC_ERROR: u8 = 12;
const MULTIPLE_SERVICES: u8 = 13;

pub fn make(record: &mut Record) {
    openings(record, 160);
    statuses(record);
    response_edges(record);
    accept_edges(record);
    submit_edges(record);
    crc_errors(record);
    cancels(record);
    lower_failures(record);
    late_clocks(record, 200);
    faults_at_once(record, 230);
    maps(record, 300);
    walks(record, 1270);
    frozen_walks(record, 240);
    full_trains(record);
}

fn any_window(random: &mut Random) -> u8 {
    random.below(usize::from(WINDOWS)) as u8
}

fn open(record: &mut Record, window: u8, count: usize) -> SenderRun<'_> {
    let opening = any_opening(&mut record.random);
    let wanted = wanted(&mut record.random, window, count);
    SenderRun::open(record, &wanted, opening).expect("try_new accepts these arguments")
}

/// try_new alone: each reason to refuse, and several at once.
fn openings(record: &mut Record, count: usize) {
    for _ in 0..count {
        let random = &mut record.random;
        let mut opening = any_opening(random);
        if random.once_in(2) {
            opening.peer = any_wrong_peer(random);
        }
        if random.once_in(2) {
            opening.protocol = any_wrong_protocol(random);
        }
        if random.once_in(3) {
            opening.version = 0;
        }
        let window = any_window(random);
        let segments = random.within(2, 4);
        if random.once_in(3) {
            let frozen = any_cutting(random);
            SenderRun::open_frozen(record, &frozen, opening);
        } else {
            let wanted = wanted(random, window, segments);
            SenderRun::open(record, &wanted, opening);
        }
    }
}

/// Submits and has accepted the next `count` offers.
fn send(run: &mut SenderRun, count: usize) {
    for _ in 0..count {
        let reading = run.safe();
        run.submit(Token::Last, reading, reading);
        let reading = run.safe();
        run.accept(Token::Last, reading);
    }
}

/// The places at which a response can come.
const PLACES: usize = 5;

/// Nothing submitted; awaiting accept; an offer beside what was sent; all sent; all but accepted.
fn reach(run: &mut SenderRun, place: usize) {
    let count = run.count();
    match place {
        0 => {}
        1 => {
            send(run, count / 2);
            run.submit(Token::Last, run.now, run.now);
        }
        2 => send(run, count / 2),
        3 => send(run, count),
        _ => {
            send(run, count - 1);
            run.submit(Token::Last, run.now, run.now);
        }
    }
}

/// A map that a peer could send: some entries, received only where submitted.
fn honest_reply(run: &mut SenderRun, status: u8) -> Reply {
    let count = run.count();
    let some = run.random().within(1, count);
    let entries = run.random().pick(&[count, count, some, 1]);
    let share = run.random().pick(&[1, 2, 4]);
    let lost: Vec<bool> = (0..count)
        .map(|_| run.record.random.once_in(share + 1))
        .collect();
    let all = run.random().once_in(3);
    let submitted = run.submitted.clone();
    run.reply(status, entries, |index| {
        submitted[index] && (all || !lost[index])
    })
}

/// Each status at each place under each window, then calls that show what it left.
fn statuses(record: &mut Record) {
    for window in 0..WINDOWS {
        // Under Prohibited every response is refused alike.
        let places = if window == PROHIBITED {
            2..3
        } else {
            0..PLACES
        };
        for status in 0..STATUSES.len() as u8 {
            for place in places.clone() {
                let count = record.random.within(2, 5);
                let mut run = open(record, window, count);
                reach(&mut run, place);
                let mut reply = honest_reply(&mut run, status);
                reply.reading = run.safe();
                run.respond(&reply);
                follow(&mut run, 4);
                fill(&mut run);
            }
        }
    }
}

/// What a user would do next, most of the time.
fn follow(run: &mut SenderRun, calls: usize) {
    for _ in 0..calls {
        let reading = run.safe();
        match run.state {
            PREPARED => run.submit(Token::Last, reading, reading),
            AWAITING_ACCEPT => run.accept(Token::Last, reading),
            AWAITING_RESPONSE => {
                let reading = run.deadline.unwrap_or(reading);
                run.advance(reading);
            }
            _ => {
                let reading = run.any();
                odd_call(run, reading);
            }
        }
    }
}

/// Calls after the part of a list that it was made for, until the list has ten.
fn fill(run: &mut SenderRun) {
    while run.calls < 10 {
        let reading = run.any();
        if run.random().once_in(2) {
            follow(run, 1);
        } else {
            odd_call(run, reading);
        }
    }
}

/// Responses at D − 1, D and D + 1 that acknowledge everything, something and nothing.
fn response_edges(record: &mut Record) {
    for window in 1..WINDOWS {
        for place in 1..PLACES {
            for status in [CONTINUING, TIMEOUT, RECEIVED, CRC_ERROR, 2] {
                for after in 0..3 {
                    response_edge(record, window, place, status, after);
                }
            }
        }
    }
}

fn response_edge(record: &mut Record, window: u8, place: usize, status: u8, after: u64) {
    let count = record.random.within(2, 5);
    let mut run = open(record, window, count);
    reach(&mut run, place);
    let all = run.random().once_in(2);
    let submitted = run.submitted.clone();
    let mut reply = if all {
        run.reply(status, count, |index| submitted[index])
    } else {
        honest_reply(&mut run, status)
    };
    let deadline = run.deadline.expect("a submission sets it");
    reply.reading = deadline - 1 + after;
    run.respond(&reply);
    follow(&mut run, 4);
    fill(&mut run);
}

/// A CRC error clears what was acknowledged before: all is sent again, then the deadline passes.
fn crc_errors(record: &mut Record) {
    for window in 1..WINDOWS {
        for count in 2..5 {
            for entries in [1, count - 1, count] {
                let mut run = open(record, window, count);
                send(&mut run, count);
                let mut reply = run.reply(CONTINUING, entries, |_| true);
                reply.reading = run.soon();
                run.respond(&reply);
                let mut reply = run.reply(CRC_ERROR, entries, |_| false);
                reply.reading = run.soon();
                run.respond(&reply);
                send(&mut run, count);
                run.advance(run.deadline.unwrap_or(run.now));
                follow(&mut run, 4);
            }
        }
    }
}

/// accepted, lower_failed, cancel and advance at D − 1, D and D + 1, with each token.
fn accept_edges(record: &mut Record) {
    for window in 0..WINDOWS {
        for after in 0..3 {
            for call in 0..6 {
                let count = record.random.within(2, 4);
                let mut run = open(record, window, count);
                let sent = run.random().below(count);
                send(&mut run, sent);
                run.submit(Token::Last, run.now, run.now);
                let reading = run.now + SEGMENT_INTERVAL_MS - 1 + after;
                match call {
                    0 => run.accept(Token::Last, reading),
                    1 => run.fail_with(Token::Last, [0, 7], reading),
                    2 => run.accept(Token::Foreign, reading),
                    3 => run.fail_with(Token::Foreign, [1, 0], reading),
                    4 => run.advance(reading),
                    _ => run.cancel(reading),
                }
                follow(&mut run, 4);
                fill(&mut run);
            }
        }
    }
}

/// Each word of the lower layer, while it is awaited.
fn lower_failures(record: &mut Record) {
    for window in 0..WINDOWS {
        for failure in FAILURES {
            let mut run = open(record, window, 4);
            let sent = run.random().below(4);
            send(&mut run, sent);
            run.fail_with(Token::Last, failure, run.now);
            run.submit(Token::Last, run.now, run.now);
            run.fail_with(Token::Foreign, failure, run.now);
            let reading = run.safe();
            run.fail_with(Token::Last, failure, reading);
            fill(&mut run);
        }
    }
}

/// submitted with queued readings at every edge.
fn submit_edges(record: &mut Record) {
    for window in 0..WINDOWS {
        for edge in 0..QUEUED_EDGES {
            for sent in [0, 1, 2] {
                let mut run = open(record, window, 3);
                send(&mut run, sent);
                let start = run.safe();
                run.advance(start);
                let (queued, observed) = queued_edge(&run, edge);
                run.submit(Token::Last, queued, observed);
                follow(&mut run, 3);
                fill(&mut run);
            }
        }
    }
}

const QUEUED_EDGES: usize = 16;

fn queued_edge(run: &SenderRun, edge: usize) -> (u64, u64) {
    let now = run.now;
    let deadline = run.deadline.unwrap_or(now).max(1);
    let late = now + SEGMENT_INTERVAL_MS;
    match edge {
        0 => (run.prepared, now),
        1 => (run.prepared.max(1) - 1, now),
        2 => (now + 1, now),
        3 => (now + 5, now + 5),
        4 => (now, now.max(1) - 1),
        5 => (deadline - 1, deadline - 1),
        6 => (deadline - 1, deadline),
        7 => (deadline, deadline),
        8 => (deadline, deadline + 1),
        9 => (deadline + 1, deadline + 1),
        10 => (now, late - 1),
        11 => (now, late),
        12 => (run.prepared, late),
        13 => (deadline + 1, deadline),
        14 => (deadline, deadline + SEGMENT_INTERVAL_MS),
        _ => (run.prepared.max(1) - 1, late + 1),
    }
}

/// cancel in every state, before, at and after the deadline, and again.
fn cancels(record: &mut Record) {
    for window in 0..WINDOWS {
        for place in 0..PLACES {
            for after in 0..3 {
                let mut run = open(record, window, 3);
                reach(&mut run, place);
                let reading = run
                    .deadline
                    .map_or(run.now, |deadline| deadline - 1 + after);
                run.cancel(reading);
                run.cancel(reading.max(1) - 1);
                for _ in 0..3 {
                    let reading = run.soon();
                    odd_call(&mut run, reading);
                }
                run.cancel(run.now + 1);
                fill(&mut run);
            }
        }
    }
}

/// Readings around the last one at which a deadline fits.
fn late_clocks(record: &mut Record, count: usize) {
    for _ in 0..count {
        let random = &mut record.random;
        let mut opening = any_opening(random);
        let early = [0, 1, 2, 700, SEGMENT_INTERVAL_MS, SEGMENT_INTERVAL_MS + 1];
        opening.reading = LAST_QUEUED - random.pick(&early);
        let window = any_window(random);
        let segments = random.within(2, 4);
        let wanted = wanted(random, window, segments);
        let mut run = SenderRun::open(record, &wanted, opening).expect("accepted");
        for _ in 0..14 {
            let reading = late_reading(&mut run);
            match run.random().below(7) {
                0 => run.advance(reading),
                1 => {
                    let mut reply = honest_reply(&mut run, CONTINUING);
                    reply.reading = reading;
                    run.respond(&reply);
                }
                _ if run.state == PREPARED => {
                    let queued = run.random().pick(&[LAST_QUEUED, LAST_QUEUED + 1, reading]);
                    run.submit(Token::Last, queued.min(reading), reading);
                }
                _ => run.accept(Token::Last, reading),
            }
        }
    }
}

fn late_reading(run: &mut SenderRun) -> u64 {
    match run.random().below(10) {
        0 => LAST_QUEUED,
        1 => LAST_QUEUED + 1,
        2 if run.random().once_in(4) => u64::MAX,
        3 => run.deadline.unwrap_or(run.now),
        4 => run.now.saturating_add(1),
        _ => run.now,
    }
}

/// In every state, calls with several reasons to refuse, then one without.
fn faults_at_once(record: &mut Record, count: usize) {
    for number in 0..count {
        let window = any_window(&mut record.random);
        let mut run = open(record, window, 3);
        reach(&mut run, number % PLACES);
        if number % 7 == 0 {
            run.cancel(run.now);
        }
        for _ in 0..8 {
            faulty_response(&mut run);
        }
        follow(&mut run, 3);
    }
}

fn faulty_response(run: &mut SenderRun) {
    let status = run.random().below(STATUSES.len()) as u8;
    let mut reply = honest_reply(run, status);
    reply.reading = run.safe();
    for _ in 0..run.random().within(1, 4) {
        match run.random().below(12) {
            0 if run.random().once_in(2) => reply.reading = run.now.saturating_sub(1),
            0 => reply.reading = run.deadline.unwrap_or(run.now),
            1 => reply.peer = changed_peer(run.random(), reply.peer),
            2 => reply.protocol = changed_protocol(run.random(), reply.protocol),
            3 => reply.unparsed = run.random().pick(&[1, 2, 300]),
            4 => reply.entries = run.random().pick(&[0, 257, 300, 65_535]),
            5 => reply.transaction ^= run.random().pick(&[1, 2, 4]),
            6 => reply.transaction |= run.random().pick(&[8, 128]),
            7 => reply.support = Some(any_support(run.random())),
            8 => reply.map[0] |= 1 << run.random().below(8),
            9 => reply.status = RECEIVED,
            10 => reply.status = MULTIPLE_SERVICES,
            _ => reply.reading = run.deadline.unwrap_or(run.now).saturating_add(1),
        }
    }
    run.respond(&reply);
}

fn any_support(random: &mut Random) -> OptionalServicesSupport {
    OptionalServicesSupport {
        compression: random.once_in(2),
        encryption: random.once_in(2),
        acknowledgment_window: random.once_in(2),
        crc: random.once_in(2),
    }
}

/// Maps shorter and longer than the train, with entries past the count and bits past the map.
fn maps(record: &mut Record, count: usize) {
    for _ in 0..count {
        let window = 1 + record.random.below(5) as u8;
        let segments = record.random.pick(&[2, 3, 4, 8, 9]);
        let mut run = open(record, window, segments);
        let sent = run.random().within(1, segments);
        send(&mut run, sent);
        for _ in 0..6 {
            let reply = any_map(&mut run);
            run.respond(&reply);
            follow(&mut run, 1);
        }
    }
}

fn any_map(run: &mut SenderRun) -> Reply {
    let count = run.count();
    let status = run
        .random()
        .pick(&[CONTINUING, CONTINUING, TIMEOUT, RECEIVED]);
    let mut reply = honest_reply(run, status);
    reply.entries = match run.random().below(7) {
        0 => 256,
        1 => count + 1,
        2 => run.random().within(1, 256),
        3 => 1,
        _ => reply.entries,
    };
    match run.random().below(5) {
        0 => reply.map[count / 8] |= 1 << (count % 8),
        1 => reply.map[31] |= 0x80,
        2 => reply.map[run.random().below(32)] |= 1 << run.random().below(8),
        _ => {}
    }
    // Entries past the map's length are ignored.
    if reply.entries < 256 && run.random().once_in(3) {
        for index in reply.entries..256 {
            reply.map[index / 8] |= 1 << (index % 8);
        }
    }
    reply.reading = run.safe();
    reply
}

/// Any call, most of them wrong in the state.
fn odd_call(run: &mut SenderRun, reading: u64) {
    let token = run
        .random()
        .pick(&[Token::Last, Token::Earlier, Token::Foreign]);
    match run.random().below(7) {
        0 => run.advance(reading),
        1 => run.accept(token, reading),
        2 => {
            let failure = run.random().pick(&FAILURES);
            run.fail_with(token, failure, reading);
        }
        3 => {
            let choices = [
                reading,
                reading.saturating_add(1),
                run.prepared,
                run.prepared.max(1) - 1,
            ];
            let queued = run.random().pick(&choices);
            run.submit(token, queued, reading);
        }
        4 => faulty_response(run),
        5 => run.cancel(reading),
        _ => {
            let status = run.random().below(STATUSES.len()) as u8;
            let mut reply = honest_reply(run, status);
            reply.reading = reading;
            run.respond(&reply);
        }
    }
}

/// Random calls with a preference for those that go on, closing ones towards the end.
fn walks(record: &mut Record, count: usize) {
    for _ in 0..count {
        let window = any_window(&mut record.random);
        let segments = record.random.pick(&[2, 2, 3, 3, 4, 5, 7]);
        let calls = record.random.pick(&[10, 12, 14, 18, 24]);
        let mut run = open(record, window, segments);
        walk(&mut run, calls);
    }
}

/// Frozen plans, a few of them of about 256 segments.
fn frozen_walks(record: &mut Record, count: usize) {
    for number in 0..count {
        let random = &mut record.random;
        let opening = any_opening(random);
        let frozen = if number % 60 == 0 {
            large_cutting(random)
        } else {
            any_cutting(random)
        };
        let mut run = SenderRun::open_frozen(record, &frozen, opening).expect("accepted");
        walk(&mut run, 14);
    }
}

fn walk(run: &mut SenderRun, calls: usize) {
    for step in 0..calls {
        let risky = step + 4 >= calls;
        walk_step(run, risky);
    }
}

fn walk_step(run: &mut SenderRun, risky: bool) {
    let reading = if risky { run.any() } else { run.safe() };
    match run.random().below(if risky { 12 } else { 10 }) {
        0 if run.window != PROHIBITED => {
            let reading = run.deadline.unwrap_or(reading);
            run.advance(reading);
        }
        1..3 => lively_response(run, reading),
        3 => faulty_response(run),
        4 => {
            let token = run.random().pick(&[Token::Earlier, Token::Foreign]);
            if run.random().once_in(2) {
                run.accept(token, reading);
            } else {
                let queued = run.random().pick(&[reading, reading.saturating_add(1)]);
                run.submit(token, queued, reading);
            }
        }
        10.. => odd_call(run, reading),
        _ => go_on(run, reading),
    }
}

fn go_on(run: &mut SenderRun, reading: u64) {
    match run.state {
        PREPARED => {
            let prepared = run.prepared;
            let queued = run.random().pick(&[reading, reading, prepared]);
            run.submit(Token::Last, queued, reading);
        }
        AWAITING_ACCEPT => run.accept(Token::Last, reading),
        _ => lively_response(run, reading),
    }
}

/// A response that leaves the sender open, mostly; sometimes at the deadline or after it.
fn lively_response(run: &mut SenderRun, reading: u64) {
    let status = run.random().pick(&[
        CONTINUING, CONTINUING, CONTINUING, TIMEOUT, TIMEOUT, CRC_ERROR, CRC_ERROR, RECEIVED,
    ]);
    let mut reply = honest_reply(run, status);
    let deadline = run.deadline.unwrap_or(reading);
    reply.reading = match run.random().below(8) {
        0 => deadline,
        1 => deadline.saturating_add(1),
        _ => reading,
    };
    run.respond(&reply);
}

/// 256 segments sent in order, then maps of 256 entries.
fn full_trains(record: &mut Record) {
    for window in [0, 1, 4, 5] {
        let mut run = open(record, window, 256);
        send(&mut run, 256);
        for status in [CONTINUING, TIMEOUT, CRC_ERROR, CONTINUING, RECEIVED] {
            for _ in 0..3 {
                let mut reply = honest_reply(&mut run, status);
                reply.entries = run.random().pick(&[255, 256, 256]);
                run.respond(&reply);
                follow(&mut run, 6);
            }
        }
    }
}
