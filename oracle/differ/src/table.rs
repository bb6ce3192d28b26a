//! What was run: cases, refusals, states and inputs of each area, with their counts.

use crate::orders;
use std::collections::{BTreeMap, BTreeSet};

#[derive(Clone, Default)]
pub struct Area {
    /// How often each number was given, whatever number it is. A case is counted here alone, so none is dropped.
    given: BTreeMap<u32, u64>,
    pub states: BTreeMap<[u8; 4], u64>,
    /// Inputs that a run has to have, by name.
    pub inputs: BTreeMap<&'static str, u64>,
    /// The delivery orders that the port wrote.
    pub orders: BTreeSet<Vec<u8>>,
}

impl Area {
    /// A case of this area, and the number that the port gave.
    pub fn count(&mut self, given: u32) {
        *self.given.entry(given).or_default() += 1;
    }

    pub fn state(&mut self, state: [u8; 4]) {
        *self.states.entry(state).or_default() += 1;
    }

    pub fn input(&mut self, name: &'static str) {
        *self.inputs.entry(name).or_default() += 1;
    }

    fn add(&mut self, other: &Self) {
        for (number, more) in &other.given {
            *self.given.entry(*number).or_default() += more;
        }
        for (state, more) in &other.states {
            *self.states.entry(*state).or_default() += more;
        }
        for (name, more) in &other.inputs {
            *self.inputs.entry(name).or_default() += more;
        }
        self.orders.extend(other.orders.iter().cloned());
    }

    fn refusals(&self) -> impl Iterator<Item = (u32, u64)> {
        let given = self.given.iter().map(|(number, count)| (*number, *count));
        given.filter(|(number, _)| *number >= 256)
    }

    fn cases(&self) -> u64 {
        self.given.values().sum()
    }
}

/// The areas of a run, by name.
#[derive(Clone, Default)]
pub struct Table(pub BTreeMap<&'static str, Area>);

impl Table {
    pub fn area(&mut self, name: &'static str) -> &mut Area {
        self.0.entry(name).or_default()
    }

    pub fn add(&mut self, other: &Self) {
        for (name, area) in &other.0 {
            self.area(name).add(area);
        }
    }
}

fn refusal_name(number: u32) -> String {
    match number % 256 {
        0 => (number / 256).to_string(),
        field => format!("{}/{field}", number / 256),
    }
}

/// The refusals that a run has to see, by area. 24, 40, 41, 60 to 63 and 256 to 258 lie outside document 01's domain, as no list of calls on
/// right buffers gives them; the run reaches them with damaged plans, records and buffers. 25, 26, 28 and 64 are document 02's.
const REFUSALS: [(&str, &str); 12] = [
    ("codec", "1 2 3 4 5 6/1 6/2 6/3 6/4 6/5 7 8 61 256 257"),
    ("planner", "1 6/1 20 21 22 25 256 257 258"),
    (EVEN_PLANNER, "1 6/1 20 21 22 25 256 258"),
    ("frozen check", "1 6/1 6/2 6/3 6/4 6/5 20 22 23 24 256 257"),
    (
        FROM_BEGIN_ONLY,
        "1 6/1 6/2 6/3 6/4 6/5 20 22 23 24 26 256 257 258",
    ),
    (
        FROM_EVERY,
        "1 6/1 6/2 6/3 6/4 6/5 20 22 23 24 26 256 257 258",
    ),
    (DELIVERY_ORDERS, "28 61"),
    (
        "receiver",
        "1 6/1 6/2 6/3 6/4 6/5 30 31 32 33 34 35 36 37 38 60 61 62 64 256 257 258",
    ),
    ("release", "33 38 60 62 256 257"),
    ("receivers released", "33 38"),
    (
        "train",
        "2 3 4 5 6/3 7 8 30 31 32 33 34 35 36 37 38 60 61 62 256 257 258",
    ),
    (
        "sender",
        "1 6/1 6/6 6/7 30 31 32 33 34 38 40 41 42 43 44 45 46 47 48 49 62 63 64 256 257 258",
    ),
];

/// The area of plan_even.
pub const EVEN_PLANNER: &str = "even planner";

/// The areas of convert, by the dialect that is read.
pub const CONVERTERS: [&str; 2] = [FROM_BEGIN_ONLY, FROM_EVERY];
const FROM_BEGIN_ONLY: &str = "convert from Begin only";
const FROM_EVERY: &str = "convert from every segment";

/// The areas of delivery_order, and of receivers that get trains in the orders that it writes.
pub const DELIVERY_ORDERS: &str = "delivery orders";
pub const IN_ORDER: &str = "receivers in every order";

/// The letter by which an area is asked for.
fn letter(area: &str) -> char {
    match area {
        "codec" => 'c',
        "planner" | EVEN_PLANNER | "frozen check" | FROM_BEGIN_ONLY | FROM_EVERY
        | DELIVERY_ORDERS => 'p',
        "receiver" | "release" | "receivers released" | IN_ORDER => 'r',
        "train" => 't',
        _ => 's',
    }
}

const RECEIVER_STATES: [[u8; 2]; 12] = [
    [0, 0],
    [1, 0],
    [2, 0],
    [3, 2],
    [3, 3],
    [3, 4],
    [3, 8],
    [3, 9],
    [3, 11],
    [3, 13],
    [4, 0],
    [5, 0],
];

const SENDER_STATES: [[u8; 4]; 21] = [
    [0, 0, 0, 0],
    [1, 0, 0, 0],
    [2, 0, 0, 0],
    [3, 0, 0, 0],
    [3, 1, 0, 0],
    [3, 2, 0, 0],
    [4, 0, 0, 0],
    [4, 1, 0, 0],
    [4, 1, 1, 0],
    [4, 1, 2, 0],
    [4, 2, 0, 2],
    [4, 2, 0, 3],
    [4, 2, 0, 4],
    [4, 2, 0, 5],
    [4, 2, 0, 6],
    [4, 2, 0, 7],
    [4, 2, 0, 8],
    [4, 2, 0, 9],
    [4, 2, 0, 11],
    [4, 2, 0, 13],
    [5, 0, 0, 0],
];

pub const FULL_TRAIN: &str = "256 segments of 255 octets handed over";
pub const LATE_RECEPTION: &str = "readings within 3 of 2^64 - 1 - the interval";
pub const LATE_SUBMISSION: &str = "queued readings within 3 of 2^64 - 1 - the interval";
pub const FULL_MAP: &str = "maps of 256 entries";
pub const FULL_MAP_RECEIVED: &str = "maps of 256 entries with none missing";
pub const LONG_MAP_GAPS: &str = "maps of 255 or 256 entries with some missing";
pub const NONE_MISSING: &str = "maps with none missing";
pub const BEGIN_MISSING: &str = "maps with 0 the first missing";
pub const LONG_STORE: &str = "calls on A5 stores with octets past 65,280";
pub const WIPED: &str = "stores wiped";
pub const RELEASED: &str = "complete receivers released";
pub const FULL_RELEASED: &str = "receivers of 65,280 octets released";
pub const LONG_RELEASED: &str = "releases of stores with octets past 65,280";
pub const LAST_RELEASED: &str = "releases at 2^64 - 1";
pub const SHORT_AND_IMPOSSIBLE: &str = "60 and 62 both due";
pub const IMPOSSIBLE_AND_CLOCK: &str = "62 and 33 both due";
pub const CLOCK_AND_CLOSED: &str = "33 and 38 both due";
pub const PROFILE_0: &str = "64 for profile 0";
pub const PROFILE_3: &str = "64 for profile 3";
pub const PROFILE_255: &str = "64 for profile 255";
pub const IDENTITY_AND_PROFILE: &str = "30 and 64 both due";
pub const SERVICE_AND_PROFILE: &str = "31 and 64 both due";
pub const CODEC_AND_PROFILE: &str = "64 and a refusal of the codec both due";
pub const PLAN_AND_PROFILE: &str = "64 and 40 both due";
pub const MADE: &str = "machines made";
pub const MADE_OTHERWISE: &str = "machines made under the other profile too";
pub const NEITHER_RECEIVE: &str = "receive on records of neither profile";
pub const NEITHER_ADVANCE: &str = "advance on records of neither profile";
pub const NEITHER_CANCEL: &str = "cancel on records of neither profile";
pub const NEITHER_RELEASE: &str = "release on records of neither profile";
pub const NEITHER_TRAIN: &str = "train on records of neither profile";
pub const NEITHER_SUBMITTED: &str = "submitted on records of neither profile";
pub const NEITHER_ACCEPTED: &str = "accepted on records of neither profile";
pub const NEITHER_LOWER_FAILED: &str = "lower_failed on records of neither profile";
pub const NEITHER_RESPONSE: &str = "receive_response on records of neither profile";
pub const NEITHER_AND_CLOCK: &str = "calls on records of neither profile with 33 due too";
pub const FROZEN_SENDER: &str = "senders of frozen plans";
pub const FULL_SENDER: &str = "senders of 256 segments";
pub const EVEN_SENDER: &str = "senders of even plans";
pub const EXCEPTIONS_SENDER: &str = "senders under Exceptions";
pub const EXCEPTIONS_PLANNED: &str =
    "planned plans under Exceptions that are none of the planners'";
pub const EXCEPTIONS_KEPT: &str = "senders of planned plans under Exceptions";
pub const EXCEPTIONS_HANDED: &str = "messages handed over under Exceptions";
/// By the dialect that was read.
pub const CONVERTED_SENDERS: [&str; 2] = [
    "senders of plans converted from Begin only",
    "senders of plans converted from every segment",
];
pub const OTHER_PLANNER: &str = "plans changed into the other planner's";
pub const NEITHER_PLANNER: &str = "plans with a later capacity of neither planner";
pub const PAST_MESSAGE: &str = "segments of made-up plans that would begin past the message";
pub const ONE_MORE: &str = "segments of made-up plans with one octet more";
pub const MORE_THAN_FITS: &str = "made-up plans with one octet more than 255";
pub const TOO_MANY: &str = "made-up plans of more than 256 segments";
pub const WINDOW_WHOLE: &str = "messages under Exceptions that need no segments";
pub const WINDOW_PLAN: &str = "messages under Exceptions that the original plans";
pub const BUDGET_AND_WINDOW: &str = "20 and 25 both due";
pub const WINDOW_AND_CODEC: &str = "25 and a refusal of the codec both due";
pub const WINDOW_AND_CAPACITY: &str = "25 and 21 both due";
pub const WINDOW_AND_COUNT: &str = "25 and 22 both due";
pub const EVEN_WHOLE: &str = "plans with nothing left over";
pub const EVEN_LEFT: &str = "plans with octets left over";
pub const EVEN_TWO: &str = "plans of two segments";
pub const EVEN_MOST: &str = "plans of 256 segments with octets left over";
pub const EVEN_LONGER_END: &str = "plans whose End is longer than plan_message's";
pub const CONVERTED: &str = "trains converted";
pub const CONVERTED_BACK: &str = "trains converted there and back";
pub const CONVERTED_FULL: &str = "trains converted within a budget of their longest segment";
pub const CONVERTED_EMPTY: &str = "trains of empty messages converted";
pub const CONVERTED_LONGEST: &str = "trains of 4,095 octets converted";
pub const TOO_LONG_FOR_A_LENGTH: &str = "26 for trains of 4,096 octets";
pub const NO_LENGTH: &str = "26 for trains without a length";
pub const OTHER_DIALECT: &str = "26 for trains in the dialect to be written";
pub const BEGIN_AMISS: &str = "26 for the Begin alone";
pub const FIRST_AMISS: &str = "26 for the segment behind the Begin alone";
pub const CONTINUE_AMISS: &str = "26 for a later Continue alone";
pub const END_AMISS: &str = "26 for the End alone";
pub const BUDGET_BY_CONTINUE: &str = "20 by one converted Continue";
pub const BUDGET_BY_END: &str = "20 by the converted End alone";
pub const BUDGET_BY_SEVERAL: &str = "20 by several converted segments";
pub const PATTERN_AND_BUDGET: &str = "26 and 20 by a converted segment both due";
pub const CHECK_AND_BUDGET: &str =
    "another refusal of the frozen check and 20 by a converted segment both due";

pub const ORDER_FULL: &str = "orders in outputs of their octets";
pub const ORDER_LONGER: &str = "orders in longer outputs";
pub const OUTPUT_ONE_LESS: &str = "61 for one octet less";
pub const NUMBER_AND_OUTPUT: &str = "28 and 61 both due";
pub const COUNT_OF_ORDERS: &str = "28 for the count of orders";
pub const CUT_NUMBER: &str = "28 for a number that is an order's in its lower 32 bits";
pub const ONE_SEGMENT: &str = "28 for one segment";
pub const SEVEN_SEGMENTS: &str = "28 for seven segments";
pub const DELIVERED_PLANNED: &str = "trains of plan_message delivered";
pub const DELIVERED_EVEN: &str = "trains of plan_even delivered";
pub const DELIVERED_FROZEN: &str = "trains of neither planner delivered";
pub const REPEATS_BEFORE: &str = "repeats before the message is handed over";
pub const REPEATS_BEHIND: &str = "repeats behind it";
pub const DELIVERED_WINDOWS: [&str; 6] = [
    "trains under Prohibited delivered",
    "trains under Every4 delivered",
    "trains under Every8 delivered",
    "trains under Every16 delivered",
    "trains under Last delivered",
    "trains under Exceptions delivered",
];

/// The last entry of a word and the first of the next: maps whose first missing entry they are.
pub const WORD_EDGES: [(usize, &str); 6] = [
    (63, "maps with 63 the first missing"),
    (64, "maps with 64 the first missing"),
    (127, "maps with 127 the first missing"),
    (128, "maps with 128 the first missing"),
    (191, "maps with 191 the first missing"),
    (192, "maps with 192 the first missing"),
];

/// Counts of segments that a run has to convert, and the windows.
pub const CONVERTED_COUNTS: [(usize, &str); 4] = [
    (2, "trains of two segments converted"),
    (3, "trains of three segments converted"),
    (255, "trains of 255 segments converted"),
    (256, "trains of 256 segments converted"),
];
pub const CONVERTED_WINDOWS: [&str; 6] = [
    "trains under Prohibited converted",
    "trains under Every4 converted",
    "trains under Every8 converted",
    "trains under Every16 converted",
    "trains under Last converted",
    "trains under Exceptions converted",
];

/// The frozen check's refusals, each where the train is not in the dialect being read either.
pub const CHECK_AND_PATTERN: [(u32, &str); 10] = [
    (256, "1 and 26 both due"),
    (6 * 256 + 1, "6/1 and 26 both due"),
    (6 * 256 + 2, "6/2 and 26 both due"),
    (6 * 256 + 3, "6/3 and 26 both due"),
    (6 * 256 + 4, "6/4 and 26 both due"),
    (6 * 256 + 5, "6/5 and 26 both due"),
    (20 * 256, "20 and 26 both due"),
    (22 * 256, "22 and 26 both due"),
    (23 * 256, "23 and 26 both due"),
    (24 * 256, "24 and 26 both due"),
];

/// What a run has to see of both converters.
fn converter_inputs() -> impl Iterator<Item = (&'static str, &'static str)> {
    let inputs = [
        CONVERTED,
        CONVERTED_BACK,
        CONVERTED_FULL,
        CONVERTED_EMPTY,
        CONVERTED_LONGEST,
        TOO_LONG_FOR_A_LENGTH,
        NO_LENGTH,
        OTHER_DIALECT,
        BEGIN_AMISS,
        FIRST_AMISS,
        CONTINUE_AMISS,
        END_AMISS,
    ];
    let inputs = inputs
        .into_iter()
        .chain(CONVERTED_COUNTS.map(|(_, name)| name))
        .chain(CONVERTED_WINDOWS)
        .chain(CHECK_AND_PATTERN.map(|(_, name)| name));
    inputs.flat_map(|name| CONVERTERS.map(|area| (area, name)))
}

/// What a run has to see of both machines: makings under other profiles, and records of neither.
fn profile_inputs() -> impl Iterator<Item = (&'static str, &'static str)> {
    let inputs = [
        PROFILE_0,
        PROFILE_3,
        PROFILE_255,
        IDENTITY_AND_PROFILE,
        SERVICE_AND_PROFILE,
        CODEC_AND_PROFILE,
        MADE_OTHERWISE,
        NEITHER_ADVANCE,
        NEITHER_CANCEL,
        NEITHER_AND_CLOCK,
    ];
    let machines = ["receiver", "sender"];
    inputs
        .into_iter()
        .flat_map(move |name| machines.map(|area| (area, name)))
}

const INPUTS: [(&str, &str); 77] = [
    (FROM_BEGIN_ONLY, BUDGET_BY_CONTINUE),
    (FROM_BEGIN_ONLY, BUDGET_BY_END),
    (FROM_BEGIN_ONLY, BUDGET_BY_SEVERAL),
    (FROM_BEGIN_ONLY, PATTERN_AND_BUDGET),
    (FROM_BEGIN_ONLY, CHECK_AND_BUDGET),
    ("planner", PAST_MESSAGE),
    ("planner", ONE_MORE),
    ("planner", MORE_THAN_FITS),
    ("planner", TOO_MANY),
    ("planner", WINDOW_WHOLE),
    ("planner", WINDOW_PLAN),
    ("planner", BUDGET_AND_WINDOW),
    ("planner", WINDOW_AND_CODEC),
    ("planner", WINDOW_AND_CAPACITY),
    ("planner", WINDOW_AND_COUNT),
    (EVEN_PLANNER, EVEN_WHOLE),
    (EVEN_PLANNER, EVEN_LEFT),
    (EVEN_PLANNER, EVEN_TWO),
    (EVEN_PLANNER, EVEN_MOST),
    (EVEN_PLANNER, EVEN_LONGER_END),
    (DELIVERY_ORDERS, ORDER_FULL),
    (DELIVERY_ORDERS, ORDER_LONGER),
    (DELIVERY_ORDERS, OUTPUT_ONE_LESS),
    (DELIVERY_ORDERS, NUMBER_AND_OUTPUT),
    (DELIVERY_ORDERS, COUNT_OF_ORDERS),
    (DELIVERY_ORDERS, CUT_NUMBER),
    (DELIVERY_ORDERS, ONE_SEGMENT),
    (DELIVERY_ORDERS, SEVEN_SEGMENTS),
    (IN_ORDER, DELIVERED_PLANNED),
    (IN_ORDER, DELIVERED_EVEN),
    (IN_ORDER, DELIVERED_FROZEN),
    (IN_ORDER, REPEATS_BEFORE),
    (IN_ORDER, REPEATS_BEHIND),
    ("receiver", FULL_TRAIN),
    ("receiver", LATE_RECEPTION),
    ("receiver", FULL_MAP),
    ("receiver", LONG_MAP_GAPS),
    ("receiver", NONE_MISSING),
    ("receiver", BEGIN_MISSING),
    ("receiver", LONG_STORE),
    ("receiver", WIPED),
    ("receiver", EXCEPTIONS_HANDED),
    ("receiver", NEITHER_RECEIVE),
    ("release", RELEASED),
    ("release", FULL_RELEASED),
    ("release", LONG_RELEASED),
    ("release", LAST_RELEASED),
    ("release", SHORT_AND_IMPOSSIBLE),
    ("release", IMPOSSIBLE_AND_CLOCK),
    ("release", CLOCK_AND_CLOSED),
    ("release", NEITHER_RELEASE),
    ("train", EXCEPTIONS_HANDED),
    ("train", FULL_MAP_RECEIVED),
    ("train", NEITHER_TRAIN),
    ("train", WORD_EDGES[0].1),
    ("train", WORD_EDGES[1].1),
    ("train", WORD_EDGES[2].1),
    ("train", WORD_EDGES[3].1),
    ("train", WORD_EDGES[4].1),
    ("train", WORD_EDGES[5].1),
    ("sender", LATE_SUBMISSION),
    ("sender", FULL_MAP),
    ("sender", PLAN_AND_PROFILE),
    ("sender", NEITHER_SUBMITTED),
    ("sender", NEITHER_ACCEPTED),
    ("sender", NEITHER_LOWER_FAILED),
    ("sender", NEITHER_RESPONSE),
    ("sender", FROZEN_SENDER),
    ("sender", FULL_SENDER),
    ("sender", EVEN_SENDER),
    ("sender", OTHER_PLANNER),
    ("sender", NEITHER_PLANNER),
    ("sender", EXCEPTIONS_SENDER),
    ("sender", EXCEPTIONS_PLANNED),
    ("sender", EXCEPTIONS_KEPT),
    ("sender", CONVERTED_SENDERS[0]),
    ("sender", CONVERTED_SENDERS[1]),
];

fn receiver_state_name(state: [u8; 4]) -> String {
    match state[0] {
        0 => "AwaitingBegin".into(),
        1 => "Receiving".into(),
        2 => "Complete".into(),
        3 => format!("Failed({})", crate::spell::status_name(state[1])),
        4 => "Expired".into(),
        _ => "Canceled".into(),
    }
}

fn sender_state_name(state: [u8; 4]) -> String {
    match state {
        [0, ..] => "Prepared".into(),
        [1, ..] => "AwaitingAccept".into(),
        [2, ..] => "AwaitingResponse".into(),
        [3, 0, ..] => "Complete(LowerLayerAccepted)".into(),
        [3, 1, ..] => "Complete(PeerReceived)".into(),
        [3, ..] => "Complete(ExceptionIntervalElapsed)".into(),
        [4, 0, ..] => "Failed(SegmentInterval)".into(),
        [4, 1, 0, _] => "Failed(LowerLayer(Rejected))".into(),
        [4, 1, 1, _] => "Failed(LowerLayer(TimedOut))".into(),
        [4, 1, ..] => "Failed(LowerLayer(Cancelled))".into(),
        [4, _, _, status] => format!("Failed(Peer({}))", crate::spell::status_name(status)),
        _ => "Cancelled".into(),
    }
}

fn state_name(area: &str, state: [u8; 4]) -> String {
    if area.starts_with("sender") {
        sender_state_name(state)
    } else {
        receiver_state_name(state)
    }
}

fn joined(items: impl Iterator<Item = (String, u64)>) -> String {
    let items = items.map(|(name, count)| format!("{name} x{count}"));
    items.collect::<Vec<_>>().join(", ")
}

impl Table {
    pub fn print(&self) {
        for (name, area) in &self.0 {
            println!("{name}: {} cases", area.cases());
            let refusals = area.refusals();
            let refusals = joined(refusals.map(|(number, count)| (refusal_name(number), count)));
            println!("  refusals: {refusals}");
            if !area.states.is_empty() {
                let states = area.states.iter();
                println!(
                    "  states: {}",
                    joined(states.map(|(state, count)| (state_name(name, *state), *count)))
                );
            }
            if !area.inputs.is_empty() {
                let inputs = area.inputs.iter();
                println!(
                    "  inputs: {}",
                    joined(inputs.map(|(name, count)| ((*name).to_owned(), *count)))
                );
            }
            if !area.orders.is_empty() {
                println!("  orders: {} different ones", area.orders.len());
            }
        }
    }

    /// What a run of the areas with these letters has to see and did not.
    pub fn missing(&self, letters: &str) -> Vec<String> {
        let mut missing = Vec::new();
        let empty = Area::default();
        let area = |name: &str| self.0.get(name).unwrap_or(&empty);
        let runs = |name: &str| letters.contains(letter(name));
        for (name, wanted) in REFUSALS.into_iter().filter(|(name, _)| runs(name)) {
            let seen: Vec<String> = area(name)
                .refusals()
                .map(|(number, _)| refusal_name(number))
                .collect();
            for refusal in wanted.split_whitespace() {
                if !seen.iter().any(|seen| seen == refusal) {
                    missing.push(format!("{name}: refusal {refusal}"));
                }
            }
        }
        for [state, status] in RECEIVER_STATES.into_iter().filter(|_| runs("receiver")) {
            let state = [state, status, 0, 0];
            for name in ["receiver", "release"] {
                if !area(name).states.contains_key(&state) {
                    missing.push(format!("{name}: state {}", receiver_state_name(state)));
                }
            }
        }
        for state in SENDER_STATES.into_iter().filter(|_| runs("sender")) {
            if !area("sender").states.contains_key(&state) {
                missing.push(format!("sender: state {}", sender_state_name(state)));
            }
        }
        for name in [DELIVERY_ORDERS, IN_ORDER]
            .into_iter()
            .filter(|name| runs(name))
        {
            let unseen = orders::count() - area(name).orders.len();
            if unseen > 0 {
                missing.push(format!("{name}: {unseen} orders"));
            }
        }
        let windows = DELIVERED_WINDOWS.map(|name| (IN_ORDER, name));
        let inputs = INPUTS.into_iter().chain(windows).chain(converter_inputs());
        let inputs = inputs.chain(profile_inputs());
        for (name, input) in inputs.filter(|(name, _)| runs(name)) {
            if !area(name).inputs.contains_key(input) {
                missing.push(format!("{name}: {input}"));
            }
        }
        missing
    }
}
