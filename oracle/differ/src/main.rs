//! Compares the original Rust (docs/src) with the exports of the port, over document 01's domain and some inputs beside it.
//!
//! differ [--seed S] [--rounds N] [--threads T] [--shrink 0] [--areas LETTERS]
//!
//! LETTERS are some of c (codec), p (planners, frozen check, converter and delivery orders), r (receiver), t (trains), s (sender); all of
//! them if none is given.
//!
//! With the feature `profile_2` the original has the figures of bench profile 2 (document 02, 2026-11), the machines are made under it, and
//! the areas are those of the machines alone: r, t and s.
//!
//! It runs through what can be run through whole, then N rounds of random and systematic inputs, prints what it ran, and ends with status
//! 1 where the two disagree (after the smallest input found), or where a refusal, a state or an input that a run has to have was not seen.

mod buffers;
mod codec;
mod describe;
mod dialects;
mod even;
mod exceptions;
mod made_up;
mod orders;
mod plans;
mod profiles;
mod receiver;
mod sender;
mod shrink;
mod spell;
mod spells;
mod table;
mod trains;
mod watch;

use codec::{CodecChecker, Found};
use orders::OrderChecker;
use plans::PlanChecker;
use receiver::{Receivers, TrainChecker};
use record::profiles::PROFILE;
use record::{make, tokens};
use sender::Senders;
use std::cell::RefCell;
use std::process::ExitCode;
use std::rc::Rc;
use std::sync::Mutex;
use std::sync::atomic::{AtomicBool, AtomicUsize, Ordering};
use std::time::Instant;
use std::{env, thread};
use table::Table;
use watch::{Case, Disagreement, Shared, Sheet, watch};

/// The seed of the gate's run.
const SEED: u64 = 136_620;
const ROUNDS: u64 = 1;
/// No codec and no plan has a profile.
const AREAS: &str = if PROFILE == 1 { "cprts" } else { "rts" };
/// Random codec cases of a round, beside the systematic ones.
const CODEC_CASES: usize = 400_000;
const CODEC_PARTS: u64 = 4;
/// Lists with trains of a round.
const TRAINS: usize = 2_000;
/// Random trains for the converter of a round, beside the systematic ones.
const DIALECT_TRAINS: usize = 1_500;
/// Random calls of delivery_order of a round, beside the systematic ones.
const ORDER_CALLS: usize = 4_000;

/// A part of a run, done by one thread.
#[derive(Clone, Copy)]
enum Item {
    Receiver(u64),
    Sender(u64),
    Train(u64),
    Plans(u64),
    Dialects(u64),
    Orders(u64),
    Deliveries(u64),
    Codec(u64),
    CodecRandom(u64),
    Exhaustive(u8),
    CodecBuffers(u64),
    PlanBuffers(u64),
}

impl Item {
    /// The letter of the area that it belongs to.
    fn area(self) -> char {
        match self {
            Item::Receiver(_) | Item::Deliveries(_) => 'r',
            Item::Sender(_) => 's',
            Item::Train(_) => 't',
            Item::Plans(_) | Item::Dialects(_) | Item::Orders(_) | Item::PlanBuffers(_) => 'p',
            _ => 'c',
        }
    }
}

struct Arguments {
    seed: u64,
    rounds: u64,
    threads: usize,
    shrink: bool,
    areas: String,
}

fn arguments() -> Option<Arguments> {
    let mut arguments = Arguments {
        seed: SEED,
        rounds: ROUNDS,
        threads: thread::available_parallelism()
            .map_or(2, usize::from)
            .min(8),
        shrink: true,
        areas: AREAS.to_owned(),
    };
    let mut words = env::args().skip(1);
    while let Some(word) = words.next() {
        let value = words.next()?;
        if word == "--areas" {
            arguments.areas = value;
            arguments.areas.retain(|letter| AREAS.contains(letter));
            continue;
        }
        let number: u64 = value.parse().ok()?;
        match word.as_str() {
            "--seed" => arguments.seed = number,
            "--rounds" => arguments.rounds = number,
            "--shrink" => arguments.shrink = number != 0,
            "--threads" => arguments.threads = number.clamp(1, 64) as usize,
            _ => return None,
        }
    }
    Some(arguments)
}

/// The seed of a part of a round. Profile 2 has others than profile 1.
fn part_seed(seed: u64, round: u64, part: u64) -> u64 {
    let place = u64::from(PROFILE - 1) << 56 | round << 32 | part << 24;
    let mut random = record::random::Random::new(seed.wrapping_add(place));
    random.next()
}

fn items(arguments: &Arguments) -> Vec<Item> {
    let mut items = Vec::new();
    for round in 0..arguments.rounds {
        let seed = |part| part_seed(arguments.seed, round, part);
        items.push(Item::Codec(seed(4)));
        items.extend((0..CODEC_PARTS).map(|part| Item::CodecRandom(seed(6 + part))));
        items.extend([
            Item::Plans(seed(3)),
            Item::Dialects(seed(11)),
            Item::Orders(seed(12)),
            Item::CodecBuffers(seed(5)),
            Item::PlanBuffers(seed(10)),
            Item::Receiver(seed(1)),
            Item::Deliveries(seed(13)),
            Item::Sender(seed(0)),
            Item::Train(seed(2)),
        ]);
    }
    items.extend((0..=255).map(Item::Exhaustive));
    items.retain(|item| arguments.areas.contains(item.area()));
    items
}

fn found(sheet: &Shared, area: &'static str, found: Result<(), (Vec<Case>, String)>) {
    if let Err((list, what)) = found {
        sheet.borrow_mut().disagreement = Some(Disagreement { area, list, what });
    }
}

fn codec_found(sheet: &Shared, result: Found) {
    found(
        sheet,
        "codec",
        result.map_err(|(case, what)| (vec![case], what)),
    );
}

fn run(item: Item, sheet: &Shared) {
    match item {
        Item::Receiver(seed) => watch::<Receivers>(sheet, seed, make::receiver::make),
        Item::Sender(seed) => watch::<Senders>(sheet, seed, make::sender::make),
        Item::Train(seed) => {
            watch::<TrainChecker>(sheet, seed, |record| trains::make(record, TRAINS))
        }
        Item::Plans(seed) => watch::<PlanChecker>(sheet, seed, make::plan::make),
        Item::Dialects(seed) => watch::<PlanChecker>(sheet, seed, |record| {
            dialects::trains::make(record, DIALECT_TRAINS)
        }),
        Item::Orders(seed) => {
            watch::<OrderChecker>(sheet, seed, |record| orders::make(record, ORDER_CALLS))
        }
        Item::Deliveries(seed) => watch::<OrderChecker>(sheet, seed, orders::deliveries::make),
        Item::Codec(seed) => watch::<CodecChecker>(sheet, seed, make::codec::make),
        Item::CodecRandom(seed) => {
            let result = {
                let mut sheet = sheet.borrow_mut();
                codec::random(
                    sheet.table.area("codec"),
                    seed,
                    CODEC_CASES / CODEC_PARTS as usize,
                )
            };
            codec_found(sheet, result);
        }
        Item::Exhaustive(part) => {
            let result = codec::exhaustive(sheet.borrow_mut().table.area("codec"), part);
            codec_found(sheet, result);
        }
        Item::CodecBuffers(seed) => {
            let result = buffers::codec(&mut sheet.borrow_mut().table, seed);
            found(sheet, "buffers", result.map_err(|what| (Vec::new(), what)));
        }
        Item::PlanBuffers(seed) => {
            let result = buffers::plans(&mut sheet.borrow_mut().table, seed);
            found(sheet, "buffers", result.map_err(|what| (Vec::new(), what)));
        }
    }
}

/// Runs the items on several threads: the table, and the disagreement of the first item that has one.
fn run_all(arguments: &Arguments) -> (Table, Option<Disagreement>) {
    let items = items(arguments);
    let next = AtomicUsize::new(0);
    let stop = AtomicBool::new(false);
    let total = Mutex::new(Table::default());
    let first: Mutex<Option<(usize, Disagreement)>> = Mutex::new(None);
    thread::scope(|scope| {
        for _ in 0..arguments.threads {
            scope.spawn(|| {
                let sheet: Shared = Rc::new(RefCell::new(Sheet::default()));
                while !stop.load(Ordering::Relaxed) {
                    let place = next.fetch_add(1, Ordering::Relaxed);
                    let Some(item) = items.get(place) else { break };
                    run(*item, &sheet);
                    if let Some(disagreement) = sheet.borrow_mut().disagreement.take() {
                        stop.store(true, Ordering::Relaxed);
                        let mut first = first.lock().expect("no thread stopped");
                        if first.as_ref().is_none_or(|(earlier, _)| place < *earlier) {
                            *first = Some((place, disagreement));
                        }
                    }
                }
                let mut total = total.lock().expect("no thread stopped");
                total.add(&sheet.borrow().table);
            });
        }
    });
    let first = first.into_inner().expect("no thread stopped");
    let total = total.into_inner().expect("no thread stopped");
    (total, first.map(|(_, disagreement)| disagreement))
}

fn shrink(disagreement: Disagreement) -> Disagreement {
    match disagreement.area {
        "receiver" => shrink::shrink::<Receivers>(disagreement),
        "sender" => shrink::shrink::<Senders>(disagreement),
        "train" => shrink::shrink::<TrainChecker>(disagreement),
        "plans" => shrink::shrink::<PlanChecker>(disagreement),
        "orders" => shrink::shrink::<OrderChecker>(disagreement),
        "codec" => shrink::shrink::<CodecChecker>(disagreement),
        _ => disagreement,
    }
}

fn print_disagreement(disagreement: &Disagreement) {
    println!(
        "DISAGREEMENT in {}: {}",
        disagreement.area, disagreement.what
    );
    println!(
        "the calls, each with its op and its input's octets as oracle/RECORDED.md lays them out:"
    );
    for case in &disagreement.list {
        let octets: Vec<String> = case
            .input
            .iter()
            .map(|octet| format!("{octet:02x}"))
            .collect();
        println!("  {}", describe::describe(case));
        println!("    {:02x}: {}", case.op, octets.join(" "));
    }
}

fn main() -> ExitCode {
    let Some(arguments) = arguments() else {
        eprintln!(
            "usage: differ [--seed S] [--rounds N] [--threads T] [--shrink 0] [--areas LETTERS]"
        );
        return ExitCode::from(2);
    };
    tokens::check_counting();
    println!(
        "profile {PROFILE}, seed {}, rounds {}, areas {:?}",
        arguments.seed, arguments.rounds, arguments.areas
    );
    let start = Instant::now();
    let (table, disagreement) = run_all(&arguments);
    let seconds = start.elapsed().as_secs_f64();
    table.print();
    eprintln!("{seconds:.1} s on {} threads", arguments.threads);
    if let Some(disagreement) = disagreement {
        let smallest = if arguments.shrink {
            shrink(disagreement)
        } else {
            disagreement
        };
        print_disagreement(&smallest);
        return ExitCode::FAILURE;
    }
    let missing = table.missing(&arguments.areas);
    if !missing.is_empty() {
        println!("NEVER SEEN: {}", missing.join("; "));
        return ExitCode::FAILURE;
    }
    println!("no disagreement");
    ExitCode::SUCCESS
}
