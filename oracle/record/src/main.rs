//! Records what the original answers. See ../../README.md for the commands and
//! ../../RECORDED.md for the layout of the lists.

use record::list::{Player, Recorder, Replayed, Tally, replay};
use record::play::codec::Codec;
use record::play::plan::Plans;
use record::play::receiver::Receiving;
use record::play::sender::Sending;
use record::{make, tokens};
use std::path::{Path, PathBuf};
use std::process::ExitCode;
use std::{env, fs};

/// Each area draws from this seed plus its place below.
const SEED: u64 = 136_620;
const AREAS: [&str; 4] = ["codec", "plan", "receiver", "sender"];

/// A recorded list with what was counted in it.
struct Area {
    list: Vec<u8>,
    tally: Tally,
}

fn record_with<P: Player>(player: P, seed: u64, make: impl Fn(&mut Recorder<P>)) -> Area {
    let mut recorder = Recorder::new(player, seed);
    make(&mut recorder);
    Area {
        list: recorder.list,
        tally: recorder.tally,
    }
}

fn record(place: usize) -> Area {
    let seed = SEED + place as u64;
    match AREAS[place] {
        "codec" => record_with(Codec, seed, make::codec::make),
        "plan" => record_with(Plans, seed, make::plan::make),
        "receiver" => record_with(Receiving::default(), seed, make::receiver::make),
        _ => record_with(Sending::default(), seed, make::sender::make),
    }
}

fn replay_area(name: &str, list: &[u8]) -> Replayed {
    match name {
        "codec" => replay(list, &mut Codec),
        "plan" => replay(list, &mut Plans),
        "receiver" => replay(list, &mut Receiving::default()),
        _ => replay(list, &mut Sending::default()),
    }
}

fn file(folder: &Path, name: &str) -> PathBuf {
    folder.join(format!("{name}.rec"))
}

fn join<K>(counts: impl IntoIterator<Item = (K, usize)>, name: impl Fn(K) -> String) -> String {
    let items = counts
        .into_iter()
        .map(|(key, count)| format!("{} x{count}", name(key)));
    items.collect::<Vec<_>>().join(", ")
}

fn print_area(name: &str, area: &Area) {
    let tally = &area.tally;
    let cases: usize = tally.ops.values().sum();
    println!("{name}.rec: {cases} cases, {} octets", area.list.len());
    let ops = join(tally.ops.clone(), |op| format!("{op:02x}"));
    println!("  ops: {ops}");
    let refusals = join(tally.refusals.clone(), |refusal| match refusal {
        (n, 0) => format!("{n}"),
        (n, m) => format!("{n}/{m}"),
    });
    println!("  refusals: {refusals}");
    if !tally.states.is_empty() {
        let states = join(tally.states.clone(), |state| state);
        println!("  states: {states}");
    }
}

fn write(folder: &Path) -> bool {
    fs::create_dir_all(folder).expect("the folder can be made");
    println!("seed {SEED}");
    for (place, name) in AREAS.iter().enumerate() {
        let area = record(place);
        print_area(name, &area);
        fs::write(file(folder, name), &area.list).expect("the folder can be written");
    }
    true
}

fn check(folder: &Path) -> bool {
    println!("seed {SEED}");
    let mut all_same = true;
    for (place, name) in AREAS.iter().enumerate() {
        let area = record(place);
        print_area(name, &area);
        let same = fs::read(file(folder, name)).is_ok_and(|recorded| recorded == area.list);
        println!("{name}.rec {}", if same { "same" } else { "differs" });
        all_same &= same;
    }
    all_same
}

fn replay_all(folder: &Path) -> bool {
    let mut all_same = true;
    for name in AREAS {
        let list = fs::read(file(folder, name)).expect("the list can be read");
        let replayed = replay_area(name, &list);
        println!(
            "{name}.rec: {} cases, {} differ",
            replayed.cases, replayed.differing
        );
        if let Some(case) = replayed.first {
            println!("  the first is case {case}, counted from 0");
            all_same = false;
        }
    }
    all_same
}

fn main() -> ExitCode {
    tokens::check_counting();
    let arguments: Vec<String> = env::args().skip(1).collect();
    let arguments: Vec<&str> = arguments.iter().map(String::as_str).collect();
    let good = match arguments[..] {
        ["--check", folder] => check(Path::new(folder)),
        ["--replay", folder] => replay_all(Path::new(folder)),
        [folder] if !folder.starts_with('-') => write(Path::new(folder)),
        _ => {
            eprintln!("usage: record [--check | --replay] FOLDER");
            false
        }
    };
    if good {
        ExitCode::SUCCESS
    } else {
        ExitCode::FAILURE
    }
}
