//! Trains for convert: in both dialects and in other patterns of stated lengths, with budgets around what they take with a length everywhere.

use super::{DIALECTS, EVERY, pattern, restated, sizes, stating};
use record::list::Recorder;
use record::make::frozen::{FAULTS, any_cutting, break_it, check, cutting, large_cutting};
use record::make::heads::WINDOWS;
use record::play::plan::{Frozen, MAX_SEGMENTS, Plans};
use record::random::Random;

type Record = Recorder<Plans>;

/// Up to so many segments, a cutting is tried under each window and in every pattern.
const FEW: usize = 4;

pub fn make(record: &mut Record, count: usize) {
    for lengths in cuttings() {
        let window = record.random.below(usize::from(WINDOWS)) as u8;
        let windows = if lengths.len() <= FEW {
            0..WINDOWS
        } else {
            window..window + 1
        };
        for window in windows {
            let train = cutting(&mut record.random, &lengths, window);
            every_pattern(record, &train);
        }
    }
    for _ in 0..count {
        let train = any_train(&mut record.random);
        check(record, &train);
    }
}

/// Empty messages, each kind of segment the longest, the most segments, messages around 4,095 octets in few segments and in the most.
fn cuttings() -> Vec<Vec<usize>> {
    let mut longest_end = vec![0; MAX_SEGMENTS];
    longest_end[MAX_SEGMENTS - 1] = 9;
    let mut cuttings = vec![
        vec![0, 0],
        vec![9, 1],
        vec![1, 9],
        vec![255, 255],
        vec![0, 0, 0],
        vec![9, 1, 1],
        vec![1, 9, 1],
        vec![1, 1, 9],
        vec![5, 5, 4],
        vec![1, 1, 9, 1],
        vec![0; MAX_SEGMENTS],
        vec![1; MAX_SEGMENTS - 1],
        vec![1; MAX_SEGMENTS],
        longest_end,
    ];
    for message_octets in 4_094..=4_097 {
        for (later, octets) in [(16, 255), (MAX_SEGMENTS - 1, 16)] {
            let mut lengths = vec![octets; later];
            lengths.push(message_octets - octets * later);
            cuttings.push(lengths);
        }
    }
    cuttings
}

/// A train in its patterns, each within the octets that its longest segment has with a length, within one less and two less.
fn every_pattern(record: &mut Record, train: &Frozen) {
    let longest = longest(train);
    for pattern in patterns(train.count) {
        let mut train = stating(train, &pattern);
        for less in 0..=2 {
            train.budget = longest - less;
            train.ceiling = train.budget;
            check(record, &train);
        }
    }
}

/// The octets of the longest segment where every segment states the length.
fn longest(train: &Frozen) -> usize {
    let sizes = sizes(&restated(train, EVERY)).into_iter();
    sizes.max().expect("a train has segments")
}

/// All patterns of a few segments; of more both dialects, as they are and but for one segment.
fn patterns(count: usize) -> Vec<Vec<bool>> {
    if count <= FEW {
        let states = |number: usize| (0..count).map(|index| number >> index & 1 == 1).collect();
        return (0..1 << count).map(states).collect();
    }
    let mut patterns = vec![vec![false; count]];
    for dialect in DIALECTS {
        patterns.push(pattern(dialect, count));
        for place in [0, 1, count / 2, count - 1] {
            patterns.push(but_for(dialect, count, place));
        }
    }
    patterns
}

/// A dialect's pattern, but for one segment.
fn but_for(dialect: u8, count: usize, place: usize) -> Vec<bool> {
    let mut pattern = pattern(dialect, count);
    pattern[place] ^= true;
    pattern
}

/// A train that is mostly in a dialect or next to one, now and then with a fault.
fn any_train(random: &mut Random) -> Frozen {
    let train = any_cut(random);
    let mut train = stating(&train, &any_pattern(random, train.count));
    let more = random.pick(&[0, 1, 2, 2, 2, 3, 1_000]);
    train.budget = longest(&train) + more - 2;
    train.ceiling = train.budget + random.pick(&[0, 0, 1, 1_000]);
    train.version = random.pick(&[1, 1, 2, 5, 255]);
    if random.once_in(4) {
        let fault = random.below(FAULTS);
        break_it(random, &mut train, fault);
    }
    train
}

fn any_cut(random: &mut Random) -> Frozen {
    let window = random.below(usize::from(WINDOWS)) as u8;
    match random.below(12) {
        0 => large_cutting(random),
        1 => {
            let most = random.pick(&[0, 1, 2, 15]);
            let lengths = (0..random.within(2, MAX_SEGMENTS)).map(|_| random.within(0, most));
            let lengths: Vec<usize> = lengths.collect();
            cutting(random, &lengths, window)
        }
        2 => {
            let (octets, count) = (random.within(4_090, 4_100), random.within(17, MAX_SEGMENTS));
            let cut = |index| octets * (index + 1) / count - octets * index / count;
            let lengths: Vec<usize> = (0..count).map(cut).collect();
            cutting(random, &lengths, window)
        }
        _ => any_cutting(random),
    }
}

fn any_pattern(random: &mut Random, count: usize) -> Vec<bool> {
    let dialect = random.pick(&DIALECTS);
    let any = random.below(count);
    match random.below(8) {
        0 => vec![false; count],
        1 => (0..count).map(|_| random.once_in(2)).collect(),
        2 | 3 => but_for(dialect, count, random.pick(&[0, 1, count - 1, any])),
        _ => pattern(dialect, count),
    }
}
