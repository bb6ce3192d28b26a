//! A recorded list: cases one after another, each an op, an input and the answer to it.

use crate::octets::{Put, Take};
use crate::random::Random;
use std::collections::BTreeMap;

/// What turns a case's input into its answer by calling the original.
pub trait Player {
    fn play(&mut self, op: u8, input: &[u8]) -> Vec<u8>;

    /// The state that the last call left, for the table.
    fn state(&self) -> Option<String> {
        None
    }
}

/// Who looks on while cases are played: the differential driver, which plays them on the port.
pub trait Watcher<P> {
    fn before(&mut self, player: &mut P, op: u8, input: &[u8]);
    fn after(&mut self, player: &mut P, op: u8, input: &[u8], answer: &[u8]);
}

/// How often each op, refusal and state was seen.
#[derive(Default)]
pub struct Tally {
    pub ops: BTreeMap<u8, usize>,
    pub refusals: BTreeMap<(u8, u8), usize>,
    pub states: BTreeMap<String, usize>,
}

/// Every answer that is a refusal opens with this octet; its number and field follow.
pub const REFUSED: u8 = 1;
pub const DONE: u8 = 0;

const MOST_OCTETS: usize = 4096;
/// Ops 11 and 36 carry up to 256 heads.
const MOST_OCTETS_WITH_HEADS: usize = 8192;
const OPS_WITH_HEADS: [u8; 2] = [0x11, 0x36];

pub struct Recorder<P> {
    pub random: Random,
    pub player: P,
    pub list: Vec<u8>,
    pub tally: Tally,
    watcher: Option<Box<dyn Watcher<P>>>,
}

impl<P: Player> Recorder<P> {
    pub fn new(player: P, seed: u64) -> Self {
        Self {
            random: Random::new(seed),
            player,
            list: Vec::new(),
            tally: Tally::default(),
            watcher: None,
        }
    }

    /// A recorder that keeps no list and has someone look on.
    pub fn watched(player: P, seed: u64, watcher: Box<dyn Watcher<P>>) -> Self {
        Self {
            watcher: Some(watcher),
            ..Self::new(player, seed)
        }
    }

    /// Plays one case, appends it to the list and gives its answer.
    pub fn call(&mut self, op: u8, input: &[u8]) -> Vec<u8> {
        if let Some(watcher) = &mut self.watcher {
            watcher.before(&mut self.player, op, input);
            let answer = self.player.play(op, input);
            watcher.after(&mut self.player, op, input, &answer);
            return answer;
        }
        let with_heads = OPS_WITH_HEADS.contains(&op);
        let most = if with_heads {
            MOST_OCTETS_WITH_HEADS
        } else {
            MOST_OCTETS
        };
        assert!(input.len() <= most, "op {op:02x}: {} octets", input.len());
        let answer = self.player.play(op, input);
        assert!(answer.len() <= MOST_OCTETS);
        self.count(op, &answer);
        self.list.put8(op);
        self.list.put16(input.len());
        self.list.put_all(input);
        self.list.put16(answer.len());
        self.list.put_all(&answer);
        answer
    }

    fn count(&mut self, op: u8, answer: &[u8]) {
        *self.tally.ops.entry(op).or_default() += 1;
        if answer[0] == REFUSED {
            let refusal = (answer[1], answer[2]);
            *self.tally.refusals.entry(refusal).or_default() += 1;
        }
        if let Some(state) = self.player.state() {
            *self.tally.states.entry(state).or_default() += 1;
        }
    }
}

/// What replaying a list showed: the number of cases, how many answers differ, the first of them.
#[derive(Default)]
pub struct Replayed {
    pub cases: usize,
    pub differing: usize,
    pub first: Option<usize>,
}

/// Plays every case of a list.
pub fn replay(list: &[u8], player: &mut impl Player) -> Replayed {
    let mut take = Take(list);
    let mut replayed = Replayed::default();
    while !take.0.is_empty() {
        let op = take.take8();
        let length = take.take16();
        let input = take.octets(length);
        let length = take.take16();
        let expected = take.octets(length);
        if player.play(op, input) != expected {
            replayed.differing += 1;
            replayed.first = replayed.first.or(Some(replayed.cases));
        }
        replayed.cases += 1;
    }
    replayed
}
