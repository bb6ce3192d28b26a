//! Plays cases on the original and on the port, and keeps the list of calls that a disagreement came from.

use crate::table::Table;
use record::list::{Player, Recorder, Watcher};
use record::octets::Take;
use record::random::Random;
use record::refusals::Refusal;
use std::cell::RefCell;
use std::panic::{self, AssertUnwindSafe};
use std::rc::Rc;

/// A call: an op of oracle/RECORDED.md with its input, or a probe of ours.
#[derive(Clone, PartialEq, Eq, Debug)]
pub struct Case {
    pub op: u8,
    pub input: Vec<u8>,
}

/// Ops from here on are probes: calls beside the list, on copies, that leave both sides as they were.
pub const FIRST_PROBE: u8 = 0x80;

/// What a check says: nothing, or how the two sides differ.
pub type Checked = Result<(), String>;

/// The port's side of an area.
pub trait Checker: Default + 'static {
    type Original: Player + Default + 'static;

    const NAME: &'static str;

    /// The original's side, before any list.
    fn original() -> Self::Original {
        Self::Original::default()
    }

    /// Whether a list of calls begins with this op.
    fn opens(op: u8) -> bool;

    /// Makes the call that the original has answered, and compares.
    fn check(
        &mut self,
        original: &mut Self::Original,
        case: &Case,
        answer: &[u8],
        table: &mut Table,
    ) -> Checked;

    /// Makes a probe.
    fn probe(&mut self, original: &mut Self::Original, case: &Case, table: &mut Table) -> Checked;

    /// A probe to make before or after a call, now and then.
    fn any_probe(&self, random: &mut Random, next: Option<&Case>) -> Option<Case>;

    /// A probe of a change request, to make after a call, now and then.
    fn any_other(&self, _: &mut Random, _: &Case) -> Option<Case> {
        None
    }

    /// A probe of a record of neither profile, to make before a call, now and then.
    fn any_neither(&self, _: &mut Random, _: &Case) -> Option<Case> {
        None
    }
}

/// A list of calls on which the two sides disagree, and how.
#[derive(Clone, Debug)]
pub struct Disagreement {
    pub area: &'static str,
    pub list: Vec<Case>,
    pub what: String,
}

/// What a thread has found so far.
#[derive(Default)]
pub struct Sheet {
    pub table: Table,
    pub disagreement: Option<Disagreement>,
}

pub type Shared = Rc<RefCell<Sheet>>;

struct Watch<C> {
    checker: C,
    random: Random,
    /// The probes of change requests are chosen apart, so that the others of a seed stay as they are without them.
    others: Random,
    neither: Random,
    list: Vec<Case>,
    sheet: Shared,
}

impl<C: Checker> Watch<C> {
    fn found(&mut self, checked: Checked) {
        if let Err(what) = checked {
            self.sheet.borrow_mut().disagreement = Some(Disagreement {
                area: C::NAME,
                list: self.list.clone(),
                what,
            });
        }
    }

    fn stopped(&self) -> bool {
        self.sheet.borrow().disagreement.is_some()
    }

    fn make_probe(&mut self, original: &mut C::Original, next: Option<&Case>) {
        if !self.stopped() {
            let probe = self.checker.any_probe(&mut self.random, next);
            self.make(original, probe);
        }
    }

    fn make_other(&mut self, original: &mut C::Original, last: &Case) {
        if !self.stopped() {
            let other = self.checker.any_other(&mut self.others, last);
            self.make(original, other);
        }
    }

    fn make_neither(&mut self, original: &mut C::Original, next: &Case) {
        if !self.stopped() {
            let neither = self.checker.any_neither(&mut self.neither, next);
            self.make(original, neither);
        }
    }

    fn make(&mut self, original: &mut C::Original, probe: Option<Case>) {
        let Some(probe) = probe else {
            return;
        };
        self.list.push(probe.clone());
        let sheet = self.sheet.clone();
        let checked = self
            .checker
            .probe(original, &probe, &mut sheet.borrow_mut().table);
        self.found(checked);
        if !self.stopped() {
            self.list.pop();
        }
    }
}

impl<C: Checker> Watcher<C::Original> for Watch<C> {
    fn before(&mut self, original: &mut C::Original, op: u8, input: &[u8]) {
        if !C::opens(op) {
            let next = Case {
                op,
                input: input.to_vec(),
            };
            self.make_probe(original, Some(&next));
            self.make_neither(original, &next);
        }
    }

    fn after(&mut self, original: &mut C::Original, op: u8, input: &[u8], answer: &[u8]) {
        if self.stopped() {
            return;
        }
        if C::opens(op) {
            self.list.clear();
        }
        let case = Case {
            op,
            input: input.to_vec(),
        };
        self.list.push(case.clone());
        let sheet = self.sheet.clone();
        let checked = self
            .checker
            .check(original, &case, answer, &mut sheet.borrow_mut().table);
        self.found(checked);
        self.make_probe(original, None);
        self.make_other(original, &case);
    }
}

/// Makes an area's cases from a seed and compares each.
pub fn watch<C: Checker>(sheet: &Shared, seed: u64, make: impl Fn(&mut Recorder<C::Original>)) {
    let watch = Watch {
        checker: C::default(),
        random: Random::new(seed ^ 0x5eed),
        others: Random::new(seed ^ 0xc0de),
        neither: Random::new(seed ^ 0x0b11),
        list: Vec::new(),
        sheet: sheet.clone(),
    };
    let mut recorder = Recorder::watched(C::original(), seed, Box::new(watch));
    make(&mut recorder);
}

/// Plays a list anew on both sides: how they differ, if they do. A list that the original cannot play (a ticket that was never offered, a
/// number that names no case) shows no difference.
pub fn replay<C: Checker>(list: &[Case]) -> Option<(usize, String)> {
    if !list.first().is_some_and(|case| C::opens(case.op)) {
        return None;
    }
    let played = panic::catch_unwind(AssertUnwindSafe(|| {
        let mut original = C::original();
        let mut checker = C::default();
        let mut table = Table::default();
        for (place, case) in list.iter().enumerate() {
            let checked = if case.op >= FIRST_PROBE {
                checker.probe(&mut original, case, &mut table)
            } else {
                let answer = original.play(case.op, &case.input);
                checker.check(&mut original, case, &answer, &mut table)
            };
            if let Err(what) = checked {
                return Some((place, what));
            }
        }
        None
    }));
    played.ok().flatten()
}

/// Says how two buffers differ: the first octet that does, and what it is and should be.
pub fn same(name: &str, found: &[u8], expected: &[u8]) -> Checked {
    if found == expected {
        return Ok(());
    }
    let place = found.iter().zip(expected).position(|(a, b)| a != b);
    match place {
        Some(place) => Err(format!(
            "{name}: octet {place} is {:02x}, the original has {:02x}",
            found[place], expected[place]
        )),
        None => Err(format!(
            "{name}: {} octets, the original has {}",
            found.len(),
            expected.len()
        )),
    }
}

/// The words of a comparison in which document 02 is the judge.
pub fn by_document_02(what: String) -> String {
    what.replace("the original", "document 02")
}

/// Says how the figures of a map differ from those that the driver has counted.
pub fn same_figures(found: &[u8], counted: &[u8]) -> Checked {
    if found == counted {
        return Ok(());
    }
    let said = |octets: &[u8]| {
        let mut take = Take(octets);
        format!("{} missing, first {}", take.take16(), take.take16())
    };
    Err(format!(
        "figures: {}; counted: {}",
        said(found),
        said(counted)
    ))
}

/// Says how two given numbers differ.
pub fn same_given(found: u32, expected: u32) -> Checked {
    if found == expected {
        return Ok(());
    }
    let name = |given: u32| match (given, given / 256, given % 256) {
        (0, ..) => "done".to_owned(),
        (1, ..) => "nothing".to_owned(),
        (_, n, 0) => format!("refusal {n}"),
        (_, n, m) => format!("refusal {n}/{m}"),
    };
    Err(format!(
        "the port gives {}, the original {}",
        name(found),
        name(expected)
    ))
}

/// The number that a refusal is given by.
pub fn number((n, m): Refusal) -> u32 {
    256 * u32::from(n) + u32::from(m)
}

/// The number that a recorded answer stands for.
pub fn given(answer: &[u8]) -> u32 {
    match answer {
        [1, n, m, ..] => number((*n, *m)),
        _ => 0,
    }
}
