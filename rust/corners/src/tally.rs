//! Counting cases: a line for each group.

use std::fmt::Debug;

/// Of so many cases of a group that differ both sides are printed; the rest are only counted.
const SHOWN: u64 = 5;

/// What all groups together came to.
#[derive(Default)]
pub struct Tally {
    pub differ: u64,
}

/// The cases of one group.
#[derive(Default)]
pub struct Group {
    cases: u64,
    differ: u64,
}

impl Tally {
    /// Runs the cases of a group and prints its line.
    pub fn group(&mut self, title: &str, cases: impl FnOnce(&mut Group)) {
        let mut group = Group::default();
        cases(&mut group);
        let Group { cases, differ } = group;
        println!(
            "{title}: {cases} cases, {} same, {differ} differ",
            cases - differ
        );
        self.differ += differ;
    }
}

impl Group {
    /// A case: what a call gave is what it had to give.
    pub fn case<T: PartialEq + Debug>(&mut self, given: T, wanted: T) {
        self.cases += 1;
        if given == wanted {
            return;
        }
        self.differ += 1;
        if self.differ <= SHOWN {
            println!("  case {}: given {given:?}, wanted {wanted:?}", self.cases);
        }
    }
}
