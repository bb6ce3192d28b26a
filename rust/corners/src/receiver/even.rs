//! Trains of plan_even, frozen ones under Exceptions and converted ones, through a receiver: the Begin, then the End, then the others, of which the
//! last one hands the message over.

use super::arrivals::{arrivals, frozen, message, planned};
use super::bench::run;
use super::rows::TRANSACTION;
use crate::dialects::{self, BOTH, EMPTY, ROOM, THREE, TWO, WINDOWS};
use crate::even::all;
use crate::exceptions;
use crate::plan::proposal::Proposal;
use crate::plan::{Heads, wrong_part};
use crate::tally::{Group, Tally};
use catkhize::AcknowledgmentWindow::{self, Exceptions};
use catkhize::{Dialect, calls};

/// Converting a train gives the segments that are then received.
fn converted(g: &mut Group, train: Heads, read: Dialect, heads: Heads) {
    let (given, plan) = Proposal::new(train, &message(heads), ROOM).convert(read as u8);
    g.case((given, wrong_part(&plan, heads)), (0, None));
}

/// The segments of a train that asks for a window.
fn deliver(g: &mut Group, heads: Heads, asked: AcknowledgmentWindow) {
    let last = (heads.len() - 1) as u8;
    let order: Vec<u8> = [0, last].into_iter().chain(1..last).collect();
    run(g, &[&arrivals(heads, asked, &order)]);
}

/// A train that was converted into either dialect.
fn converted_train(g: &mut Group, cutting: dialects::Cutting) {
    for (read, written) in BOTH {
        let [train, heads] = [read, written].map(|d| cutting.heads(TRANSACTION, d));
        converted(g, &train, read, &heads);
        deliver(g, &heads, cutting.window);
    }
}

/// Each of them, and short ones under every window.
fn converted_trains(g: &mut Group) {
    for cutting in dialects::ALL {
        converted_train(g, cutting);
    }
    for window in WINDOWS {
        for cutting in [EMPTY, TWO, THREE] {
            converted_train(g, cutting.under(window));
        }
    }
}

pub fn corners(tally: &mut Tally) {
    tally.group("receiver: even trains, the End behind the Begin", |g| {
        for even in all() {
            let heads = even.heads(TRANSACTION);
            planned(g, calls::plan_even, even.budget, even.window, &heads);
            deliver(g, &heads, even.window);
        }
    });
    let title = "receiver: frozen trains under Exceptions, the End behind the Begin";
    tally.group(title, |g| {
        for cutting in exceptions::ALL {
            let heads = cutting.heads(TRANSACTION);
            frozen(g, cutting.budget, &heads);
            deliver(g, &heads, Exceptions);
        }
    });
    let title = "receiver: converted trains, the End behind the Begin";
    tally.group(title, converted_trains);
}
