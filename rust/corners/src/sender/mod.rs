//! The sender's corners of document 01, the boundary of each of its refusals, and records made by hand.

pub mod bench;
mod closing;
mod deadline;
mod dialects;
mod even;
mod exceptions;
mod impossible;
mod lower_layer;
mod making;
mod maps;
mod offers;
mod order;
mod outcome;
pub mod plan;
mod plans;
mod profiles;
mod record;
mod response;
mod statuses;
mod submitting;
mod tickets;

use crate::tally::Tally;

pub fn corners(tally: &mut Tally) {
    making::corners(tally);
    plans::corners(tally);
    even::corners(tally);
    exceptions::corners(tally);
    dialects::corners(tally);
    submitting::corners(tally);
    lower_layer::corners(tally);
    deadline::corners(tally);
    offers::corners(tally);
    statuses::corners(tally);
    maps::corners(tally);
    order::corners(tally);
    closing::corners(tally);
    tickets::corners(tally);
    impossible::corners(tally);
    profiles::corners(tally);
}
