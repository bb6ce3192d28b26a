//! Corners of the receiver: document 01's, the order and the boundaries of its refusals, and what each call leaves, run on hand-made calls.

pub mod arrivals;
pub mod bench;
mod even;
mod figures;
mod impossible;
mod made;
mod marked;
mod one_call;
mod orders;
mod profiles;
pub mod record;
mod refusals;
mod release;
mod repeats;
pub mod rows;
mod slots;
mod timing;
mod trains;
mod windows;

use crate::tally::Tally;

pub fn corners(tally: &mut Tally) {
    marked::corners(tally);
    timing::corners(tally);
    repeats::corners(tally);
    slots::corners(tally);
    made::corners(tally);
    refusals::corners(tally);
    impossible::corners(tally);
    windows::corners(tally);
    figures::corners(tally);
    trains::corners(tally);
    even::corners(tally);
    orders::corners(tally);
    release::corners(tally);
    profiles::corners(tally);
    one_call::corners(tally);
}
