//! The codec's corners of document 01, and the boundary of each of its refusals.

mod reading;
mod writing;

use crate::tally::Tally;

pub fn corners(tally: &mut Tally) {
    reading::corners(tally);
    writing::corners(tally);
}
