//! The recorder's parts, which the differential driver uses too: what plays a case on the original, and what makes the cases.

pub mod fields;
pub mod list;
pub mod make;
pub mod octets;
pub mod play;
pub mod profiles;
pub mod random;
pub mod refusals;
pub mod tokens;
