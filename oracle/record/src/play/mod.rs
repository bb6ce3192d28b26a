//! From a case's input to its answer, by calling the original.

pub mod codec;
pub mod plan;
pub mod receiver;
pub mod sender;
