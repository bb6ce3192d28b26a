//! The codec's reading and the receiver as plain Rust: fixed arrays, a receiver by value and handed back, the checks of document 01, 62
//! included, and no proof. It is what the proved code is measured against, and no part of the port.

pub mod codec;
pub mod receiver;
pub mod train;
pub mod words;
