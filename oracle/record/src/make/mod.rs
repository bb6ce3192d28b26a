//! The inputs of the lists: every corner of document 01, systematic lists and random ones.

pub mod codec;
pub mod frozen;
pub mod heads;
pub mod plan;
pub mod receiver;
pub mod receiver_run;
pub mod sender;
pub mod sender_run;
pub mod trains;
