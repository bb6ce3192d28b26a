//! The bench profiles (document 02, 2026-11): how long a receiver and a sender of each wait, in milliseconds. Profile 1's figures are those
//! of the original. (bts136/build.rs reads this file too.)

pub struct Waits {
    pub receiver: u64,
    pub sender: u64,
}

pub const PROFILE_1: Waits = Waits {
    receiver: 300_000,
    sender: 330_000,
};
pub const PROFILE_2: Waits = Waits {
    receiver: 120_000,
    sender: 150_000,
};

/// The profile of the original's machines, and how long they wait. With the feature `profile_2` the original has that one's figures; the
/// recorded lists are made without it.
pub const PROFILE: u8 = if cfg!(feature = "profile_2") { 2 } else { 1 };
pub const WAITS: Waits = if cfg!(feature = "profile_2") {
    PROFILE_2
} else {
    PROFILE_1
};
