//! The two profiles of document 02 (2026-11): what the corners of receiver, sender and exchange share.

/// A profile: its number, and how many milliseconds a receiver and a sender that were made under it wait.
#[derive(Clone, Copy)]
pub struct Profile {
    pub number: u8,
    pub receiver: u64,
    pub sender: u64,
}

pub const ONE: Profile = Profile {
    number: 1,
    receiver: 300_000,
    sender: 330_000,
};

pub const TWO: Profile = Profile {
    number: 2,
    receiver: 120_000,
    sender: 150_000,
};

pub const BOTH: [Profile; 2] = [ONE, TWO];

/// Where the profile stands in RECEIVER and in SENDER.
pub const IN_RECEIVER: usize = 15;
pub const IN_SENDER: usize = 14;

/// How many octets RECEIVER and SENDER had without it.
pub const RECEIVER_BEFORE: usize = 3_930;
pub const SENDER_BEFORE: usize = 6_130;

/// A record as it was laid out without it, under layout version 1.
pub fn before(record: &[u8], profile_at: usize) -> Vec<u8> {
    let mut record = record.to_vec();
    record.remove(profile_at);
    record[0] = 1;
    record
}

/// Numbers of no profile: some, and all of them.
pub const NEITHER: [u8; 5] = [0, 3, 4, 128, 255];

pub fn all_neither() -> impl Iterator<Item = u8> {
    (0..=u8::MAX).filter(|number| numbered(*number).is_none())
}

impl Profile {
    /// The last reading from which a receiver can set a deadline.
    pub const fn latest_received(self) -> u64 {
        u64::MAX - self.receiver
    }

    /// The last queued reading from which a sender can.
    pub const fn latest_queued(self) -> u64 {
        u64::MAX - self.sender
    }
}

/// The profile of a number.
pub fn numbered(number: u8) -> Option<Profile> {
    BOTH.into_iter().find(|profile| profile.number == number)
}
