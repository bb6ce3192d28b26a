//! Bench profiles (document 02, 2026-11). The original has none: it waits as profile 1 does, and in the driver of profile 2, where that
//! one's two figures stand in the place of its own, as profile 2 does. What there is beside a machine of that profile is judged by document
//! 02's words: makings under other profiles, and calls on records of neither.

use crate::spell::filled;
use crate::spells;
use crate::table::{
    Area, CODEC_AND_PROFILE, IDENTITY_AND_PROFILE, MADE_OTHERWISE, PLAN_AND_PROFILE, PROFILE_0,
    PROFILE_3, PROFILE_255, SERVICE_AND_PROFILE,
};
use crate::watch::{Case, Checked, by_document_02, same, same_given};
use record::octets::Put;
use record::profiles::PROFILE;
use record::random::Random;

/// Where the records of receivers and of senders have their profile: behind the version.
pub const IN_RECEIVER: usize = 15;
pub const IN_SENDER: usize = 14;

/// The known profile that is not the original's.
const OTHER: u8 = 3 - PROFILE;

/// The profiles of the probes and makings that are to be refused, beside any.
const NEITHER_ONES: [u8; 3] = [0, 3, 255];

const UNKNOWN: u32 = 256 * 64;

pub fn known(profile: u8) -> bool {
    profile == 1 || profile == 2
}

/// What a making gives under a profile, where under the original's it gives this number: 64 stands behind 30, 31 and the exports' own
/// refusals, and before what follows.
fn gives(profile: u8, given: u32) -> u32 {
    match given / 256 {
        30 | 31 | spells::TOO_SHORT.. => given,
        _ if known(profile) => given,
        _ => UNKNOWN,
    }
}

/// Makes a machine in a record, under a protocol's number and a profile.
type Make<'a> = dyn Fn(&mut [u8], u8, u8) -> u32 + 'a;

/// A making under the original's profile, to be made under others.
pub struct Making<'a> {
    pub make: Box<Make<'a>>,
    pub protocol: u8,
    /// What it gives, and the record that it leaves where that is 0.
    pub given: u32,
    pub made: &'a [u8],
    /// How long a record is, and where it has the profile.
    pub octets: usize,
    pub place: usize,
}

impl Making<'_> {
    /// The makings behind an opening, which has this input.
    pub fn check(&self, input: &[u8], area: &mut Area) -> Checked {
        let any = input
            .iter()
            .fold(0, |sum: u8, octet| sum.wrapping_add(*octet));
        for profile in [OTHER, any].into_iter().chain(NEITHER_ONES) {
            self.under(profile, area)?;
        }
        let unnamed = any.max(3);
        let (short, none) = (256 * spells::TOO_SHORT, 256 * spells::NAMES_NONE);
        self.one(self.octets - 1, unnamed, any, short, area)?;
        self.one(self.octets, unnamed, any, none, area)
    }

    pub fn under(&self, profile: u8, area: &mut Area) -> Checked {
        self.seen(profile, area);
        let expected = gives(profile, self.given);
        self.one(self.octets, self.protocol, profile, expected, area)
    }

    fn one(
        &self,
        octets: usize,
        protocol: u8,
        profile: u8,
        expected: u32,
        area: &mut Area,
    ) -> Checked {
        let mut record = filled(octets);
        let found = (self.make)(&mut record, protocol, profile);
        area.count(found);
        let mut left = filled(octets);
        if expected == 0 {
            left.copy_from_slice(&self.made[..octets]);
            left[self.place] = profile;
        }
        let judged =
            |what: String| format!("made under profile {profile}: {}", by_document_02(what));
        same_given(found, expected).map_err(judged)?;
        same("record", &record, &left).map_err(judged)
    }

    /// What a run has to see of makings.
    fn seen(&self, profile: u8, area: &mut Area) {
        let [zero, three, last] = NEITHER_ONES;
        let (unknown, refusal) = (!known(profile), self.given / 256);
        let refused = gives(profile, self.given) == UNKNOWN;
        for (seen, name) in [
            (refused && profile == zero, PROFILE_0),
            (refused && profile == three, PROFILE_3),
            (refused && profile == last, PROFILE_255),
            (unknown && refusal == 30, IDENTITY_AND_PROFILE),
            (unknown && refusal == 31, SERVICE_AND_PROFILE),
            (refused && (1..=8).contains(&refusal), CODEC_AND_PROFILE),
            (refused && refusal == 40, PLAN_AND_PROFILE),
            (profile == OTHER && self.given == 0, MADE_OTHERWISE),
        ] {
            if seen {
                area.input(name);
            }
        }
    }
}

/// The probe: a call on the record with another octet for its profile. Profile, lengths of the buffers, 0, then the call.
pub const NEITHER: u8 = 0x86;

/// One call in about so many is made on a record of neither profile too.
const CALLS: usize = 8;

pub fn any_neither(random: &mut Random, next: &Case) -> Option<Case> {
    if !random.once_in(CALLS) {
        return None;
    }
    let [zero, three, last] = NEITHER_ONES;
    let any = random.octet();
    let mut input = Vec::new();
    input.put64(random.pick(&[zero, three, last, any]).into());
    input.put64(random.below(10) as u64);
    input.put64(0);
    input.put8(next.op);
    input.put_all(&next.input);
    Some(Case { op: NEITHER, input })
}
