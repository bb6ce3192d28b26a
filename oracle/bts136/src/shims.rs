//! What the files of docs/src lean on and what is not at hand. Document 01 ('The text in hand
//! lacks some definitions') says what each name means.

pub mod broadcast {
    /// A version is a number.
    #[derive(Debug, Clone, Copy, PartialEq, Eq)]
    pub struct ProtocolVersion(pub u8);

    #[allow(non_upper_case_globals)]
    impl ProtocolVersion {
        pub const Pv1: Self = Self(1);
        pub const Pv5: Self = Self(5);

        pub fn code(self) -> u8 {
            self.0
        }
    }
}

pub mod relay {
    use std::{cell::Cell, cmp::Ordering};

    thread_local! {
        static CEILING: Cell<usize> = const { Cell::new(0) };
    }

    /// The original has a number here. This type has no value of its own: a comparison with it
    /// reads the ceiling that `set_ceiling` left, so that the ceiling can change between calls.
    pub struct Ceiling;

    pub const MAX_DATA_PAYLOAD_OCTETS: Ceiling = Ceiling;

    pub fn set_ceiling(octets: usize) {
        CEILING.set(octets);
    }

    impl PartialEq<Ceiling> for usize {
        fn eq(&self, _: &Ceiling) -> bool {
            *self == CEILING.get()
        }
    }

    impl PartialOrd<Ceiling> for usize {
        fn partial_cmp(&self, _: &Ceiling) -> Option<Ordering> {
            self.partial_cmp(&CEILING.get())
        }
    }

    #[derive(Debug, Clone, Copy, PartialEq, Eq)]
    pub enum HigherLayerProtocol {
        Segmented(u8),
        CarrierSpecific(u8),
        /// Any protocol that the machines do not serve.
        Other(u8),
    }
}

pub mod rach {
    /// A peer is kind, width and value.
    #[derive(Debug, Clone, Copy, PartialEq, Eq)]
    pub struct MobileIdentity {
        pub kind: u8,
        pub width: u8,
        pub value: u64,
    }

    impl MobileIdentity {
        pub fn parts(&self) -> (u8, u8, u64) {
            (self.kind, self.width, self.value)
        }
    }
}

/// Only the wire codec of responses uses these names, and no list records that codec.
pub mod control_fields {
    const OCTET_BITS: usize = 8;

    #[derive(Debug, Clone, Copy, PartialEq, Eq)]
    pub enum Error {
        Truncated { needed: usize },
        Length,
        Protocol,
        MessageType,
        Field(&'static str),
    }

    pub struct Reader<'a> {
        pub bits: &'a [bool],
        pub offset: usize,
    }

    impl Reader<'_> {
        pub fn take(&mut self, count: usize) -> Result<u64, Error> {
            let end = self.offset + count;
            let taken = self
                .bits
                .get(self.offset..end)
                .ok_or(Error::Truncated { needed: end })?;
            self.offset = end;
            Ok(taken
                .iter()
                .fold(0, |value, bit| (value << 1) | u64::from(*bit)))
        }
    }

    pub fn bits(octets: &[u8]) -> Result<Vec<bool>, Error> {
        let each = |octet: &u8| {
            let octet = *octet;
            (0..OCTET_BITS)
                .rev()
                .map(move |bit| (octet >> bit) & 1 == 1)
        };
        Ok(octets.iter().flat_map(each).collect())
    }

    pub fn put(bits: &mut Vec<bool>, value: u64, width: usize) -> Result<(), Error> {
        if value >> width != 0 {
            return Err(Error::Field("value"));
        }
        bits.extend((0..width).rev().map(|bit| (value >> bit) & 1 == 1));
        Ok(())
    }

    pub fn pack(mut bits: Vec<bool>) -> Result<Vec<u8>, Error> {
        bits.resize(bits.len().next_multiple_of(OCTET_BITS), false);
        let octet = |group: &[bool]| {
            group
                .iter()
                .fold(0, |value, bit| (value << 1) | u8::from(*bit))
        };
        Ok(bits.chunks(OCTET_BITS).map(octet).collect())
    }
}
