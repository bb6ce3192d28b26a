//! Numbers in octets, highest first, and the octets that a list names instead of holding them.

pub trait Put {
    fn put8(&mut self, value: u8);
    fn put16(&mut self, value: usize);
    fn put32(&mut self, value: usize);
    fn put64(&mut self, value: u64);
    fn put_all(&mut self, octets: &[u8]);
}

impl Put for Vec<u8> {
    fn put8(&mut self, value: u8) {
        self.push(value);
    }
    fn put16(&mut self, value: usize) {
        let value = u16::try_from(value).expect("the layout has 16 bits here");
        self.extend(value.to_be_bytes());
    }
    fn put32(&mut self, value: usize) {
        let value = u32::try_from(value).expect("the layout has 32 bits here");
        self.extend(value.to_be_bytes());
    }
    fn put64(&mut self, value: u64) {
        self.extend(value.to_be_bytes());
    }
    fn put_all(&mut self, octets: &[u8]) {
        self.extend_from_slice(octets);
    }
}

/// Reads a case's input from left to right. A cut input stops the program.
pub struct Take<'a>(pub &'a [u8]);

impl<'a> Take<'a> {
    pub fn octets(&mut self, count: usize) -> &'a [u8] {
        let (taken, rest) = self.0.split_at(count);
        self.0 = rest;
        taken
    }
    fn number(&mut self, count: usize) -> u64 {
        let append = |value, octet: &u8| (value << 8) | u64::from(*octet);
        self.octets(count).iter().fold(0, append)
    }
    pub fn take8(&mut self) -> u8 {
        self.number(1) as u8
    }
    pub fn take16(&mut self) -> usize {
        self.number(2) as usize
    }
    pub fn take32(&mut self) -> usize {
        self.number(4) as usize
    }
    pub fn take64(&mut self) -> u64 {
        self.number(8)
    }
    pub fn flag(&mut self) -> bool {
        match self.take8() {
            0 => false,
            1 => true,
            other => panic!("flag {other}"),
        }
    }
    pub fn rest(&mut self) -> &'a [u8] {
        self.octets(self.0.len())
    }
}

/// Octet i of a message or of data with seed s is (s + 7 i + i / 256) mod 256.
pub fn pattern(length: usize, seed: u8) -> Vec<u8> {
    let octet = |index| (usize::from(seed) + 7 * index + index / 256) as u8;
    (0..length).map(octet).collect()
}

/// The pattern with the octet at `position` changed by exclusive or, where there is such an octet.
pub fn patched(length: usize, seed: u8, position: usize, change: u8) -> Vec<u8> {
    let mut octets = pattern(length, seed);
    if let Some(octet) = octets.get_mut(position) {
        *octet ^= change;
    }
    octets
}

/// Adler-32 as RFC 1950 defines it.
pub fn adler32(octets: &[u8]) -> usize {
    const MODULUS: usize = 65_521;
    let (low, high) = octets.iter().fold((1, 0), |(low, high), octet| {
        let low = (low + usize::from(*octet)) % MODULUS;
        (low, (high + low) % MODULUS)
    });
    (high << 16) | low
}
