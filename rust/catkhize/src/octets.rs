//! Numbers in octets, highest first. Reading past the end gives 0, writing past the end writes nothing: no input stops the program.

/// Reads fields from left to right.
pub(crate) struct Take<'a>(pub &'a [u8]);

impl<'a> Take<'a> {
    pub fn at(octets: &'a [u8], offset: usize) -> Self {
        Self(octets.get(offset..).unwrap_or(&[]))
    }

    pub fn octets(&mut self, count: usize) -> &'a [u8] {
        let (taken, rest) = self.0.split_at(count.min(self.0.len()));
        self.0 = rest;
        taken
    }

    fn number(&mut self, count: usize) -> u64 {
        self.octets(count)
            .iter()
            .fold(0, |value, octet| value << 8 | u64::from(*octet))
    }

    pub fn take8(&mut self) -> u8 {
        self.number(1) as u8
    }

    pub fn take16(&mut self) -> u16 {
        self.number(2) as u16
    }

    pub fn take32(&mut self) -> u32 {
        self.number(4) as u32
    }

    pub fn take64(&mut self) -> u64 {
        self.number(8)
    }

    pub fn flag(&mut self) -> bool {
        self.take8() != 0
    }
}

/// Writes fields from left to right.
pub(crate) struct Put<'a>(pub &'a mut [u8]);

impl Put<'_> {
    pub fn octets(&mut self, octets: &[u8]) {
        let room = std::mem::take(&mut self.0);
        let (place, rest) = room.split_at_mut(octets.len().min(room.len()));
        place.copy_from_slice(octets.get(..place.len()).unwrap_or(&[]));
        self.0 = rest;
    }

    pub fn put8(&mut self, value: u8) {
        self.octets(&[value]);
    }

    pub fn flag(&mut self, value: bool) {
        self.put8(u8::from(value));
    }

    pub fn put16(&mut self, value: u16) {
        self.octets(&value.to_be_bytes());
    }

    pub fn put32(&mut self, value: u32) {
        self.octets(&value.to_be_bytes());
    }

    pub fn put64(&mut self, value: u64) {
        self.octets(&value.to_be_bytes());
    }
}

/// The part of `octets` that begins at `offset` and has `count` octets, if there is one.
pub(crate) fn part(octets: &[u8], offset: u64, count: u64) -> Option<&[u8]> {
    let start = usize::try_from(offset).ok()?;
    let end = start.checked_add(usize::try_from(count).ok()?)?;
    octets.get(start..end)
}
