//! Little-endian numbers taken from bytes.

pub struct Source {
    bytes: Vec<u8>,
    next: usize,
}

impl Source {
    pub fn new(bytes: Vec<u8>) -> Self {
        Self { bytes, next: 0 }
    }

    pub fn take(&mut self, count: usize) -> Option<Vec<u8>> {
        let part = self.bytes.get(self.next..self.next + count)?.to_vec();
        self.next += count;
        Some(part)
    }

    pub fn u8(&mut self) -> Option<u8> {
        self.take(1).map(|part| part[0])
    }

    pub fn u16(&mut self) -> Option<u16> {
        let part = self.take(2)?;
        Some(u16::from_le_bytes([part[0], part[1]]))
    }

    pub fn u32(&mut self) -> Option<u32> {
        let part = self.take(4)?;
        Some(u32::from_le_bytes(part.try_into().ok()?))
    }

    pub fn u64(&mut self) -> Option<u64> {
        let part = self.take(8)?;
        Some(u64::from_le_bytes(part.try_into().ok()?))
    }
}
