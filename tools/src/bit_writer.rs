//! Fields written bit by bit.

/// Bytes that are filled from their most significant bit on.
#[derive(Clone, Debug, Default)]
pub struct BitWriter {
    bytes: Vec<u8>,
    length: u64,
}

impl BitWriter {
    /// Appends a field, its most significant bit first.
    pub fn put(&mut self, value: u64, width: u32) {
        for i in (0..width).rev() {
            let free = 7 - self.length % 8;
            if free == 7 {
                self.bytes.push(0);
            }
            let last = self.bytes.len() - 1;
            self.bytes[last] |= ((value >> i & 1) as u8) << free;
            self.length += 1;
        }
    }

    /// Appends bytes, each in 8 bits.
    pub fn put_bytes(&mut self, bytes: &[u8]) {
        for byte in bytes {
            self.put(u64::from(*byte), 8);
        }
    }

    /// How many bits there are.
    pub fn length(&self) -> u64 {
        self.length
    }

    /// The bytes; the last one is filled up with zeros.
    pub fn bytes(&self) -> &[u8] {
        &self.bytes
    }

    /// The bytes; the last one is filled up with zeros.
    pub fn into_bytes(self) -> Vec<u8> {
        self.bytes
    }
}

#[cfg(test)]
mod tests {
    use super::*;

    #[test]
    fn fields_follow_on() {
        let mut bits = BitWriter::default();
        bits.put(5, 3);
        bits.put(0, 0);
        bits.put(0x11, 5);
        bits.put(1, 1);
        assert_eq!((bits.bytes(), bits.length()), (&[0xB1, 0x80][..], 9));
        bits.put_bytes(&[0xFF, 1]);
        assert_eq!(bits.into_bytes(), [0xB1, 0xFF, 0x80, 0x80]);
    }
}
