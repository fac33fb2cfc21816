//! The bits of a packet. The first bit is the most significant of byte 0.

/// Why and where reading stopped: the number of the refusal and the bit place
/// of the first bit of the field at fault.
#[derive(Clone, Copy, Debug, PartialEq, Eq)]
pub struct Fault {
    /// The number of the refusal.
    pub number: u32,
    /// The bit place of the field's first bit.
    pub place: u64,
}

/// A packet and the place of the next bit.
pub struct BitReader<'a> {
    packet: &'a [u8],
    place: u64,
}

impl<'a> BitReader<'a> {
    /// A reader at the packet's first bit.
    pub fn new(packet: &'a [u8]) -> BitReader<'a> {
        BitReader { packet, place: 0 }
    }

    /// The place of the next bit.
    pub fn place(&self) -> u64 {
        self.place
    }

    /// The bit at a place, or none behind the end.
    fn bit(&self, place: u64) -> Option<u64> {
        let byte = self.packet.get(usize::try_from(place / 8).ok()?)?;
        Some(u64::from(byte >> (7 - place % 8) & 1))
    }

    /// The next 32 bits without reading them; behind the end there are zeros.
    pub fn next_32(&self) -> u32 {
        let byte = |i: u64| {
            let index = usize::try_from(self.place / 8 + i).ok();
            let byte = index.and_then(|index| self.packet.get(index));
            u64::from(byte.copied().unwrap_or(0))
        };
        let five = (0..5).fold(0, |bytes, i| bytes << 8 | byte(i));
        (five >> (8 - self.place % 8)) as u32
    }

    /// A field of this width. A read that passes the end is number 4.
    pub fn read(&mut self, width: u32) -> Result<u64, Fault> {
        let first = self.place;
        let mut value = 0;
        for place in first..first + u64::from(width) {
            let bit = self.bit(place).ok_or(Fault {
                number: 4,
                place: first,
            })?;
            value = 2 * value + bit;
        }
        self.place = first + u64::from(width);
        Ok(value)
    }

    /// A field that is judged at once: refused by this number if it is not good.
    pub fn read_judged(
        &mut self,
        width: u32,
        number: u32,
        good: impl FnOnce(u64) -> bool,
    ) -> Result<u64, Fault> {
        let place = self.place;
        let value = self.read(width)?;
        if good(value) {
            Ok(value)
        } else {
            Err(Fault { number, place })
        }
    }
}

#[cfg(test)]
mod tests {
    use super::*;

    #[test]
    fn most_significant_bit_first() {
        let mut reader = BitReader::new(&[0xB1]);
        assert_eq!(reader.read(3), Ok(5));
        assert_eq!(reader.read(5), Ok(17));
    }

    #[test]
    fn zero_bits_are_zero_even_at_the_very_end() {
        let mut reader = BitReader::new(&[0xFF]);
        assert_eq!(reader.read(8), Ok(255));
        assert_eq!(reader.read(0), Ok(0));
        assert_eq!(BitReader::new(&[]).read(0), Ok(0));
    }

    #[test]
    fn a_read_past_the_end_is_4_at_its_first_bit() {
        let mut reader = BitReader::new(&[0xFF, 0xFF]);
        assert_eq!(reader.read(5), Ok(31));
        let fault = Fault {
            number: 4,
            place: 5,
        };
        assert_eq!(reader.read(12), Err(fault));
        assert_eq!(reader.read_judged(12, 5, |_| false), Err(fault));
    }

    #[test]
    fn looking_ahead_reads_nothing() {
        let mut reader = BitReader::new(&[0x12, 0x34, 0x56, 0x78, 0x9A]);
        assert_eq!(reader.next_32(), 0x1234_5678);
        reader.read(4).unwrap();
        assert_eq!((reader.next_32(), reader.place()), (0x2345_6789, 4));
        reader.read(21).unwrap();
        assert_eq!(reader.next_32(), 0xF134_0000);
    }

    #[test]
    fn fields_go_over_bytes() {
        let mut reader = BitReader::new(&[0x12, 0x34, 0x56, 0x78, 0x9A]);
        assert_eq!(reader.read(4), Ok(1));
        assert_eq!(reader.read(32), Ok(0x2345_6789));
        let fault = Fault {
            number: 6,
            place: 36,
        };
        assert_eq!(reader.read_judged(4, 6, |value| value != 0xA), Err(fault));
    }
}
