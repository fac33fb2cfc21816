//! Table memory: what a setup call leaves in it, and which table memories are
//! left by an accepted setup packet.

use super::setup::{Setup, SetupFault, setup};

/// The published length of table memory.
pub const TABLE_BYTES: usize = 28_184;

/// What a setup call leaves of a packet in table memory of the published
/// length: the bits that were read, from the packet's first, then zeros; all
/// zero if the packet is refused.
pub fn left_by(packet: &[u8], read: &Result<Setup, SetupFault>) -> Vec<u8> {
    let mut table = vec![0; TABLE_BYTES];
    if let Ok(setup) = read {
        let whole = (setup.bits / 8) as usize;
        let rest = setup.bits % 8;
        table[..whole].copy_from_slice(&packet[..whole]);
        if rest > 0 {
            table[whole] = packet[whole] & !(0xFF >> rest);
        }
    }
    table
}

/// What a table memory of the published length says, or nothing if no accepted
/// setup packet leaves it: it reads as an accepted setup packet, and every bit
/// behind the place reached is 0.
pub fn genuine(table: &[u8]) -> Option<Setup> {
    let read = setup(table).ok()?;
    let whole = (read.bits / 8) as usize;
    let behind = table[whole..].iter().enumerate().all(|(i, byte)| {
        let read_bits = if i == 0 { read.bits % 8 } else { 0 };
        byte & (0xFF >> read_bits) == 0
    });
    behind.then_some(read)
}

#[cfg(test)]
mod tests {
    use super::super::setup::tests::{begin, small};
    use super::*;

    #[test]
    fn bits_behind_the_place_reached_are_zero() {
        let header = small();
        let bits = header.length() as usize;
        assert_ne!(bits % 8, 0);
        let mut packet = header.bytes().to_vec();
        *packet.last_mut().unwrap() |= 1;
        packet.extend([0xFF; 30_000]);
        let table = left_by(&packet, &setup(&packet));
        assert_eq!(table.len(), TABLE_BYTES);
        assert_eq!(table[..header.bytes().len()], *header.bytes());
        assert!(table[header.bytes().len()..].iter().all(|byte| *byte == 0));
        assert_eq!(genuine(&table), setup(&packet).ok());
    }

    #[test]
    fn a_refused_packet_leaves_zeros_and_they_are_not_genuine() {
        let header = small();
        let packet = &header.bytes()[..100];
        let table = left_by(packet, &setup(packet));
        assert_eq!(table, vec![0; TABLE_BYTES]);
        assert_eq!(genuine(&table), None);
    }

    #[test]
    fn every_bit_behind_the_end_counts() {
        let header = small();
        let table = left_by(header.bytes(), &setup(header.bytes()));
        for bit in header.length() as usize..8 * TABLE_BYTES {
            if bit < 2000 || bit % 1999 == 0 || bit > 8 * TABLE_BYTES - 20 {
                let mut changed = table.clone();
                changed[bit / 8] ^= 0x80 >> (bit % 8);
                assert_eq!(genuine(&changed), None, "{bit}");
            }
        }
    }

    /// 384 matrices, six sets of 63 ranges, 80 trees of 32 leaves.
    #[test]
    fn the_longest_header_fits() {
        let mut bits = begin(383);
        for set in 0..6 {
            if set > 0 {
                bits.put(1, 1);
            }
            bits.put(383, 9);
            for qi in 0..63_u64 {
                bits.put(0, 64 - (62 - qi).leading_zeros());
                bits.put(383, 9);
            }
        }
        for _ in 0..80 {
            (0..31).for_each(|_| bits.put(0b0111111, 7));
            bits.put(0b111111, 6);
        }
        let read = setup(bits.bytes()).unwrap();
        assert_eq!(read.ranges[5].sizes, [1; 63]);
        assert_eq!(read.codes[79].len(), 32);
        // The limits could have 7 bits in place of 3, the DC scales 16 in place of 5.
        assert_eq!(bits.length() + 64 * 4 + 64 * 11, 222_371);
        let table = left_by(bits.bytes(), &Ok(read.clone()));
        assert_eq!(genuine(&table), Some(read));
    }
}
