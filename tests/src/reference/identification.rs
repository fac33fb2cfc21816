//! The identification header.

use super::bits::{BitReader, Fault};
use super::session::Fields;

/// The header's fields in reading order with their widths, for reports.
pub const LAYOUT: [(&str, u64); 26] = [
    ("type byte", 8),
    ("t", 8),
    ("h", 8),
    ("e", 8),
    ("o", 8),
    ("r", 8),
    ("a", 8),
    ("VMAJ", 8),
    ("VMIN", 8),
    ("VREV", 8),
    ("FMBW", 16),
    ("FMBH", 16),
    ("PICW", 24),
    ("PICH", 24),
    ("PICX", 8),
    ("PICY", 8),
    ("FRN", 32),
    ("FRD", 32),
    ("PARN", 24),
    ("PARD", 24),
    ("CS", 8),
    ("NOMBR", 24),
    ("QUAL", 6),
    ("KFGSHIFT", 5),
    ("PF", 2),
    ("3 last bits", 3),
];

/// Reads an identification header: its fields, or the first fault in reading order.
pub fn identification(packet: &[u8]) -> Result<Fields, Fault> {
    let mut bits = BitReader::new(packet);
    bits.read_judged(8, 2, |byte| byte == 0x80)?;
    for letter in *b"theora" {
        bits.read_judged(8, 2, |byte| byte == u64::from(letter))?;
    }
    bits.read_judged(8, 3, |vmaj| vmaj == 3)?;
    bits.read_judged(8, 3, |vmin| vmin == 2)?;
    let vrev = bits.read(8)?;
    let fmbw = bits.read_judged(16, 5, |fmbw| fmbw > 0)?;
    let fmbh = bits.read_judged(16, 5, |fmbh| fmbh > 0)?;
    let picw = bits.read_judged(24, 5, |picw| picw <= 16 * fmbw)?;
    let pich = bits.read_judged(24, 5, |pich| pich <= 16 * fmbh)?;
    let picx = bits.read_judged(8, 5, |picx| picx <= 16 * fmbw - picw)?;
    let picy = bits.read_judged(8, 5, |picy| picy <= 16 * fmbh - pich)?;
    let frn = bits.read_judged(32, 5, |frn| frn > 0)?;
    let frd = bits.read_judged(32, 5, |frd| frd > 0)?;
    let parn = bits.read(24)?;
    let pard = bits.read(24)?;
    let cs = bits.read(8)?;
    let nombr = bits.read(24)?;
    let qual = bits.read(6)?;
    let kfgshift = bits.read(5)?;
    let pf = bits.read_judged(2, 6, |pf| pf != 1)?;
    bits.read_judged(3, 6, |reserved| reserved == 0)?;
    Ok(Fields {
        vrev,
        fmbw,
        fmbh,
        picw,
        pich,
        picx,
        picy,
        frn,
        frd,
        parn,
        pard,
        cs,
        nombr,
        qual,
        kfgshift,
        pf,
    })
}

#[cfg(test)]
#[allow(clippy::unusual_byte_groupings)] // a group is a field
mod tests {
    use super::*;

    /// A header of 20 by 15 macro blocks, written by hand.
    #[rustfmt::skip]
    const HEADER: [u8; 42] = [
        0x80, b't', b'h', b'e', b'o', b'r', b'a',
        3, 2, 1,                     // version
        0, 20, 0, 15,                // frame size
        0, 1, 60, 0, 0, 230, 4, 10,  // picture 316 by 230 at (4, 10)
        0, 0, 0x75, 0x30,            // 30000 frames
        0, 0, 3, 0xE9,               // in 1001 seconds
        0, 0, 1, 0, 0, 2,            // aspect ratio
        7, 1, 2, 3,                  // colour space, bit rate
        0b101010_00, 0b110_11_000,   // quality 42, shift 6, 4:4:4
    ];

    fn fault(packet: &[u8]) -> (u32, u64) {
        let fault = identification(packet).unwrap_err();
        (fault.number, fault.place)
    }

    /// The header with one byte changed.
    fn changed(index: usize, byte: u8) -> [u8; 42] {
        let mut header = HEADER;
        header[index] = byte;
        header
    }

    #[test]
    fn fields_are_read_in_order() {
        let fields = identification(&HEADER).unwrap();
        let numbers = [
            1, 20, 15, 316, 230, 4, 10, 30000, 1001, 1, 2, 7, 66051, 42, 6, 3,
        ];
        assert_eq!(fields.numbers(), numbers);
        assert!(fields.sound());
    }

    #[test]
    fn layout_has_42_bytes() {
        let bits: u64 = LAYOUT.iter().map(|field| field.1).sum();
        assert_eq!(bits, 8 * 42);
    }

    #[test]
    fn later_bytes_are_ignored() {
        let mut long = HEADER.to_vec();
        long.extend([0xFF; 9]);
        assert_eq!(identification(&long), identification(&HEADER));
    }

    #[test]
    fn a_cut_header_is_4_at_the_cut_field() {
        let mut first = 0;
        for (_, width) in LAYOUT {
            for length in 0..42 {
                let bits = 8 * length as u64;
                if (first..first + width).contains(&bits) {
                    assert_eq!(fault(&HEADER[..length]), (4, first));
                }
            }
            first += width;
        }
        assert_eq!(fault(&[]), (4, 0));
        assert_eq!(fault(&HEADER[..41]), (4, 326));
    }

    #[test]
    fn each_field_has_its_number_and_place() {
        assert_eq!(fault(&changed(0, 0x81)), (2, 0));
        assert_eq!(fault(&changed(6, b'A')), (2, 48));
        assert_eq!(fault(&changed(7, 2)), (3, 56));
        assert_eq!(fault(&changed(8, 3)), (3, 64));
        assert!(identification(&changed(9, 255)).is_ok());
        assert_eq!(fault(&changed(11, 0)), (5, 80));
        assert_eq!(fault(&changed(13, 0)), (5, 96));
        assert_eq!(fault(&changed(16, 65)), (5, 112));
        assert_eq!(fault(&changed(19, 241)), (5, 136));
        assert_eq!(fault(&changed(20, 5)), (5, 160));
        assert_eq!(fault(&changed(21, 11)), (5, 168));
        assert_eq!(fault(&changed(41, 0b110_01_000)), (6, 331));
        assert_eq!(fault(&changed(41, 0b110_11_001)), (6, 333));
    }

    #[test]
    fn a_failing_read_is_4_before_it_is_judged() {
        assert_eq!(fault(&changed(11, 0)[..11]), (4, 80));
        assert_eq!(fault(&changed(11, 0)[..12]), (5, 80));
        assert_eq!(fault(&changed(0, 1)[..1]), (2, 0));
    }
}
