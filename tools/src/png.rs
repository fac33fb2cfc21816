//! Pictures as PNG files. The samples are stored as they are: nothing is
//! packed, and every program that reads PNG reads them.

use std::io::{self, Write};

/// The most bytes of a stored block.
const BLOCK: usize = 65_535;

/// What the samples of a pixel are.
#[derive(Clone, Copy)]
pub enum Samples {
    /// One.
    Grey,
    /// Red, green and blue.
    Colour,
}

/// Writes a picture of these rows, the highest first, each of so many pixels.
pub fn write(
    out: &mut dyn Write,
    samples: Samples,
    width: usize,
    rows: &[&[u8]],
) -> io::Result<()> {
    let colour_type = match samples {
        Samples::Grey => 0,
        Samples::Colour => 2,
    };
    let mut header = Vec::new();
    // A frame that was decoded is less than 2^20 samples wide and high.
    header.extend((width as u32).to_be_bytes());
    header.extend((rows.len() as u32).to_be_bytes());
    // 8 bits a sample, the only ways of packing and filtering, no interlace.
    header.extend([8, colour_type, 0, 0, 0]);
    out.write_all(b"\x89PNG\r\n\x1A\n")?;
    write_chunk(out, b"IHDR", &header)?;
    // Each row begins with its filter: none.
    let samples: Vec<u8> = rows.iter().flat_map(|row| [&[0], *row].concat()).collect();
    for part in parts(&samples) {
        write_chunk(out, b"IDAT", &part)?;
    }
    write_chunk(out, b"IEND", &[])
}

/// The samples as a zlib stream of stored blocks, in parts.
fn parts(samples: &[u8]) -> Vec<Vec<u8>> {
    let count = samples.len().div_ceil(BLOCK).max(1);
    let mut parts = vec![vec![0x78, 0x01]];
    for (number, block) in samples.chunks(BLOCK).enumerate() {
        let length = block.len() as u16;
        let head = [
            &[u8::from(number + 1 == count)],
            &length.to_le_bytes()[..],
            &(!length).to_le_bytes(),
        ];
        parts.push([&head.concat(), block].concat());
    }
    parts.push(adler(samples).to_be_bytes().to_vec());
    parts
}

/// A chunk: its length, name, bytes and check.
fn write_chunk(out: &mut dyn Write, name: &[u8; 4], bytes: &[u8]) -> io::Result<()> {
    let named = [name, bytes].concat();
    out.write_all(&(bytes.len() as u32).to_be_bytes())?;
    out.write_all(&named)?;
    out.write_all(&crc(&named).to_be_bytes())
}

/// CRC-32 as PNG has it.
fn crc(bytes: &[u8]) -> u32 {
    let step = |crc: u32, _: u32| match crc & 1 {
        0 => crc >> 1,
        _ => crc >> 1 ^ 0xEDB8_8320,
    };
    !bytes.iter().fold(!0, |crc: u32, byte| {
        (0..8).fold(crc ^ u32::from(*byte), step)
    })
}

/// Adler-32, the check of a zlib stream.
fn adler(bytes: &[u8]) -> u32 {
    const MODULUS: u32 = 65_521;
    let (low, high) = bytes.iter().fold((1, 0), |(low, high), byte| {
        let low = (low + u32::from(*byte)) % MODULUS;
        (low, (high + low) % MODULUS)
    });
    high << 16 | low
}

#[cfg(test)]
mod tests {
    use super::*;

    #[test]
    fn published_checks() {
        assert_eq!(crc(b"123456789"), 0xCBF4_3926);
        assert_eq!(crc(b"IEND"), 0xAE42_6082);
        assert_eq!(adler(b"Wikipedia"), 0x11E6_0398);
    }

    #[test]
    fn blocks_hold_all_samples() {
        for length in [0, 1, BLOCK, BLOCK + 1, 3 * BLOCK] {
            let samples: Vec<u8> = (0..length).map(|i| i as u8).collect();
            let parts = parts(&samples);
            let blocks = &parts[1..parts.len() - 1];
            let stored: Vec<u8> = blocks.iter().flat_map(|part| part[5..].to_vec()).collect();
            assert_eq!(stored, samples);
            let last: Vec<bool> = blocks.iter().map(|part| part[0] == 1).collect();
            assert!(last.iter().rev().skip(1).all(|last| !last));
            assert!(length == 0 || last.last() == Some(&true));
        }
    }

    #[test]
    fn a_small_picture() {
        let mut file = Vec::new();
        write(&mut file, Samples::Grey, 2, &[&[1, 2], &[3, 4]]).unwrap();
        assert_eq!(file[16..24], [0, 0, 0, 2, 0, 0, 0, 2]);
        let block = [1, 6, 0, 0xF9, 0xFF, 0, 1, 2, 0, 3, 4];
        assert!(file.windows(block.len()).any(|part| part == block));
    }

    #[test]
    fn a_small_picture_in_colour() {
        let mut file = Vec::new();
        write(&mut file, Samples::Colour, 1, &[&[1, 2, 3], &[4, 5, 6]]).unwrap();
        assert_eq!(file[16..29], [0, 0, 0, 1, 0, 0, 0, 2, 8, 2, 0, 0, 0]);
        let block = [1, 8, 0, 0xF7, 0xFF, 0, 1, 2, 3, 0, 4, 5, 6];
        assert!(file.windows(block.len()).any(|part| part == block));
    }
}
