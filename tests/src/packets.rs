//! Identification headers: valid, faulty, damaged, cut, extended, random.

use crate::check::{Difference, Tally};
use crate::damage::{Packet, cut_anywhere, damage_bit, damage_byte, extend, random_tail};
use crate::fields;
use crate::padding;
use crate::random::Random;
use crate::reference::bits::Fault;
use crate::reference::face::{Call, Identified, answer, identified};
use crate::reference::identification::LAYOUT;
use crate::reference::session::{Fields, SESSION_NUMBERS, WIDTHS};
use recording::bit_writer::BitWriter;
use std::fmt;

/// How many bytes a header has.
const HEADER_BYTES: usize = 42;

/// One packet out of so many is padded.
const PADDED: u64 = 16;

/// A header before it is written as bits.
struct Header {
    common: [u8; 9],
    fields: Fields,
    last_bits: u64,
}

impl Header {
    /// A header that is accepted.
    fn valid(random: &mut Random) -> Header {
        Header {
            common: *b"\x80theora\x03\x02",
            fields: fields::sound(random),
            last_bits: 0,
        }
    }

    /// Brings in one fault; several may be brought in one after the other.
    fn spoil(&mut self, random: &mut Random) {
        let fields = &mut self.fields;
        let byte = random.byte();
        match random.below(16) {
            0 => self.common[0] = random.pick(&[0, 0x7F, 0x81, 0x82, 0x83, 0xFF, byte]),
            1 => self.common[1 + random.index(6)] ^= 1 << random.below(8),
            2 => self.common[7] = random.pick(&[0, 2, 4, 0x83, byte]),
            3 => self.common[8] = random.pick(&[0, 1, 3, 0x82, byte]),
            4 => fields.fmbw = 0,
            5 => fields.fmbh = 0,
            6 => fields.picw = above(random, 16 * fields.fmbw, 24),
            7 => fields.pich = above(random, 16 * fields.fmbh, 24),
            8 | 9 => (fields.picw, fields.picx) = outside(random, 16 * fields.fmbw),
            10 | 11 => (fields.pich, fields.picy) = outside(random, 16 * fields.fmbh),
            12 => fields.frn = 0,
            13 => fields.frd = 0,
            14 => fields.pf = 1,
            _ => self.last_bits = 1 + random.below(7),
        }
    }

    /// The header's bytes, each field in its width.
    fn bytes(&self) -> Vec<u8> {
        let mut bits = BitWriter::default();
        for byte in self.common {
            bits.put(u64::from(byte), 8);
        }
        for (value, width) in self.fields.numbers().into_iter().zip(WIDTHS) {
            bits.put(value, width);
        }
        bits.put(self.last_bits, 3);
        bits.bytes().to_vec()
    }
}

/// A comment header without comments.
pub const COMMENT_HEADER: &[u8] = b"\x81theora\0\0\0\0\0\0\0\0";

/// The header of these fields.
pub fn header_of(fields: &Fields) -> Vec<u8> {
    let header = Header {
        common: *b"\x80theora\x03\x02",
        fields: fields.clone(),
        last_bits: 0,
    };
    header.bytes()
}

/// A number above a limit, within a width.
fn above(random: &mut Random, limit: u64, width: u32) -> u64 {
    let last = (1 << width) - 1;
    match random.below(3) {
        0 => limit + 1,
        1 => last,
        _ => limit + 1 + random.below(last - limit),
    }
}

/// A picture's side and an offset that is too large for it by little or much.
fn outside(random: &mut Random, whole: u64) -> (u64, u64) {
    let slack = random.below(255).min(whole);
    let offset = match random.below(2) {
        0 => slack + 1,
        _ => slack + 1 + random.below(255 - slack),
    };
    (whole - slack, offset)
}

/// One packet of the stream of tests.
fn packet(random: &mut Random) -> Packet {
    let mut header = Header::valid(random);
    for _ in 0..random.pick(&[0, 0, 0, 1, 1, 1, 2, 3]) {
        header.spoil(random);
    }
    let mut buffer = header.bytes();
    match random.below(16) {
        0..4 => {}
        4 => damage_bit(random, &mut buffer),
        5 => damage_byte(random, &mut buffer),
        6..9 => extend(random, &mut buffer, 40),
        9..12 => return cut_anywhere(random, buffer),
        12 => {
            damage_bit(random, &mut buffer);
            return cut_anywhere(random, buffer);
        }
        13 => random_tail(random, &mut buffer),
        14 => return random_packet(random),
        _ => {
            buffer = b"\x81theora".to_vec();
            extend(random, &mut buffer, 40);
        }
    }
    Packet::whole(buffer)
}

/// Random bytes, sometimes none.
fn random_packet(random: &mut Random) -> Packet {
    let buffer: Vec<u8> = (0..128).map(|_| random.byte()).collect();
    let length = random.index(101);
    Packet::cut(buffer, length)
}

/// What was compared.
pub struct Report {
    tally: Tally,
    /// Per field of `LAYOUT`: how often it was at fault by 2, 3, 4, 5, 6.
    faults: [[u64; 7]; LAYOUT.len()],
    /// Packets with bytes behind them.
    padded: padding::Counts,
}

impl Report {
    /// Nothing compared yet.
    pub fn new() -> Report {
        Report {
            tally: Tally::new(),
            faults: [[0; 7]; LAYOUT.len()],
            padded: padding::Counts::default(),
        }
    }

    /// Compares one packet, and for an accepted one the sizes of its session.
    pub fn compare(&mut self, packet: &[u8]) -> Result<(), Difference> {
        let left = self.compare_lengths(packet, SESSION_NUMBERS, 1)?;
        match (left.session, left.place) {
            (Some(session), _) => {
                let sizes = answer(Call::Sizes, &session, 16);
                self.tally.check(Call::Sizes, &session, 16, &sizes)
            }
            (None, place) => {
                self.count(Fault {
                    number: left.number,
                    place: place.expect("both lists have their lengths"),
                });
                Ok(())
            }
        }
    }

    /// Compares a packet with bytes behind it, and what it is without them.
    pub fn padded(&mut self, random: &mut Random, packet: &[u8]) -> Result<(), Difference> {
        let padded = self.padded.identification(random, packet);
        padded.map_err(|came| Difference::new("call:     wedgepetal_identification\n", &came))
    }

    /// Compares a packet with lists of these lengths for the session and the
    /// place.
    fn compare_lengths(
        &mut self,
        packet: &[u8],
        session: usize,
        place: usize,
    ) -> Result<Identified, Difference> {
        let expected = identified(packet, session, place);
        self.tally
            .check_identification(packet, [session, place], &expected)?;
        Ok(expected)
    }

    /// Counts a fault by its field and number.
    fn count(&mut self, fault: Fault) {
        let mut first = 0;
        for (index, (_, width)) in LAYOUT.into_iter().enumerate() {
            if first == fault.place {
                self.faults[index][fault.number as usize] += 1;
            }
            first += width;
        }
    }

    /// The faults that a packet can have and that none of these had.
    pub fn missed(&self) -> Vec<String> {
        let mut missed = Vec::new();
        if self.tally.of(0, 0) == 0 {
            missed.push("no header accepted".to_string());
        }
        for (index, (name, _)) in LAYOUT.into_iter().enumerate() {
            for number in possible(index) {
                if self.faults[index][number as usize] == 0 {
                    missed.push(format!("no {name} refused by {number}"));
                }
            }
        }
        missed.extend(self.padded.missed(padding::OF_IDENTIFICATION));
        missed
    }
}

/// The numbers by which the field with this index in `LAYOUT` can be refused.
fn possible(index: usize) -> Vec<u32> {
    let judged = match index {
        0..=6 => Some(2),
        7 | 8 => Some(3),
        10..=17 => Some(5),
        24 | 25 => Some(6),
        _ => None,
    };
    // PF and the last bits share their byte with KFGSHIFT's end: a packet
    // never ends at them.
    let cut = if index < 24 { Some(4) } else { None };
    judged.into_iter().chain(cut).collect()
}

impl fmt::Display for Report {
    fn fmt(&self, f: &mut fmt::Formatter<'_>) -> fmt::Result {
        write!(f, "{}", self.tally)?;
        writeln!(f, "  faults by field:")?;
        for ((name, _), counts) in LAYOUT.iter().zip(self.faults) {
            write!(f, "    {name:12}")?;
            for (number, count) in counts.into_iter().enumerate() {
                if count > 0 {
                    write!(f, " {number}: {count:<8}")?;
                }
            }
            writeln!(f)?;
        }
        write!(f, "{}", self.padded)
    }
}

/// Compares every single-bit change of a header at every cut, a very long
/// packet, then so many random packets.
pub fn compare(random: &mut Random, packets: u64) -> Result<Report, Difference> {
    let mut report = Report::new();
    every_bit_and_cut(random, &mut report)?;
    long_packet(random, &mut report)?;
    for _ in 0..packets {
        let packet = packet(random);
        report.compare(packet.bytes())?;
        if random.once_in(PADDED) {
            report.padded(random, packet.bytes())?;
        }
        if random.once_in(64) {
            let (session, place) = match random.below(3) {
                0 => (random.pick(&[0, 1, 17, 18, 20]), 1),
                1 => (SESSION_NUMBERS, random.pick(&[0, 2, 17])),
                _ => (random.pick(&[0, 1, 17, 18, 20]), random.pick(&[0, 2, 17])),
            };
            report.compare_lengths(packet.bytes(), session, place)?;
        }
    }
    Ok(report)
}

/// A header cut at each length.
pub fn every_cut(report: &mut Report, header: &[u8]) -> Result<(), Difference> {
    (0..=header.len()).try_for_each(|length| report.compare(&header[..length]))
}

/// One header, each of its bits flipped or none, cut at each length.
fn every_bit_and_cut(random: &mut Random, report: &mut Report) -> Result<(), Difference> {
    let header = Header::valid(random).bytes();
    every_cut(report, &header)?;
    for length in 0..=HEADER_BYTES {
        for bit in 0..8 * HEADER_BYTES {
            let mut damaged = header.clone();
            damaged[bit / 8] ^= 0x80 >> (bit % 8);
            report.compare(&damaged[..length])?;
        }
    }
    Ok(())
}

/// A header with zeros behind it, so many that the number of bits passes 32
/// bits. The zeros take no memory as long as nobody looks at them.
fn long_packet(random: &mut Random, report: &mut Report) -> Result<(), Difference> {
    let mut packet = vec![0; (1 << 29) + 5];
    packet[..HEADER_BYTES].copy_from_slice(&Header::valid(random).bytes());
    report.compare(&packet)?;
    packet[HEADER_BYTES - 1] |= 1;
    report.compare(&packet)
}

#[cfg(test)]
mod tests {
    use super::*;
    use crate::reference::identification::identification;

    #[test]
    fn valid_headers_read_back() {
        let mut random = Random::new(5);
        for _ in 0..5_000 {
            let header = Header::valid(&mut random);
            let bytes = header.bytes();
            assert_eq!(bytes.len(), HEADER_BYTES);
            assert_eq!(identification(&bytes), Ok(header.fields));
        }
    }

    #[test]
    fn most_spoilt_headers_are_refused() {
        let mut random = Random::new(6);
        let mut refused = 0;
        for _ in 0..5_000 {
            let mut header = Header::valid(&mut random);
            header.spoil(&mut random);
            refused += u64::from(identification(&header.bytes()).is_err());
        }
        assert!(refused > 4_900, "{refused}");
    }
}
