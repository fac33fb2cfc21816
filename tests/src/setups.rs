//! Setup packets: valid, damaged in a bit, a byte or a field, cut, extended,
//! with bad trees, random.

use crate::check::{Difference, List, SETUP, Tally, long_hex};
use crate::damage::overwrite;
use crate::damage::{
    Packet, cut_anywhere, cut_in_field, damage_bit, damage_byte, extend, random_tail,
};
use crate::padding;
use crate::random::Random;
use crate::reference::setup::{Field, Setup, SetupFault, setup};
use crate::reference::table_memory::{TABLE_BYTES, left_by};
use crate::setup_header::{Written, accepted, with_bad_tree};
use std::collections::BTreeMap;
use std::fmt;
use wedgepetal::lists;

/// Bytes before and after lent table memory, which no call may touch.
const GUARD: usize = 32;

/// The longest table memory that is lent.
const LONGEST: usize = 2 * TABLE_BYTES;

/// How many packets are made of one header.
const PACKETS_OF_A_HEADER: u64 = 16;

/// One packet out of so many is padded.
const PADDED: u64 = 16;

/// What was compared.
pub struct Report {
    tally: Tally,
    /// How often a field was at fault by a number.
    faults: BTreeMap<(Field, u32), u64>,
    /// The trees of accepted packets, by leaves and depth.
    trees: [[u64; 33]; 33],
    /// Packets with bytes behind them.
    padded: padding::Counts,
    /// Lent memory, and what lies in it before each call.
    memory: Vec<u8>,
    pattern: Vec<u8>,
}

impl Report {
    /// Nothing compared yet.
    pub fn new() -> Report {
        let pattern: Vec<u8> = (0..LONGEST + 2 * GUARD)
            .map(|i| (i * 167 + i / 256 + 91) as u8)
            .collect();
        Report {
            tally: Tally::new(),
            faults: BTreeMap::new(),
            trees: [[0; 33]; 33],
            padded: padding::Counts::default(),
            memory: pattern.clone(),
            pattern,
        }
    }

    /// Compares one packet.
    pub fn compare(&mut self, packet: &[u8]) -> Result<(), Difference> {
        self.compare_read(packet).map(drop)
    }

    /// Compares one packet; gives what it says, or its fault.
    pub fn compare_read(&mut self, packet: &[u8]) -> Result<Result<Setup, SetupFault>, Difference> {
        let read = setup(packet);
        let table = left_by(packet, &read);
        self.count(&read);
        let (number, place) = match &read {
            Ok(_) => (0, 0),
            Err(SetupFault { fault, .. }) => (fault.number, fault.place),
        };
        let lengths = [TABLE_BYTES, 1];
        self.call(packet, lengths, (number, Some(place)), Some(&table))?;
        Ok(read)
    }

    /// Compares a packet with bytes behind it, and what it is without them.
    pub fn padded(&mut self, random: &mut Random, packet: &[u8]) -> Result<(), Difference> {
        let padded = self.padded.setup(random, packet);
        padded.map_err(|came| Difference::new("call:     wedgepetal_setup\n", &came))
    }

    /// Compares one packet, and if a field of it is refused by 7 also what is
    /// left when the packet ends in that field or soon behind it: a field is
    /// judged before the next one is read.
    fn compare_and_cut(&mut self, packet: &[u8]) -> Result<(), Difference> {
        let Err(refused) = self.compare_read(packet)? else {
            return Ok(());
        };
        if refused.fault.number == 7 {
            let first = (refused.fault.place / 8) as usize;
            for length in first..packet.len().min(first + 3) {
                self.compare(&packet[..length])?;
            }
        }
        Ok(())
    }

    /// Compares a packet with a table memory or a list for the place of the
    /// wrong length. The place is 0, or not written.
    fn compare_lengths(&mut self, packet: &[u8], lengths: [usize; 2]) -> Result<(), Difference> {
        let place = (lengths[1] == 1).then_some(0);
        self.call(packet, lengths, (1, place), None)
    }

    /// Calls the library and compares its answer, table memory, the place and
    /// what lies around them with what is expected (none: untouched). The lengths
    /// are those of table memory and of the list for the place.
    fn call(
        &mut self,
        packet: &[u8],
        [length, place_length]: [usize; 2],
        (expected, expected_place): (u32, Option<u64>),
        table: Option<&[u8]>,
    ) -> Result<(), Difference> {
        let shown = length + 2 * GUARD;
        let lent = GUARD..GUARD + length;
        self.memory[..shown].copy_from_slice(&self.pattern[..shown]);
        let mut place = List::new(place_length);
        let number = lists::setup(packet, &mut self.memory[lent.clone()], place.lent());
        let wanted_place = expected_place.map(|place| [place]);
        let same_place = place.holds(wanted_place.as_ref().map(|list| &list[..]));
        let wanted = table.unwrap_or(&self.pattern[lent.clone()]);
        let around = self.memory[..GUARD] == self.pattern[..GUARD]
            && self.memory[lent.end..shown] == self.pattern[lent.end..shown];
        let same = self.memory[lent.clone()] == *wanted && around && same_place;
        if number != expected || !same {
            let given = format!(
                "call:     wedgepetal_setup\npacket:   {}\n\
                 table:    {length} bytes lent, place {place_length}\n",
                long_hex(packet)
            );
            let got = &self.memory[lent];
            let first = (0..length).find(|i| got[*i] != wanted[*i]);
            let came = format!(
                "expected: {expected}, place {expected_place:?}\n\
                 got:      {number}, place {}, first wrong byte {first:?}, around it {}\n",
                place.changes(),
                if around { "all well" } else { "MEMORY CHANGED" }
            );
            return Err(Difference::new(&given, &came));
        }
        self.tally.count(SETUP, number);
        Ok(())
    }

    /// Counts a fault by its field and number, and an accepted packet's trees.
    fn count(&mut self, read: &Result<Setup, SetupFault>) {
        match read {
            Err(SetupFault { fault, field }) => {
                *self.faults.entry((*field, fault.number)).or_default() += 1;
            }
            Ok(setup) => {
                for codes in &setup.codes {
                    let depth = codes.iter().map(|code| code.length).max().unwrap_or(0);
                    self.trees[codes.len()][depth] += 1;
                }
            }
        }
    }

    /// The faults that a packet can have and that none of these had.
    pub fn missed(&self) -> Vec<String> {
        let mut missed: Vec<String> = possible()
            .into_iter()
            .filter(|kind| !self.faults.contains_key(kind))
            .map(|(field, number)| format!("no {field:?} refused by {number}"))
            .collect();
        for (leaves, depth) in [(1, 0), (2, 1), (32, 31), (32, 5)] {
            if self.trees[leaves][depth] == 0 {
                missed.push(format!("no tree of {leaves} leaves and depth {depth}"));
            }
        }
        missed.extend(self.padded.missed(padding::OF_SETUP));
        missed
    }
}

/// Every field with the numbers by which it can be refused. The width of the AC
/// scales lies within a byte, so that a packet never ends at it.
fn possible() -> Vec<(Field, u32)> {
    let mut kinds = vec![
        (Field::TypeByte, 2),
        (Field::Letter, 2),
        (Field::Nbms, 7),
        (Field::Branch, 7),
        (Field::Leaf, 7),
    ];
    let plain = [
        Field::TypeByte,
        Field::Letter,
        Field::LimitWidth,
        Field::Limit,
        Field::AcScale,
        Field::DcWidth,
        Field::DcScale,
        Field::Nbms,
        Field::BaseValue,
        Field::LeafBit,
        Field::Token,
    ];
    kinds.extend(plain.map(|field| (field, 4)));
    for set in 0..6 {
        for judged in [
            Field::FirstIndex(set),
            Field::Size(set),
            Field::LaterIndex(set),
        ] {
            kinds.extend([(judged, 4), (judged, 7)]);
        }
        if set > 0 {
            kinds.push((Field::NewRanges(set), 4));
        }
        if set > 2 {
            kinds.push((Field::SamePlane(set), 4));
        }
    }
    kinds
}

impl fmt::Display for Report {
    fn fmt(&self, f: &mut fmt::Formatter<'_>) -> fmt::Result {
        write!(f, "{}", self.tally)?;
        writeln!(f, "  faults by field:")?;
        for ((field, number), count) in &self.faults {
            writeln!(f, "    {:16} {number}: {count}", format!("{field:?}"))?;
        }
        let trees: u64 = self.trees.iter().flatten().sum();
        let [lone, full, comb] = [
            self.trees[1][0],
            self.trees[32].iter().sum(),
            self.trees[32][31],
        ];
        writeln!(
            f,
            "  trees accepted: {trees}, {lone} lone leaves, {full} of 32 leaves, {comb} of depth 31"
        )?;
        write!(f, "{}", self.padded)
    }
}

/// Compares every cut of a few headers, every single-bit change of a small one
/// at many cuts, a very long packet, then so many random packets.
pub fn compare(random: &mut Random, packets: u64) -> Result<Report, Difference> {
    let mut report = Report::new();
    for small in [true, false, false] {
        every_cut(&mut report, accepted(random, small).bytes())?;
    }
    every_bit(random, &mut report)?;
    long_packet(random, &mut report)?;
    for _ in 0..packets.div_ceil(PACKETS_OF_A_HEADER) {
        of_one_header(random, &mut report)?;
    }
    Ok(report)
}

/// A header cut at each length; of one with many matrices not at all of them.
pub fn every_cut(report: &mut Report, header: &[u8]) -> Result<(), Difference> {
    let step = 1 + header.len() / 4096;
    for length in (0..=header.len()).step_by(step) {
        report.compare(&header[..length])?;
    }
    Ok(())
}

/// A small header with each of its bits flipped, whole and cut.
fn every_bit(random: &mut Random, report: &mut Report) -> Result<(), Difference> {
    let written = accepted(random, true);
    for bit in 0..written.length() as usize {
        let mut damaged = written.bytes().to_vec();
        damaged[bit / 8] ^= 0x80 >> (bit % 8);
        report.compare(&damaged)?;
        for _ in 0..4 {
            let length = random.index(damaged.len());
            report.compare(&damaged[..length])?;
        }
    }
    Ok(())
}

/// A header with zeros behind it, so many that the number of bits passes 32 bits.
fn long_packet(random: &mut Random, report: &mut Report) -> Result<(), Difference> {
    let written = accepted(random, false);
    let mut packet = vec![0; (1 << 29) + 5];
    packet[..written.bytes().len()].copy_from_slice(written.bytes());
    report.compare(&packet)
}

/// Compares some packets that are made of one header.
fn of_one_header(random: &mut Random, report: &mut Report) -> Result<(), Difference> {
    let small = random.once_in(4);
    let written = if random.once_in(8) {
        with_bad_tree(random)
    } else {
        accepted(random, small)
    };
    report.compare_and_cut(written.bytes())?;
    for _ in 1..PACKETS_OF_A_HEADER {
        let packet = packet(random, &written);
        report.compare_and_cut(packet.bytes())?;
        if random.once_in(PADDED) {
            report.padded(random, packet.bytes())?;
        }
        if random.once_in(64) {
            let length = random.pick(&[0, 1, TABLE_BYTES - 1, TABLE_BYTES + 1, LONGEST]);
            let lengths = match random.below(3) {
                0 => [length, 1],
                1 => [TABLE_BYTES, random.pick(&[0, 2, 17])],
                _ => [length, random.pick(&[0, 2, 17])],
            };
            report.compare_lengths(packet.bytes(), lengths)?;
        }
    }
    Ok(())
}

/// A packet made of a header.
fn packet(random: &mut Random, written: &Written) -> Packet {
    let mut buffer = written.bytes().to_vec();
    match random.below(16) {
        0 => damage_bit(random, &mut buffer),
        1 => damage_byte(random, &mut buffer),
        2..6 => damage_field(random, written, &mut buffer),
        6 => {
            damage_field(random, written, &mut buffer);
            damage_field(random, written, &mut buffer);
            damage_bit(random, &mut buffer);
        }
        7..11 => return cut_in_field(random, written, buffer),
        11 => {
            damage_field(random, written, &mut buffer);
            return cut_in_field(random, written, buffer);
        }
        12 => return cut_anywhere(random, buffer),
        13 => {
            // Sometimes past the length of table memory.
            let most = if random.once_in(16) { 30_000 } else { 40 };
            extend(random, &mut buffer, most);
        }
        14 => random_tail(random, &mut buffer),
        _ if random.once_in(4) => buffer = random_packet(random),
        _ => {
            buffer[0] = random.pick(&[0x80, 0x81, 0x83, 0x02, 0]);
            damage_bit(random, &mut buffer[..7]);
        }
    }
    Packet::whole(buffer)
}

/// Gives one field another value: the greatest, the least, or any.
fn damage_field(random: &mut Random, written: &Written, bytes: &mut [u8]) {
    let place = written.pick(random);
    let last = (1 << place.width) - 1;
    let value = match random.below(4) {
        0 | 1 => last,
        2 => random.pick(&[0, 384 & last, last / 2 + 1]),
        _ => random.up_to(last),
    };
    overwrite(bytes, place.first, place.width, value);
}

/// Random bytes, sometimes behind a good beginning.
fn random_packet(random: &mut Random) -> Vec<u8> {
    let mut packet: Vec<u8> = (0..random.below(6000)).map(|_| random.byte()).collect();
    if random.once_in(2) && packet.len() >= 7 {
        packet[..7].copy_from_slice(b"\x82theora");
    }
    packet
}
