//! Frame packets: random ones of small frames, and damaged, cut and extended
//! ones of recordings.
//!
//! Each is given to the independent implementation, and what must hold of any
//! decoder is tried on it: bytes behind the place reached change nothing, a
//! packet that ends before it is refused by 4, a refusal by another number
//! stands, number and place, when bytes are appended, both ways make the same
//! frame. Then it is given to the library's frame call, which must answer (a
//! refusal by number and place, a frame with the number of its tokens) and leave
//! the same.

use crate::four_cases::{FORMATS, FourCases};
use crate::four_streams;
use crate::frame_calls::{Caller, answer, right};
use crate::generate::cases::Case;
use crate::generate::encoder::{Encoded, encoded};
use crate::generate::frame_packets::{packet, variant};
use crate::padding;
use crate::random::Random;
use crate::reference::decode::Decoder;
use crate::reference::frame::reader::{Bits, Field, FrameFault};
use crate::reference::frame::{FramePacket, Kind};
use crate::reference::samples::ways::Way;
use crate::reference::session::KEY_FRAMES;
use std::collections::BTreeMap;
use std::fmt;

/// How many packets are made for one session and setup.
const PACKETS_OF_A_CASE: u64 = 64;

/// One packet out of so many is padded.
const PADDED: u64 = 4;

/// What was tried.
#[derive(Default)]
pub struct Report {
    /// Packets that are read to their end, by kind.
    accepted: BTreeMap<Kind, u64>,
    /// How often a field was at fault by a number.
    faults: BTreeMap<(Field, u32), u64>,
    /// Macro blocks of accepted inter frames by mode.
    modes: [u64; 8],
    /// Cases of four vectors.
    four: FourCases,
    /// Blocks that are DC-only, and others.
    blocks: [u64; 2],
    tokens: u64,
    /// Packets of recordings, cut.
    cuts: u64,
    /// Packets that are read to their end and refused by 17, by kind.
    past: BTreeMap<Kind, u64>,
    /// Packets with bytes behind them.
    pub padded: padding::Counts,
}

/// What a packet is decoded with.
pub struct Frame<'a> {
    /// Session and setup.
    pub decoder: &'a Decoder<'a>,
    /// Whether references exist.
    pub references: bool,
    /// The golden frame.
    pub golden: &'a [u8],
    /// The previous frame.
    pub previous: &'a [u8],
}

/// What an accepted packet says, and its frame.
pub struct Made {
    /// What it says.
    pub packet: FramePacket,
    /// The frame.
    pub new: Vec<u8>,
}

/// Tries so many random packets, some with every case of four vectors, and some
/// of frames with very long runs.
pub fn compare(random: &mut Random, packets: u64) -> Result<Report, String> {
    let mut report = Report::default();
    for _ in 0..packets.div_ceil(PACKETS_OF_A_CASE) {
        let case = Case::small(random);
        report.of_case(random, &case, PACKETS_OF_A_CASE)?;
    }
    for format in FORMATS {
        report.four_vectors(random, format)?;
    }
    // More than 4129 super blocks; more than 4129 blocks.
    for (fmbw, fmbh, kind) in [(1, 4200, Kind::Inter), (28, 27, Kind::Intra)] {
        let case = Case::of_size(random, fmbw, fmbh);
        report.longest_runs(random, &case, kind)?;
    }
    let case = Case::of_size(random, 3, 2);
    report.long_packets(random, &case)?;
    Ok(report)
}

impl Report {
    /// Tries so many packets of one session and setup.
    fn of_case(&mut self, random: &mut Random, case: &Case, packets: u64) -> Result<(), String> {
        let decoder = Decoder::new(&case.fields, &case.setup);
        let caller = Caller::new(&case.fields, &case.header)?;
        let mut new = vec![0; case.golden.len()];
        for _ in 0..packets {
            let references = !random.once_in(8);
            let frame = Frame::of(case, &decoder, references);
            let made = packet(random, &decoder, references);
            self.of_packet(random, &frame, &caller, made.bytes(), &mut new)?;
        }
        Ok(())
    }

    /// Tries the packets of a stream with every case of four vectors.
    fn four_vectors(&mut self, random: &mut Random, format: u64) -> Result<(), String> {
        let packets = four_streams::packets(random, format);
        let fields = four_streams::fields(format);
        let case = Case::of(random, fields, packets[2].clone());
        let decoder = Decoder::new(&case.fields, &case.setup);
        let caller = Caller::new(&case.fields, &case.header)?;
        let frame = Frame::of(&case, &decoder, true);
        let mut new = vec![0; case.golden.len()];
        for packet in &packets[3..] {
            self.of_packet(random, &frame, &caller, packet, &mut new)?;
        }
        Ok(())
    }

    /// Tries packets until some of them had a run of 4129.
    fn longest_runs(&mut self, random: &mut Random, case: &Case, kind: Kind) -> Result<(), String> {
        let decoder = Decoder::new(&case.fields, &case.setup);
        let caller = Caller::new(&case.fields, &case.header)?;
        let frame = Frame::of(case, &decoder, true);
        let mut new = vec![0; case.golden.len()];
        let mut tried = 0;
        for _ in 0..100 {
            let Encoded { written, sent } = encoded(random, &decoder, kind);
            if sent.is_some_and(|sent| sent.longest_runs > 0) {
                self.of_packet(random, &frame, &caller, written.bytes(), &mut new)?;
                tried += 1;
            }
            if tried == 3 {
                return Ok(());
            }
        }
        Err("no packets with a run of 4129".to_string())
    }

    /// Tries packets with zeros behind them, so many that the number of bits
    /// passes 32 bits. They take no memory as long as nobody looks at them.
    fn long_packets(&mut self, random: &mut Random, case: &Case) -> Result<(), String> {
        let decoder = Decoder::new(&case.fields, &case.setup);
        let caller = Caller::new(&case.fields, &case.header)?;
        let frame = Frame::of(case, &decoder, true);
        let mut new = vec![0; case.golden.len()];
        for kind in [Kind::Intra, Kind::Inter] {
            let Encoded { written, .. } = encoded(random, &decoder, kind);
            let mut packet = vec![0; (1 << 29) + 5];
            packet[..written.bytes().len()].copy_from_slice(written.bytes());
            let read = frame.read(&packet);
            self.count(&frame, &read);
            let made = read.map(|read| frame.made(read, Way::First));
            self.right(random, &frame, &caller, &packet, &made, &mut new)?;
        }
        Ok(())
    }

    /// Tries so many variants of a recording's packet.
    pub fn of_recording(
        &mut self,
        random: &mut Random,
        frame: &Frame,
        caller: &Caller,
        packet: &[u8],
        variants: u64,
    ) -> Result<(), String> {
        let mut new = vec![random.byte(); frame.previous.len()];
        for _ in 0..variants {
            let other = variant(random, packet);
            self.of_packet(random, frame, caller, other.bytes(), &mut new)?;
        }
        Ok(())
    }

    /// Tries a recording's packet cut at each length, or at every so manieth.
    pub fn cuts(
        &mut self,
        random: &mut Random,
        frame: &Frame,
        caller: &Caller,
        packet: &[u8],
        step: usize,
    ) -> Result<(), String> {
        let mut new = vec![random.byte(); frame.previous.len()];
        for length in (0..=packet.len()).step_by(step) {
            self.of_packet(random, frame, caller, &packet[..length], &mut new)?;
            self.cuts += 1;
        }
        Ok(())
    }

    /// Tries one packet. `new` is as before the call, then as after it.
    fn of_packet(
        &mut self,
        random: &mut Random,
        frame: &Frame,
        caller: &Caller,
        packet: &[u8],
        new: &mut Vec<u8>,
    ) -> Result<(), String> {
        let read = frame.read(packet);
        self.count(frame, &read);
        let made = match read {
            Ok(read) => frame.accepted(packet, read).map(Ok),
            Err(fault) => frame.refused(packet, fault).then_some(Err(fault)),
        };
        let made = made.ok_or_else(|| {
            let read = frame.read(packet);
            format!("packet {packet:02x?}\nread {read:?}")
        })?;
        self.right(random, frame, caller, packet, &made, new)
    }

    /// Makes the call, with any session that has the frame's references. A packet
    /// that is refused by 17 is tried once more with a session in which nothing is
    /// counted, so that its frame is made, unless KFGSHIFT is 0.
    fn right(
        &mut self,
        random: &mut Random,
        frame: &Frame,
        caller: &Caller,
        packet: &[u8],
        made: &Result<Made, FrameFault>,
        new: &mut Vec<u8>,
    ) -> Result<(), String> {
        let mut list = caller.session(random, frame.references);
        let before = answer(random);
        let lists = caller.lists(frame, &list, packet, new, &before);
        let left = right(random, &lists, made)?;
        if random.once_in(PADDED) {
            self.padded.frame(random, frame.decoder, &lists, &left)?;
        }
        *new = left.new;
        let (17, Ok(read)) = (left.number, made) else {
            return Ok(());
        };
        let kind = read.packet.kind;
        *self.past.entry(kind).or_default() += 1;
        list[KEY_FRAMES..].fill(0);
        let lists = caller.lists(frame, &list, packet, new, &before);
        let left = right(random, &lists, made)?;
        let number = left.number;
        *new = left.new;
        let none_may_follow = kind != Kind::Intra && caller.fields.kfgshift == 0;
        match number == 0 || none_may_follow {
            true => Ok(()),
            false => Err(format!(
                "{number} with a session in which nothing is counted"
            )),
        }
    }

    /// Counts what a packet says, or its fault.
    fn count(&mut self, frame: &Frame, read: &Result<FramePacket, FrameFault>) {
        let read = match read {
            Err(FrameFault { fault, field }) => {
                *self.faults.entry((*field, fault.number)).or_default() += 1;
                return;
            }
            Ok(read) => read,
        };
        *self.accepted.entry(read.kind).or_default() += 1;
        self.tokens += read.tokens;
        for visit in &read.last_visits {
            self.blocks[usize::from(*visit >= 2)] += 1;
        }
        if read.kind == Kind::Inter {
            self.four.count(&frame.decoder.layout, read);
            read.modes
                .iter()
                .for_each(|mode| self.modes[*mode as usize] += 1);
        }
    }

    /// The faults that a packet can have and the cases of four vectors, as far
    /// as none of these had them.
    pub fn missed(&self) -> Vec<String> {
        let faults = possible().into_iter();
        let kinds = [Kind::Intra, Kind::Inter, Kind::Repeat].into_iter();
        let past = kinds
            .filter(|kind| !self.past.contains_key(kind))
            .map(|kind| format!("no {kind:?} refused by 17"));
        faults
            .filter(|kind| !self.faults.contains_key(kind))
            .map(|(field, number)| format!("no {field:?} refused by {number}"))
            .chain(self.four.missed())
            .chain(past)
            .chain(self.padded.missed_of_frames(padding::OF_FRAME))
            .collect()
    }
}

impl<'a> Frame<'a> {
    /// Of a case.
    fn of(case: &'a Case, decoder: &'a Decoder<'a>, references: bool) -> Frame<'a> {
        Frame {
            decoder,
            references,
            golden: &case.golden,
            previous: &case.previous,
        }
    }

    /// Reads a packet.
    fn read(&self, packet: &[u8]) -> Result<FramePacket, FrameFault> {
        self.decoder.read(self.references, packet)
    }

    /// Makes the frame of a packet, over other samples in each way.
    fn made(&self, packet: FramePacket, way: Way) -> Made {
        let before = match way {
            Way::First => 0,
            Way::Second => 255,
        };
        let mut new = vec![before; self.previous.len()];
        let (golden, previous) = (self.golden, self.previous);
        self.decoder.make(way, &packet, golden, previous, &mut new);
        Made { packet, new }
    }

    /// The frame of an accepted packet, if all holds that must hold of one.
    fn accepted(&self, packet: &[u8], read: FramePacket) -> Option<Made> {
        let ends = packet.is_empty() || self.ends_there(packet, &read);
        let Made { packet, new } = self.made(read, Way::First);
        let second = self.made(packet, Way::Second);
        (ends && second.new == new).then_some(second)
    }

    /// Whether an accepted packet needs the bytes up to the place reached, and
    /// no others.
    fn ends_there(&self, packet: &[u8], read: &FramePacket) -> bool {
        let needed = read.bits.div_ceil(8) as usize;
        let longer = [packet, &[0x5A; 9]].concat();
        let cut = &packet[..(read.bits as usize - 1) / 8];
        let number = self.read(cut).map_err(|fault| fault.fault.number);
        read.tokens <= 64 * read.coded.len() as u64
            && self.read(&packet[..needed]).as_ref() == Ok(read)
            && self.read(&longer).as_ref() == Ok(read)
            && (cut.is_empty() || number == Err(4))
    }

    /// What must hold of a refused packet.
    fn refused(&self, packet: &[u8], fault: FrameFault) -> bool {
        let longer = [packet, &[0xA5; 9]].concat();
        let bits = 8 * packet.len() as u64;
        fault.fault.place <= bits
            && (fault.fault.number == 4
                || packet.is_empty()
                || self.read(&longer).err() == Some(fault))
    }
}

/// Every field with the numbers by which it can be refused. The first qi, the
/// second and the bit behind it lie within bytes that were begun before, so
/// that a packet never ends at them.
fn possible() -> Vec<(Field, u32)> {
    let mut kinds = vec![
        (Field::Packet, 9),
        (Field::FirstBit, 10),
        (Field::Type, 9),
        (Field::Reserved, 11),
        (Field::Token, 13),
    ];
    let strings = [
        Bits::Partly,
        Bits::Fully,
        Bits::Blocks,
        Bits::BlockQi(0),
        Bits::BlockQi(1),
    ];
    for bits in strings {
        kinds.push((Field::RunBit(bits), 4));
        kinds.extend([(Field::Run(bits), 4), (Field::Run(bits), 12)]);
    }
    let plain = [
        Field::MoreQi(1),
        Field::Qi(2),
        Field::Reserved,
        Field::Scheme,
        Field::Rank,
        Field::RankCode,
        Field::RawMode,
        Field::VectorBit,
        Field::VariableComponent,
        Field::FixedComponent,
        Field::Choice(0, 0),
        Field::Choice(0, 1),
        Field::Choice(1, 0),
        Field::Choice(1, 1),
        Field::Token,
    ];
    kinds.extend(plain.map(|field| (field, 4)));
    kinds
}

impl fmt::Display for Report {
    fn fmt(&self, f: &mut fmt::Formatter<'_>) -> fmt::Result {
        let refused: u64 = self.faults.values().sum();
        writeln!(
            f,
            "  read {:?}, of which refused by 17 {:?}; refused before {refused}; cuts among them {}",
            self.accepted, self.past, self.cuts
        )?;
        writeln!(
            f,
            "  modes {:?}, tokens {}, blocks with DC only {}, others {}",
            self.modes, self.tokens, self.blocks[0], self.blocks[1]
        )?;
        writeln!(f, "  {}", self.four)?;
        writeln!(f, "  faults by field:")?;
        for ((field, number), count) in &self.faults {
            writeln!(f, "    {:20} {number}: {count}", format!("{field:?}"))?;
        }
        write!(f, "{}", self.padded)
    }
}
