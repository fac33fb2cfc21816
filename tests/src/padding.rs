//! Bytes behind a packet.
//!
//! A packet that is accepted, or refused by another number than 4, and that is
//! not an empty frame packet, must be answered the same with any bytes behind
//! it, and the call must leave the same. Of the others nothing is promised; what
//! the library says of them padded must still be what the independent
//! implementation says.

use crate::check::long_hex;
use crate::library;
use crate::random::Random;
use crate::reference::decode::Decoder;
use crate::reference::face::identified;
use crate::reference::frame_face::{KIND, Left, Lists};
use crate::reference::samples::ways::Way;
use crate::reference::session::SESSION_NUMBERS;
use crate::reference::setup::setup;
use crate::reference::table_memory::{TABLE_BYTES, left_by};
use std::collections::BTreeMap;
use std::fmt;
use wedgepetal::lists;

/// The old recorder padded to this many bytes.
const RECORDER: usize = 32;

/// Longer packets are not padded: each padded one is a copy.
const LONGEST: usize = 1 << 20;

/// The numbers by which an identification header can be refused, but 4.
pub const OF_IDENTIFICATION: &[u32] = &[2, 3, 5, 6];
/// The same of a setup header.
pub const OF_SETUP: &[u32] = &[2, 7];
/// The same of a frame packet, with 17.
pub const OF_FRAME: &[u32] = &[9, 10, 11, 12, 13, 17];
/// The numbers by which a frame call with any lists can be refused before its
/// packet is looked at.
pub const OF_LISTS: &[u32] = &[1, 8];

/// What a packet is without padding.
#[derive(Clone, Copy, PartialEq, Eq, PartialOrd, Ord)]
enum Packet {
    /// Accepted (0) or refused by another number than 4: padding changes nothing.
    Settled(u32),
    /// Refused by 4.
    Cut,
    /// A frame packet without a byte that is accepted: the frame is repeated.
    Repeat,
    /// One that is refused.
    Empty,
}

/// How many padded packets there were, by what they are without padding and by
/// their number with it.
#[derive(Default)]
pub struct Counts(BTreeMap<(Packet, u32), u64>);

/// What a header's call returned and left.
#[derive(PartialEq, Eq)]
struct Header<T> {
    number: u32,
    place: [u64; 1],
    /// The session's list, or table memory.
    left: T,
}

/// A packet with bytes behind it: to a multiple of 32 bytes, and by one byte;
/// zeros, ones, random bytes.
fn padded(random: &mut Random, packet: &[u8]) -> Vec<Vec<u8>> {
    if packet.len() > LONGEST {
        return Vec::new();
    }
    let whole = packet.len().max(1).next_multiple_of(RECORDER);
    let mut all = Vec::new();
    for length in [whole, packet.len() + 1] {
        if length == packet.len() {
            continue;
        }
        for bits in [Some(0), Some(0xFF), None] {
            let mut longer = packet.to_vec();
            longer.resize_with(length, || bits.unwrap_or_else(|| random.byte()));
            all.push(longer);
        }
    }
    all
}

/// The library's identification call.
fn identification(packet: &[u8]) -> Header<[u64; SESSION_NUMBERS]> {
    let (mut left, mut place) = ([0xA5; SESSION_NUMBERS], [0xA5]);
    let number = lists::identification(packet, &mut left, &mut place);
    Header {
        number,
        place,
        left,
    }
}

/// The library's setup call.
fn table(packet: &[u8]) -> Header<Vec<u8>> {
    let (mut left, mut place) = (vec![0xA5; TABLE_BYTES], [0xA5]);
    let number = lists::setup(packet, &mut left, &mut place);
    Header {
        number,
        place,
        left,
    }
}

impl Counts {
    /// Pads an identification header, and the same without its last byte.
    pub fn identification(&mut self, random: &mut Random, packet: &[u8]) -> Result<(), String> {
        self.headers(random, packet, identification, |packet| {
            let said = identified(packet, SESSION_NUMBERS, 1);
            Header {
                number: said.number,
                place: [said.place.unwrap_or(0)],
                left: said.session.unwrap_or([0xA5; SESSION_NUMBERS]),
            }
        })
    }

    /// Pads a setup header, and the same without its last byte.
    pub fn setup(&mut self, random: &mut Random, packet: &[u8]) -> Result<(), String> {
        self.headers(random, packet, table, |packet| {
            let read = setup(packet);
            let fault = read.as_ref().err().map(|refused| refused.fault);
            Header {
                number: fault.map_or(0, |fault| fault.number),
                place: [fault.map_or(0, |fault| fault.place)],
                left: left_by(packet, &read),
            }
        })
    }

    /// Pads a header and its cut, given the calls of the library and of the
    /// independent implementation.
    fn headers<T: PartialEq>(
        &mut self,
        random: &mut Random,
        packet: &[u8],
        library: impl Fn(&[u8]) -> Header<T>,
        independent: impl Fn(&[u8]) -> Header<T>,
    ) -> Result<(), String> {
        let cut = &packet[..packet.len().saturating_sub(1)];
        for packet in [packet, cut] {
            let without = library(packet);
            for longer in padded(random, packet) {
                let with = library(&longer);
                let kind = Packet::of(without.number, false);
                let changed = matches!(kind, Packet::Settled(_)) && with != without;
                if with != independent(&longer) || changed {
                    return Err(difference(packet, &longer, kind, with.number));
                }
                self.count(kind, with.number);
            }
        }
        Ok(())
    }

    /// Pads the packet of a frame call with all that is right, given what the
    /// library's call returned and left.
    pub fn frame(
        &mut self,
        random: &mut Random,
        decoder: &Decoder,
        call: &Lists,
        without: &Left,
    ) -> Result<(), String> {
        let references = call.session().is_ok_and(|session| session.references);
        let read = decoder.read(references, call.packet);
        // Of the same reading the independent implementation makes the same.
        self.calls(random, call, without, |padded| {
            match decoder.read(references, padded.packet) == read {
                true => without.clone(),
                false => padded.call(Way::First),
            }
        })
    }

    /// The same with any lists.
    pub fn any_call(
        &mut self,
        random: &mut Random,
        call: &Lists,
        without: &Left,
    ) -> Result<(), String> {
        self.calls(random, call, without, |padded| padded.call(Way::First))
    }

    /// Pads the packet of a frame call, given what the independent implementation
    /// expects of the padded call.
    fn calls(
        &mut self,
        random: &mut Random,
        call: &Lists,
        without: &Left,
        independent: impl Fn(&Lists) -> Left,
    ) -> Result<(), String> {
        let kind = Packet::of(without.number, call.packet.is_empty());
        for longer in padded(random, call.packet) {
            let padded = Lists {
                packet: &longer,
                ..*call
            };
            let with = library::hold(random, &padded, &independent(&padded))?;
            let holds = match kind {
                Packet::Settled(_) => with == *without,
                Packet::Repeat => with.number != 0 || with.answer[KIND] != without.answer[KIND],
                Packet::Cut | Packet::Empty => true,
            };
            if !holds {
                return Err(difference(call.packet, &longer, kind, with.number));
            }
            self.count(kind, with.number);
        }
        Ok(())
    }

    fn count(&mut self, packet: Packet, number: u32) {
        *self.0.entry((packet, number)).or_default() += 1;
    }

    /// The numbers, 0 among them for accepted packets, of which no packet was
    /// padded.
    pub fn missed_numbers(&self, numbers: &[u32]) -> Vec<String> {
        let packets = numbers.iter().map(|number| Packet::Settled(*number));
        packets
            .filter(|packet| !self.0.keys().any(|(met, _)| met == packet))
            .map(|packet| format!("no padded packet that was {packet}"))
            .collect()
    }

    /// What was not met: an accepted packet, one refused by each of these numbers,
    /// and one refused by 4 that padding makes acceptable.
    pub fn missed(&self, numbers: &[u32]) -> Vec<String> {
        let mut missed = self.missed_numbers(&[&[0], numbers].concat());
        if !self.0.contains_key(&(Packet::Cut, 0)) {
            missed.push("no cut packet that padding makes acceptable".to_string());
        }
        missed
    }

    /// The same of frame packets, and an empty one that padding keeps from being
    /// a repeat.
    pub fn missed_of_frames(&self, numbers: &[u32]) -> Vec<String> {
        let mut missed = self.missed(numbers);
        if !self.0.keys().any(|(packet, _)| *packet == Packet::Repeat) {
            missed.push("no padded packet that was empty, a repeat".to_string());
        }
        missed
    }
}

impl Packet {
    /// Given its number, and whether it is a frame packet without a byte.
    fn of(number: u32, empty: bool) -> Packet {
        match (empty, number) {
            (true, 0) => Packet::Repeat,
            (true, _) => Packet::Empty,
            (false, 4) => Packet::Cut,
            (false, number) => Packet::Settled(number),
        }
    }
}

/// A packet and what padding made of it, though it may not.
fn difference(packet: &[u8], longer: &[u8], kind: Packet, number: u32) -> String {
    format!(
        "packet:   {}\npadded:   {}\nwithout padding {kind}, with it {number}, or something else that is left differs\n",
        long_hex(packet),
        long_hex(longer)
    )
}

impl fmt::Display for Packet {
    fn fmt(&self, f: &mut fmt::Formatter<'_>) -> fmt::Result {
        match self {
            Packet::Settled(0) => f.write_str("accepted"),
            Packet::Settled(number) => write!(f, "refused by {number}"),
            Packet::Cut => f.write_str("refused by 4"),
            Packet::Repeat => f.write_str("empty, a repeat"),
            Packet::Empty => f.write_str("empty, refused"),
        }
    }
}

/// What padding left as it was, and what became of the others.
impl fmt::Display for Counts {
    fn fmt(&self, f: &mut fmt::Formatter<'_>) -> fmt::Result {
        writeln!(f, "  padded:")?;
        for ((packet, number), count) in &self.0 {
            match packet {
                Packet::Settled(_) => writeln!(f, "    {packet}, the same: {count}")?,
                _ if *number == 0 => writeln!(f, "    {packet}, then accepted: {count}")?,
                _ => writeln!(f, "    {packet}, then refused by {number}: {count}")?,
            }
        }
        Ok(())
    }
}

#[cfg(test)]
mod tests {
    use super::*;
    use crate::fields;
    use crate::packets::header_of;
    use crate::setup_header::accepted;

    #[test]
    fn packets_are_padded_in_each_way() {
        let mut random = Random::new(3);
        let lengths = |packet: &[u8]| -> Vec<usize> {
            let all = padded(&mut Random::new(1), packet);
            assert!(all.iter().all(|longer| longer.starts_with(packet)));
            all.iter().map(Vec::len).collect()
        };
        assert_eq!(lengths(&[]), [32, 32, 32, 1, 1, 1]);
        assert_eq!(lengths(&[7; 31]), [32; 6]);
        assert_eq!(lengths(&[7; 32]), [33; 3]);
        assert_eq!(lengths(&[7; 33]), [64, 64, 64, 34, 34, 34]);
        let all = padded(&mut random, &[5, 6]);
        assert_eq!(all[3], [5, 6, 0]);
        assert_eq!(all[4], [5, 6, 0xFF]);
    }

    #[test]
    fn headers_with_bytes_behind_them() {
        let mut random = Random::new(8);
        let mut counts = Counts::default();
        for _ in 0..20 {
            let header = header_of(&fields::sound(&mut random));
            assert_eq!(counts.identification(&mut random, &header), Ok(()));
            let header = accepted(&mut random, true);
            assert_eq!(counts.setup(&mut random, header.bytes()), Ok(()));
        }
        assert_eq!(counts.missed(&[]), Vec::<String>::new());
        let missed = counts.missed_of_frames(&[13]);
        let wanted = [
            "no padded packet that was refused by 13",
            "no padded packet that was empty, a repeat",
        ];
        assert_eq!(missed, wanted);
    }

    #[test]
    fn a_call_that_looks_behind_the_packet_is_found_out() {
        let length_is_told = |packet: &[u8]| Header {
            number: 2,
            place: [0],
            left: packet.len(),
        };
        let mut counts = Counts::default();
        let random = &mut Random::new(2);
        let tried = counts.headers(random, &[1, 2, 3], length_is_told, length_is_told);
        assert!(tried.is_err());
    }
}
