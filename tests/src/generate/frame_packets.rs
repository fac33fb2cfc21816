//! Frame packets: of the random encoder, whole and damaged; damaged, cut and
//! extended variants of any packet; random bytes.

use super::encoder::{Encoded, encoded};
use crate::damage::overwrite;
use crate::damage::{
    Packet, cut_anywhere, cut_in_field, damage_bit, damage_byte, extend, random_tail,
};
use crate::random::Random;
use crate::reference::decode::Decoder;
use crate::reference::frame::Kind;
use crate::reference::frame::reader::Field;
use crate::written::Written;

/// A packet for a session and setup. Most go deep: the random encoder writes
/// them, and about half of them are damaged afterwards.
pub fn packet(random: &mut Random, decoder: &Decoder, references: bool) -> Packet {
    if random.once_in(64) {
        return random_packet(random);
    }
    let inter = match references {
        true => !random.once_in(3),
        false => random.once_in(16),
    };
    let kind = if inter { Kind::Inter } else { Kind::Intra };
    let Encoded { written, sent } = encoded(random, decoder, kind);
    match sent {
        Some(_) if random.once_in(2) => Packet::whole(written.bytes().to_vec()),
        Some(_) => damaged(random, &written),
        // What ends with a fault goes on with anything, or is cut there.
        None => match random.below(4) {
            0 => cut_in_field(random, &written, written.bytes().to_vec()),
            1 => damaged(random, &written),
            _ => {
                let mut buffer = written.bytes().to_vec();
                extend(random, &mut buffer, 8);
                let length = written.bytes().len() + random.index(3);
                Packet::cut(buffer, length)
            }
        },
    }
}

/// A packet with a fault in a field, or a variant of it.
fn damaged(random: &mut Random, written: &Written<Field>) -> Packet {
    let mut buffer = written.bytes().to_vec();
    match random.below(8) {
        0..3 => {
            damage_field(random, written, &mut buffer);
            Packet::whole(buffer)
        }
        3 => {
            damage_field(random, written, &mut buffer);
            damage_field(random, written, &mut buffer);
            cut_in_field(random, written, buffer)
        }
        4 | 5 => cut_in_field(random, written, buffer),
        _ => variant(random, written.bytes()),
    }
}

/// Gives one field another value: the greatest, the least, or any.
fn damage_field(random: &mut Random, written: &Written<Field>, bytes: &mut [u8]) {
    let place = written.pick(random);
    let last = (1 << place.width) - 1;
    let value = match random.below(4) {
        0 => last,
        1 => 0,
        _ => random.up_to(last),
    };
    overwrite(bytes, place.first, place.width, value);
}

/// A damaged, cut or extended variant of a packet.
pub fn variant(random: &mut Random, packet: &[u8]) -> Packet {
    let mut buffer = packet.to_vec();
    // Early bits say more than late ones.
    let early = buffer.len().min(1 << random.below(12));
    match random.below(16) {
        0..4 => damage_bit(random, &mut buffer[..early]),
        4 => damage_byte(random, &mut buffer[..early]),
        5 => {
            (0..1 + random.below(4)).for_each(|_| damage_bit(random, &mut buffer));
        }
        6 => {
            damage_bit(random, &mut buffer[..early]);
            return cut_anywhere(random, buffer);
        }
        7 | 8 => return cut_anywhere(random, buffer),
        9 => return Packet::cut(buffer, early),
        10 => extend(random, &mut buffer, 40),
        11 => random_tail(random, &mut buffer[..early]),
        12 => random_tail(random, &mut buffer),
        13 => shift(random, &mut buffer, early),
        14 => {
            let value = random.pick(&[0, 0xFF]);
            let kept = random.index(early + 1);
            buffer[kept..].fill(value);
        }
        _ if !buffer.is_empty() => buffer[0] ^= random.pick(&[0x80, 0x40, 0xC0, 0x3F]),
        _ => {}
    }
    Packet::whole(buffer)
}

/// Moves all bits behind some early place by one.
fn shift(random: &mut Random, bytes: &mut [u8], early: usize) {
    let from = random.index(early + 1);
    let mut carry = random.byte() & 1;
    for byte in &mut bytes[from..] {
        let next = *byte & 1;
        *byte = *byte >> 1 | carry << 7;
        carry = next;
    }
}

/// Random bytes, sometimes none, mostly with a good first bit.
fn random_packet(random: &mut Random) -> Packet {
    let mut buffer: Vec<u8> = (0..random.below(120)).map(|_| random.byte()).collect();
    if !random.once_in(4) {
        buffer.iter_mut().take(1).for_each(|byte| *byte &= 0x7F);
    }
    Packet::whole(buffer)
}

#[cfg(test)]
mod tests {
    use super::super::cases::Case;
    use super::*;

    #[test]
    fn what_is_encoded_is_read() {
        let mut random = Random::new(12);
        let mut whole = 0;
        for _ in 0..40 {
            let case = Case::small(&mut random);
            let decoder = Decoder::new(&case.fields, &case.setup);
            for number in 0..20 {
                let kind = [Kind::Inter, Kind::Intra][number % 2];
                let Encoded { written, sent } = encoded(&mut random, &decoder, kind);
                let read = decoder.read(true, written.bytes());
                let Some(sent) = sent else {
                    let number = read.unwrap_err().fault.number;
                    assert!(number == 12 || number == 13);
                    continue;
                };
                whole += 1;
                let read = read.unwrap();
                assert_eq!(read.bits, written.length());
                assert_eq!((read.kind, read.qis), (sent.kind, sent.qis));
                assert_eq!((read.flags, read.modes), (sent.flags, sent.modes));
                assert_eq!(read.tokens, sent.tokens);
            }
        }
        assert!(whole > 400, "{whole}");
    }

    #[test]
    fn the_same_seed_gives_the_same_packets() {
        let made = || {
            let mut random = Random::new(13);
            let case = Case::small(&mut random);
            let decoder = Decoder::new(&case.fields, &case.setup);
            let packets = (0..200).map(|_| packet(&mut random, &decoder, true));
            packets
                .map(|packet| packet.bytes().to_vec())
                .collect::<Vec<_>>()
        };
        assert_eq!(made(), made());
    }

    #[test]
    fn every_packet_has_variants() {
        let mut random = Random::new(14);
        for packet in [&[][..], &[0x40], &[1, 2, 3]] {
            for _ in 0..500 {
                variant(&mut random, packet);
            }
        }
    }
}
