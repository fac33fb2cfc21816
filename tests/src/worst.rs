//! How long the packets take that cause the most work: 64 tokens for each block,
//! which is the most that a packet can have.

use crate::packets::header_of;
use crate::reference::session::Fields;
use recording::bit_writer::BitWriter;
use std::time::{Duration, Instant};
use wedgepetal::{Player, identification, setup};

/// Macro blocks across and up, and what frames of this size are called.
const SIZES: [(u64, u64, &str); 4] = [
    (1, 1, "16 x 16"),
    (22, 18, "352 x 288"),
    (80, 45, "1280 x 720"),
    (120, 68, "1920 x 1088"),
];

/// How often each packet is timed.
const ROUNDS: usize = 20;

/// A value of 1, without extra bits.
const ONE: u64 = 9;

/// Times the packets and prints what each takes.
pub fn time() {
    println!("64 tokens for each block, 4:2:0; the best of {ROUNDS} rounds");
    for (fmbw, fmbh, name) in SIZES {
        for (code, depth) in [("codes of 0 bits", 0), ("codes of 31 bits", 31)] {
            let fields = Fields {
                kfgshift: 6,
                ..Fields::of_frame(fmbw, fmbh, 0)
            };
            let session = identification(&header_of(&fields)).expect("the header is sound");
            let table = setup(&setup_header(depth)).expect("the setup is sound");
            let mut player = Player::new(session, table).expect("there is memory for it");
            let blocks = player.sizes().blocks;
            let packet = intra(depth * 64 * blocks);
            let (tokens, time) = decode(&mut player, &packet);
            assert_eq!(tokens, 64 * blocks);
            println!(
                "  {name:12} {code:17} {:>9} bytes, {tokens:>9} tokens {:>9.0} µs, {:>5.1} ns per token",
                packet.len(),
                time.as_nanos() as f64 / 1000.0,
                time.as_nanos() as f64 / tokens as f64
            );
        }
    }
}

/// Decodes an intra frame often; gives its tokens and the least time.
fn decode(player: &mut Player, packet: &[u8]) -> (u64, Duration) {
    let rounds = (0..ROUNDS).map(|_| {
        let start = Instant::now();
        let answer = player.decode(packet).expect("the packet is sound");
        (answer.tokens, start.elapsed())
    });
    rounds
        .min_by_key(|(_, time)| *time)
        .expect("there are rounds")
}

/// A setup header whose trees all have the token `ONE` at this depth, behind
/// zeros alone, and other tokens beside the way. The loop filter is on.
fn setup_header(depth: u64) -> Vec<u8> {
    let mut bits = BitWriter::default();
    b"\x82theora"
        .iter()
        .for_each(|byte| bits.put(u64::from(*byte), 8));
    bits.put(5, 3);
    (0..64).for_each(|_| bits.put(20, 5));
    for _ in 0..2 {
        bits.put(0, 4);
        (0..64).for_each(|_| bits.put(1, 1));
    }
    // One base matrix, and one range for all six sets.
    bits.put(0, 9);
    (0..64).for_each(|_| bits.put(100, 8));
    bits.put(62, 6);
    bits.put(0, 8);
    for _ in 0..80 {
        (0..depth).for_each(|_| bits.put(0, 1));
        bits.put(1, 1);
        bits.put(ONE, 5);
        for _ in 0..depth {
            bits.put(1, 1);
            bits.put(0, 5);
        }
    }
    bits.bytes().to_vec()
}

/// An intra frame of qi 30 and so many zeros for the codes of its tokens.
fn intra(codes: u64) -> Vec<u8> {
    let mut bits = BitWriter::default();
    bits.put(30, 8);
    // No other qi, the reserved bits, four table choices.
    bits.put(0, 1 + 3 + 16);
    let mut bytes = bits.bytes().to_vec();
    bytes.resize((28 + codes).div_ceil(8) as usize, 0);
    bytes
}

#[cfg(test)]
mod tests {
    use super::*;
    use crate::reference::decode::Decoder;
    use crate::reference::setup::setup;

    #[test]
    fn every_block_has_64_tokens() {
        let fields = Fields::of_frame(2, 1, 0);
        for depth in [0, 31] {
            let setup = setup(&setup_header(depth)).unwrap();
            let decoder = Decoder::new(&fields, &setup);
            let packet = intra(depth * 64 * 12);
            let read = decoder.read(false, &packet).unwrap();
            assert_eq!(read.tokens, 64 * 12);
            assert_eq!(read.bits.div_ceil(8), packet.len() as u64);
        }
    }
}
