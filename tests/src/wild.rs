//! Packet files of wild streams: packets of the random encoder, all accepted,
//! for libtheora to decode (`tests/streams/make`). Left out is what its vector
//! code makes otherwise.

use crate::generate::cases::Case;
use crate::generate::encoder::encoded;
use crate::packets::{COMMENT_HEADER, header_of};
use crate::random::Random;
use crate::reference::decode::Decoder;
use crate::reference::frame::Kind;
use crate::reference::samples::ways::{Source, passes_16_bits};
use recording::packet_file;

/// How many frames a stream has, and how many packets are tried for them: with
/// some setup headers few packets are accepted.
const FRAMES: usize = 40;
const TRIES: usize = 400;

/// The least KFGSHIFT with which all of them may follow the first.
const SHIFT: u64 = 6;

/// Writes a stream to each file.
pub fn write(files: &[String], seed: u64) -> Result<(), String> {
    for (file, seed) in files.iter().zip(seed..) {
        let stream = packet_file::write(&stream(&mut Random::new(seed)));
        std::fs::write(file, stream).map_err(|error| format!("{file}: {error}"))?;
    }
    println!("wild streams: {}", files.len());
    Ok(())
}

/// The packets of a stream.
fn stream(random: &mut Random) -> Vec<Vec<u8>> {
    let mut case = Case::small(random);
    // libtheora takes the colour spaces 0 to 2.
    case.fields.cs %= 3;
    // So many packets may follow a key frame.
    case.fields.kfgshift = case.fields.kfgshift.max(SHIFT);
    let decoder = Decoder::new(&case.fields, &case.setup);
    let source = Source {
        layout: &decoder.layout,
        setup: &case.setup,
        golden: &[],
        previous: &[],
    };
    let mut packets = vec![
        header_of(&case.fields),
        COMMENT_HEADER.to_vec(),
        case.header.clone(),
    ];
    for _ in 0..TRIES {
        let kind = match random.below(16) {
            _ if packets.len() == 3 => Kind::Intra,
            0 => Kind::Intra,
            1 => Kind::Repeat,
            _ => Kind::Inter,
        };
        let made = match kind {
            Kind::Repeat => Vec::new(),
            _ => encoded(random, &decoder, kind).written.bytes().to_vec(),
        };
        let read = decoder.read(true, &made);
        if read.is_ok_and(|read| !passes_16_bits(source, &read)) {
            packets.push(made);
        }
        if packets.len() == 3 + FRAMES {
            break;
        }
    }
    packets
}
