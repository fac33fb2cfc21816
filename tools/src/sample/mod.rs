//! A small recording to try the command with: 320 by 240 samples in 4:2:0, the
//! picture 8 samples less high, 25 frames a second. A spot of light is panned,
//! brightened, held, and put back.

mod encoder;
mod headers;

use encoder::{Encoder, Mode};
pub use headers::identification_header;
use recording::{Fault, ogg};

/// The serial number of the sample's stream.
const SERIAL: u32 = 1;

/// The sample's packets: three headers and seven frames.
pub fn packets() -> Vec<Vec<u8>> {
    let encoder = Encoder::new(headers::session());
    // What lies 3 samples to the left and 1.5 above.
    let pan = Mode::Moved { x: -6, y: 3 };
    vec![
        headers::identification_header(),
        headers::comment_header(),
        headers::setup_header(),
        encoder.intra(),
        encoder.whole(pan),
        encoder.whole(pan),
        encoder.brighter_centre(),
        Vec::new(),
        encoder.whole(Mode::Golden),
        encoder.nothing(),
    ]
}

/// The sample as an Ogg file.
///
/// # Errors
///
/// libogg cannot be had.
pub fn ogg_file() -> Result<Vec<u8>, Fault> {
    let packets = packets().into_iter().enumerate();
    let packets: Vec<_> = packets
        .map(|(number, packet)| (packet, granule(number as u64)))
        .collect();
    ogg::write(SERIAL, &packets)
}

/// The granule position of a packet: the number of the last key frame, from 1,
/// and how many frames came after it. The sample has one, in packet 3.
fn granule(packet: u64) -> u64 {
    match packet {
        0..3 => 0,
        _ => 1 << headers::session().kfgshift | (packet - 3),
    }
}

#[cfg(test)]
mod tests {
    use super::*;
    use wedgepetal::{Kind, Player, Samples};

    /// A player after the first frames of the sample, so many.
    fn after(frames: usize) -> Player {
        let packets = packets();
        let session = wedgepetal::identification(&packets[0]).unwrap();
        let table = wedgepetal::setup(&packets[2]).unwrap();
        let mut player = Player::new(session, table).unwrap();
        for packet in &packets[3..3 + frames] {
            player.decode(packet).unwrap();
        }
        player
    }

    /// The planes after the first frames, so many.
    fn planes(frames: usize) -> [Vec<u8>; 3] {
        let player = after(frames);
        let planes = player.frame().unwrap().planes();
        planes.map(|plane: Samples<'_>| plane.bytes.to_vec())
    }

    /// The sample in the middle of a block of the luma plane.
    fn middle(luma: &[u8], x: usize, y: usize) -> i64 {
        i64::from(luma[(8 * y + 4) * 320 + 8 * x + 4])
    }

    #[test]
    fn the_kinds_of_the_frames() {
        let mut player = after(0);
        let kinds: Vec<Kind> = packets()[3..]
            .iter()
            .map(|packet| player.decode(packet).unwrap().kind)
            .collect();
        let (intra, inter) = (Kind::Intra, Kind::Inter);
        let wanted = [intra, inter, inter, inter, Kind::Repeat, inter, inter];
        assert_eq!(kinds, wanted);
    }

    #[test]
    fn the_intra_frame_is_the_drawn_one() {
        let encoder = Encoder::new(headers::session());
        let [luma, _, _] = planes(1);
        for y in 0..30 {
            for x in 0..40 {
                let wanted = 128 + encoder.drawn(0, x, y);
                assert_eq!(middle(&luma, x as usize, y as usize), wanted, "{x} {y}");
            }
        }
    }

    #[test]
    fn a_pan_moves_the_picture() {
        let ([first, _, _], [second, _, _]) = (planes(1), planes(2));
        // 1.5 samples above is the mean of two rows.
        for (x, y) in [(3, 4), (19, 14), (20, 15), (36, 27)] {
            let moved = (8 * y + 4) * 320 + 8 * x + 4 - 3;
            let rows = [moved + 320, moved + 640].map(|place| u16::from(first[place]));
            let wanted = i64::from((rows[0] + rows[1]) / 2);
            assert_eq!(middle(&second, x, y), wanted, "{x} {y}");
        }
    }

    #[test]
    fn the_centre_is_brightened_and_all_is_put_back() {
        let ([before, cb, _], [after, cb_after, _]) = (planes(3), planes(4));
        assert_eq!(middle(&after, 17, 13), middle(&before, 17, 13) + 20);
        assert_eq!(middle(&after, 0, 0), middle(&before, 0, 0));
        assert_eq!(cb, cb_after);
        assert_eq!(planes(5), planes(4));
        let ([first, _, _], [back, _, _]) = (planes(1), planes(6));
        for (x, y) in [(0, 0), (17, 13), (39, 29)] {
            assert_eq!(middle(&back, x, y), middle(&first, x, y));
        }
        assert_eq!(planes(7), planes(6));
    }

    #[test]
    fn the_ogg_file_holds_the_packets() {
        let file = ogg_file().unwrap();
        assert_eq!(recording::packets(&file[..]).unwrap(), packets());
    }
}
