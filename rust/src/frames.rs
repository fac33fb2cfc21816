//! An iterator over decoded frames.

use crate::{Frame, FrameAnswer, Kind, Player, Refused, Session, Sizes, View};

/// The frames of packets, one for each that is accepted ([`Player::frames`]).
#[derive(Debug)]
pub struct Frames<'a, P> {
    player: &'a mut Player,
    packets: P,
    /// The number of the next packet, and of the next frame.
    packet: u64,
    frame: u64,
}

impl<'a, P> Frames<'a, P> {
    pub(crate) fn new(player: &'a mut Player, packets: P) -> Frames<'a, P> {
        Frames {
            player,
            packets,
            packet: 3,
            frame: 0,
        }
    }
}

impl<P: Iterator<Item: AsRef<[u8]>>> Iterator for Frames<'_, P> {
    type Item = Result<Decoded, Refused>;

    fn next(&mut self) -> Option<Self::Item> {
        let packet = self.packets.next()?;
        let packet = packet.as_ref();
        let number = self.packet;
        self.packet += 1;
        let answer = match self.player.decode(packet) {
            Ok(answer) => answer,
            Err(refusal) => return Some(Err(Refused::new(number, packet.len(), refusal))),
        };
        let frame = self.player.frame().expect("a packet was accepted");
        let decoded = Decoded {
            number: self.frame,
            packet: number,
            answer,
            session: self.player.session().clone(),
            sizes: self.player.sizes().clone(),
            bytes: frame.bytes().to_vec(),
        };
        self.frame += 1;
        Some(Ok(decoded))
    }
}

/// A decoded frame that owns its planes.
#[derive(Clone, Debug)]
pub struct Decoded {
    number: u64,
    packet: u64,
    answer: FrameAnswer,
    session: Session,
    sizes: Sizes,
    bytes: Vec<u8>,
}

impl Decoded {
    /// Which frame it is, from 0. Repeats count, refused packets do not.
    pub fn number(&self) -> u64 {
        self.number
    }

    /// The number of its packet, from 0; the first three are headers.
    pub fn packet(&self) -> u64 {
        self.packet
    }

    /// Its kind.
    pub fn kind(&self) -> Kind {
        self.answer.kind
    }

    /// What its packet answers: kind, qi list, tokens.
    pub fn answer(&self) -> &FrameAnswer {
        &self.answer
    }

    /// The session behind its packet: key frames, and others since the last.
    pub fn session(&self) -> &Session {
        &self.session
    }

    /// The whole coded frame.
    pub fn frame(&self) -> Frame<'_> {
        Frame::new(&self.sizes, &self.bytes).expect("the bytes are those of a frame")
    }

    /// The picture in Y', Cb, Cr, the top row first.
    pub fn picture(&self) -> [View<'_>; 3] {
        self.session.picture(self.frame())
    }

    /// The planes, which are the caller's own from now on: Y' first, in each the
    /// lowest row first.
    pub fn into_bytes(self) -> Vec<u8> {
        self.bytes
    }
}
