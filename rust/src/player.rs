//! A recording's packets decoded one after the other.

use crate::work::Lent;
use crate::{
    Frame, FrameAnswer, Frames, Names, Packets, Refusal, Session, Settings, Sizes, Table, TileMaps,
    Unplayable, View, free_memory,
};

/// Decodes the frame packets of a recording, by [`Session::shot`]: the proved
/// call takes golden and previous from its three plane buffers, puts the new
/// frame into the third and names both for the next call. A player keeps what
/// the call answers, and nothing else.
///
/// [`Player::decode`] takes one packet, after which [`Player::frame`] is its
/// frame: so frames are handed out as they come. [`Player::decode_all`] takes
/// many in one call, after which only the last frame is there; each call tests
/// table memory and clears work memory once, so that fewer calls are faster.
/// Both may be mixed: a shot is the same however it is cut. Who wants every
/// hundredth frame decodes a hundred packets a call.
///
/// ```
/// # fn every_hundredth(player: &mut wedgepetal::Player, packets: &[Vec<u8>]) {
/// for chunk in packets.chunks(100) {
///     let answers = player.decode_all(chunk);
///     let refused = answers.iter().filter(|answer| answer.is_err()).count();
///     if let Some(frame) = player.frame() {
///         println!("{refused} refused, then {:?}", frame.planes()[0].row(0));
///     }
/// }
/// # }
/// ```
#[derive(Debug)]
pub struct Player {
    session: Session,
    sizes: Sizes,
    table: Table,
    lent: Lent,
    names: Names,
}

impl Player {
    /// A player for the frames of a session, with the tables of a setup header.
    /// It begins without references, so that the first frame is an intra frame,
    /// and counts key frames from 0.
    ///
    /// The memory that it takes ([`Player::memory`]) is held to what is free
    /// ([`free_memory`]) before a byte of it is asked for.
    ///
    /// # Errors
    ///
    /// The session's fields could not come from an identification header, or
    /// there is not enough memory.
    pub fn new(session: Session, table: Table) -> Result<Player, Unplayable> {
        match Player::within(session, table, free_memory()) {
            Err(Unplayable::Limit { bytes, .. }) => Err(Unplayable::Memory(bytes)),
            player => player,
        }
    }

    /// A player that takes at most so many bytes of memory.
    ///
    /// # Errors
    ///
    /// As for [`Player::new`], or it would take more.
    pub fn within(session: Session, table: Table, limit: u64) -> Result<Player, Unplayable> {
        Ok(Player {
            lent: Lent::new(&session, limit)?,
            names: Names::NONE,
            sizes: session.sizes()?,
            session: Session {
                references: false,
                key_frames: 0,
                others: 0,
                ..session
            },
            table,
        })
    }

    /// How many bytes of memory a player of this session takes: three plane
    /// buffers, work memory and table memory.
    ///
    /// # Errors
    ///
    /// Number 8, as for every call on a session.
    pub fn memory(session: &Session) -> Result<u64, Refusal> {
        Lent::bytes(session)
    }

    /// Forgets all frames: packets are missing here. As at the beginning, only
    /// an intra frame is accepted next. Key frames are counted on.
    pub fn restart(&mut self) {
        self.session.references = false;
        self.names = Names::NONE;
    }

    /// Decodes the next packet.
    ///
    /// # Errors
    ///
    /// Numbers 4 and 9 to 13 with the bit place, for the first fault of the
    /// packet, and 17 for a packet with which the session's numbers would pass
    /// their bounds. Everything is then as it was, and the next packet can be
    /// decoded.
    pub fn decode(&mut self, packet: &[u8]) -> Result<FrameAnswer, Refusal> {
        let lengths = [packet.len() as u64];
        let answers = self.shot(Packets {
            lengths: &lengths,
            bytes: packet,
        });
        answers[0]
    }

    /// Decodes the next packets in one call, in order. Their answers, one for
    /// each, are those that [`Player::decode`] would give, also of packets behind
    /// a refused one. The last accepted frame is there afterwards.
    pub fn decode_all(
        &mut self,
        packets: &[impl AsRef<[u8]>],
    ) -> Vec<Result<FrameAnswer, Refusal>> {
        let (lengths, bytes) = joined(packets);
        self.shot(Packets {
            lengths: &lengths,
            bytes: &bytes,
        })
    }

    /// Decodes packets whose lengths are those of their bytes.
    fn shot(&mut self, packets: Packets<'_>) -> Vec<Result<FrameAnswer, Refusal>> {
        let (work, buffers) = self.lent.parts();
        self.session
            .shot(&mut self.names, packets, &self.table, work, buffers)
            .expect("all that a player lends is sound")
    }

    /// Decodes the next packets in one call and says of each which tiles of a
    /// plane changed, by settings.
    ///
    /// # Errors
    ///
    /// Number 20 for settings out of range. Nothing has changed.
    ///
    /// # Panics
    ///
    /// If memory for the maps cannot be had.
    pub fn tiles(
        &mut self,
        settings: &Settings,
        packets: &[impl AsRef<[u8]>],
    ) -> Result<TileMaps, Refusal> {
        let (lengths, bytes) = joined(packets);
        let packets = Packets {
            lengths: &lengths,
            bytes: &bytes,
        };
        let (work, buffers) = self.lent.parts();
        self.session.tiles(
            settings,
            &mut self.names,
            packets,
            &self.table,
            work,
            buffers,
        )
    }

    /// The frames of the next packets, one by one, each with a copy of its planes;
    /// [`Player::decode`] and [`Player::frame`] copy nothing. Packets are counted
    /// on from 3, behind the headers.
    ///
    /// ```no_run
    /// # fn main() -> Result<(), Box<dyn std::error::Error>> {
    /// # let packets: Vec<Vec<u8>> = Vec::new();
    /// # let mut player = wedgepetal::Player::new(
    /// #     wedgepetal::identification(&packets[0])?, wedgepetal::setup(&packets[2])?)?;
    /// for frame in player.frames(&packets[3..]) {
    ///     match frame {
    ///         Ok(frame) => println!("{}: {:?}", frame.number(), frame.kind()),
    ///         Err(refused) => println!("{refused}"),
    ///     }
    /// }
    /// # Ok(())
    /// # }
    /// ```
    pub fn frames<P: IntoIterator<Item: AsRef<[u8]>>>(
        &mut self,
        packets: P,
    ) -> Frames<'_, P::IntoIter> {
        Frames::new(self, packets.into_iter())
    }

    /// The last accepted frame, if there was one.
    pub fn frame(&self) -> Option<Frame<'_>> {
        // Without references it names none of the three.
        let bytes = self.lent.buffers.get(self.names.previous as usize)?;
        Some(Frame::new(&self.sizes, bytes).expect("the buffers have the session's length"))
    }

    /// What should be shown of the last accepted frame, if there was one: the
    /// picture in Y', Cb, Cr, the top row first.
    pub fn picture(&self) -> Option<[View<'_>; 3]> {
        Some(self.session.picture(self.frame()?))
    }

    /// The session: its fields, whether there is a frame yet, and the place of
    /// the last frame: its key frame's number, and how many packets came since.
    pub fn session(&self) -> &Session {
        &self.session
    }

    /// The sizes of the frames.
    pub fn sizes(&self) -> &Sizes {
        &self.sizes
    }
}

/// The lengths of packets, and their bytes joined together.
pub(crate) fn joined(packets: &[impl AsRef<[u8]>]) -> (Vec<u64>, Vec<u8>) {
    let packets: Vec<&[u8]> = packets.iter().map(AsRef::as_ref).collect();
    let lengths = packets.iter().map(|packet| packet.len() as u64).collect();
    (lengths, packets.concat())
}
