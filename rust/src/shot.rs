//! The call for a whole shot.

use crate::lists::{self, ANSWER_NUMBERS, NAME_NUMBERS, NO_BUFFER};
use crate::{FrameAnswer, Refusal, Session, Table, Work};

/// Which of a shot's three buffers, 0 to 2, hold the golden and the previous
/// frame.
#[derive(Clone, Copy, Debug, PartialEq, Eq, Hash)]
pub struct Names {
    /// The buffer of the golden frame.
    pub golden: u64,
    /// The buffer of the previous frame, which is the last accepted one.
    pub previous: u64,
}

impl Names {
    /// The names of a session without references.
    pub const NONE: Names = Names {
        golden: NO_BUFFER,
        previous: NO_BUFFER,
    };
}

/// The packets of a shot, joined together.
#[derive(Clone, Copy, Debug)]
pub struct Packets<'a> {
    /// How many bytes each packet has; 0 is an empty packet.
    pub lengths: &'a [u64],
    /// The bytes of one packet after the other; those behind the last are
    /// ignored.
    pub bytes: &'a [u8],
}

impl Session {
    /// Decodes all packets of a shot, in order: session, names, buffers and
    /// answers are then as one [`Session::frame`] for each packet leaves them,
    /// where a packet that is refused changes nothing. Each new frame goes into
    /// the first buffer that holds neither golden nor previous. The answers are
    /// those of the packets, one each; of frames the three buffers hold golden
    /// and previous at the end, the others are gone. A shot may be cut anywhere:
    /// the next call goes on with session, names and buffers as they are.
    /// Without references `names` is ignored.
    ///
    /// # Errors
    ///
    /// Of the whole shot, and nothing has changed: 8 for fields that could not
    /// come from an identification header, 1 if work memory or a buffer has
    /// another length than this session's, 8 for a name that is not 0 to 2 where
    /// there are references, 16 if the lengths reach past the bytes.
    ///
    /// # Panics
    ///
    /// If memory for the answers cannot be had.
    pub fn shot(
        &mut self,
        names: &mut Names,
        packets: Packets<'_>,
        table: &Table,
        work: &mut Work,
        buffers: [&mut [u8]; 3],
    ) -> Result<Vec<Result<FrameAnswer, Refusal>>, Refusal> {
        let mut session = self.to_list();
        let mut both: [u64; NAME_NUMBERS] = [names.golden, names.previous];
        let mut answers = vec![[0; ANSWER_NUMBERS]; packets.lengths.len()];
        Refusal::check(lists::shot(
            &mut session,
            &mut both,
            packets.lengths,
            packets.bytes,
            table.bytes(),
            work.slices(),
            buffers,
            answers.as_flattened_mut(),
        ))?;
        *self = Session::from_list(&session);
        let [golden, previous] = both;
        *names = Names { golden, previous };
        Ok(answers.iter().map(answer_of).collect())
    }
}

/// The answer of a packet that its list stands for.
pub(crate) fn answer_of(list: &[u64; ANSWER_NUMBERS]) -> Result<FrameAnswer, Refusal> {
    let [number, place, ..] = *list;
    // A packet is refused by 17 at most.
    Refusal::check_at(number as u32, place)?;
    Ok(FrameAnswer::from_list(list))
}
