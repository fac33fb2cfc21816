//! The check of a stream of frames that somebody else made.

use crate::lists::{self, ANSWER_NUMBERS, FOUND_NUMBERS, Headers, TABLE_BYTES};
use crate::player::joined;
use crate::shot::answer_of;
use crate::work::Lent;
use crate::{Packets, Refusal, Refused, Unplayable, free_memory, identification};

/// What a check finds.
#[derive(Clone, Copy, Debug, PartialEq, Eq, Hash)]
pub enum Checked {
    /// The file is the stream that [`Session::film`] writes, to the byte.
    ///
    /// [`Session::film`]: crate::Session::film
    Passes,
    /// This byte of the file is the first that differs, counted from 0. Where the
    /// file is too short or too long, it is the shorter length.
    Differs(u64),
}

/// Holds a file to the stream of frames of a recording, which is given by all its
/// packets, the three headers first: every packet must be accepted, and the file
/// be what [`Session::film`] writes for their frames. A refusal wins over any
/// difference. The file is only read, and may be mapped.
///
/// [`Session::film`]: crate::Session::film
///
/// # Errors
///
/// A packet is missing or refused, or there is not enough memory.
pub fn check(packets: &[impl AsRef<[u8]>], file: &[u8]) -> Result<Checked, Unplayable> {
    check_within(packets, file, free_memory())
}

/// [`check`] with at most so many bytes of memory.
///
/// # Errors
///
/// As for [`check`], or it would take more.
pub fn check_within(
    packets: &[impl AsRef<[u8]>],
    file: &[u8],
    limit: u64,
) -> Result<Checked, Unplayable> {
    let at = |number: usize| packets.get(number).map_or(&[][..], AsRef::as_ref);
    let headers = Headers {
        identification: at(0),
        setup: at(2),
    };
    let frames = packets.get(3..).unwrap_or_default();
    // Where the header is refused the call says so, whatever is lent.
    let mut lent = match identification(headers.identification) {
        Ok(session) => Lent::new(&session, limit)?,
        Err(_) => Lent::none(),
    };
    let (lengths, bytes) = joined(frames);
    let mut answers = vec![[0; ANSWER_NUMBERS]; frames.len()];
    let mut found = [0; FOUND_NUMBERS];
    let (work, buffers) = lent.parts();
    let number = lists::check(
        headers,
        Packets {
            lengths: &lengths,
            bytes: &bytes,
        },
        file,
        &mut vec![0; TABLE_BYTES],
        work.slices(),
        buffers,
        answers.as_flattened_mut(),
        &mut found,
    );
    let [differs, place] = found;
    match (number, differs) {
        (0, 0) => Ok(Checked::Passes),
        (0, _) => Ok(Checked::Differs(place)),
        (number, _) => {
            let refusal = Refusal::by(number).at(place);
            let packet = refused_packet(refusal, &headers, &answers);
            Err(Refused::new(packet, at(packet as usize).len(), refusal).into())
        }
    }
}

/// Which packet of a recording a check refuses.
fn refused_packet(
    refusal: Refusal,
    headers: &Headers<'_>,
    answers: &[[u64; ANSWER_NUMBERS]],
) -> u64 {
    if identification(headers.identification) == Err(refusal) {
        return 0;
    }
    let refused = answers.iter().position(|answer| answer_of(answer).is_err());
    refused.map_or(2, |packet| packet as u64 + 3)
}
