//! The calls of the static library on lists of numbers, made safe.
//!
//! Each function is the call of the same name in `include/wedgepetal.h`, with
//! a slice for each pointer and length. It answers 0 if the call is accepted,
//! else the number of its refusal; the header has a table of what a refused
//! call writes. Every list may have any length and any contents. The functions
//! of the crate's root are easier to use; these are here for those who hold
//! lists already.
#![allow(unsafe_code)]

mod face;
mod products;

pub use products::{
    FOUND_NUMBERS, Headers, REPORT_NUMBERS, census, check, tiles_frame, tiles_length, tiles_shot,
};

/// How many numbers a session has.
pub const SESSION_NUMBERS: usize = 19;

/// How many numbers the sizes of a frame have.
pub const SIZE_NUMBERS: usize = 16;

/// How many numbers a block has: plane, x, y.
pub const BLOCK_NUMBERS: usize = 3;

/// How many numbers the place of a macro block has: x, y.
pub const PLACE_NUMBERS: usize = 2;

/// How many numbers the bit place of a header's refusal has.
pub const FAULT_NUMBERS: usize = 1;

/// How many numbers the lengths of work memory have: the ten slices in the
/// order of [`WorkSlices`], then the bytes of all of them together.
pub const LENGTH_NUMBERS: usize = 11;

/// How many numbers the answer of a frame has: the number of the refusal (0 if
/// there is none), its place, kind, how many qi, three qi, how many tokens.
pub const ANSWER_NUMBERS: usize = 8;

/// How many numbers name the buffers of a shot: where golden lies, and where
/// previous.
pub const NAME_NUMBERS: usize = 2;

/// The name that golden and previous have without references.
pub const NO_BUFFER: u64 = 3;

/// How many bytes table memory has.
pub const TABLE_BYTES: usize = 28_184;

/// How many numbers a quantization matrix has.
pub const MATRIX_NUMBERS: usize = 64;

/// How many numbers say what a stream of frames holds: width, height, FRN, FRD,
/// PARN, PARD, PF, how many frames.
pub const FILM_NUMBERS: usize = 8;

/// How many numbers settings have: tile, first and last shot, plane.
pub const SETTINGS_NUMBERS: usize = 4;

/// Reads an identification header; `session` (19 numbers) receives the fresh
/// session, `place` (1 number) the bit place of a refusal, 0 where there is none.
pub fn identification(packet: &[u8], session: &mut [u64], place: &mut [u64]) -> u32 {
    // SAFETY: all pointers come from slices, so they are not null and valid
    // for the lengths given, and a slice that is lent to be written overlaps
    // no other.
    unsafe {
        face::wedgepetal_identification(
            packet.as_ptr(),
            packet.len(),
            session.as_mut_ptr(),
            session.len(),
            place.as_mut_ptr(),
            place.len(),
        )
    }
}

/// The sizes of a session's frames (16 numbers).
pub fn sizes(session: &[u64], sizes: &mut [u64]) -> u32 {
    // SAFETY: as in `identification`.
    unsafe {
        face::wedgepetal_sizes(
            session.as_ptr(),
            session.len(),
            sizes.as_mut_ptr(),
            sizes.len(),
        )
    }
}

/// The block that is this number in coded order: plane, x, y (3 numbers).
pub fn block_at(session: &[u64], number: u64, block: &mut [u64]) -> u32 {
    // SAFETY: as in `identification`.
    unsafe {
        face::wedgepetal_block_at(
            session.as_ptr(),
            session.len(),
            number,
            block.as_mut_ptr(),
            block.len(),
        )
    }
}

/// The number in coded order of block (x, y) of a plane (1 number).
pub fn block_number(session: &[u64], plane: u64, x: u64, y: u64, number: &mut [u64]) -> u32 {
    // SAFETY: as in `identification`.
    unsafe {
        face::wedgepetal_block_number(
            session.as_ptr(),
            session.len(),
            plane,
            x,
            y,
            number.as_mut_ptr(),
            number.len(),
        )
    }
}

/// The macro block that is this number in coded order: x, y (2 numbers).
pub fn macro_block_at(session: &[u64], number: u64, place: &mut [u64]) -> u32 {
    // SAFETY: as in `identification`.
    unsafe {
        face::wedgepetal_macro_block_at(
            session.as_ptr(),
            session.len(),
            number,
            place.as_mut_ptr(),
            place.len(),
        )
    }
}

/// The number in coded order of macro block (x, y) (1 number).
pub fn macro_block_number(session: &[u64], x: u64, y: u64, number: &mut [u64]) -> u32 {
    // SAFETY: as in `identification`.
    unsafe {
        face::wedgepetal_macro_block_number(
            session.as_ptr(),
            session.len(),
            x,
            y,
            number.as_mut_ptr(),
            number.len(),
        )
    }
}

/// The macro block that block (x, y) of a plane belongs to: x, y (2 numbers).
pub fn macro_block_of(session: &[u64], plane: u64, x: u64, y: u64, place: &mut [u64]) -> u32 {
    // SAFETY: as in `identification`.
    unsafe {
        face::wedgepetal_macro_block_of(
            session.as_ptr(),
            session.len(),
            plane,
            x,
            y,
            place.as_mut_ptr(),
            place.len(),
        )
    }
}

/// Where in a plane buffer sample (column, row) of block (x, y) of a plane
/// lies (1 number).
pub fn sample_offset(
    session: &[u64],
    plane: u64,
    x: u64,
    y: u64,
    column: u64,
    row: u64,
    offset: &mut [u64],
) -> u32 {
    // SAFETY: as in `identification`.
    unsafe {
        face::wedgepetal_sample_offset(
            session.as_ptr(),
            session.len(),
            plane,
            x,
            y,
            column,
            row,
            offset.as_mut_ptr(),
            offset.len(),
        )
    }
}

/// Reads a setup header into table memory (28,184 bytes). Refused by another
/// number than 1, it leaves all of table memory zero. `place` (1 number)
/// receives the bit place of a refusal, 0 where there is none.
pub fn setup(packet: &[u8], table: &mut [u8], place: &mut [u64]) -> u32 {
    // SAFETY: as in `identification`.
    unsafe {
        face::wedgepetal_setup(
            packet.as_ptr(),
            packet.len(),
            table.as_mut_ptr(),
            table.len(),
            place.as_mut_ptr(),
            place.len(),
        )
    }
}

/// Whether some accepted setup packet leaves this table memory: 0, or 1 or 8.
pub fn table(table: &[u8]) -> u32 {
    // SAFETY: as in `identification`.
    unsafe { face::wedgepetal_table(table.as_ptr(), table.len()) }
}

/// The loop limit of a qi (1 number).
pub fn loop_limit(table: &[u8], qi: u64, limit: &mut [u64]) -> u32 {
    // SAFETY: as in `identification`.
    unsafe {
        face::wedgepetal_loop_limit(
            table.as_ptr(),
            table.len(),
            qi,
            limit.as_mut_ptr(),
            limit.len(),
        )
    }
}

/// The quantization matrix of a type (0 intra, 1 inter), plane and qi in
/// natural order (64 numbers).
pub fn matrix(table: &[u8], kind: u64, plane: u64, qi: u64, matrix: &mut [u64]) -> u32 {
    // SAFETY: as in `identification`.
    unsafe {
        face::wedgepetal_matrix(
            table.as_ptr(),
            table.len(),
            kind,
            plane,
            qi,
            matrix.as_mut_ptr(),
            matrix.len(),
        )
    }
}

/// The ten slices of work memory. They may hold anything before a frame call;
/// past its length check they are all zero after it.
#[derive(Debug)]
pub struct WorkSlices<'a> {
    /// One record for each block.
    pub records: &'a mut [u32],
    /// The coded blocks.
    pub coded: &'a mut [u64],
    /// 64 coefficients for each block.
    pub coefs: &'a mut [i16],
    /// The DC of each block after prediction.
    pub dc: &'a mut [i16],
    /// The position of the last visit of each block.
    pub lasts: &'a mut [u8],
    /// The coded flag of each block.
    pub flags: &'a mut [u8],
    /// The bits of a run string.
    pub bits: &'a mut [u8],
    /// Two bytes for each super block.
    pub supers: &'a mut [u8],
    /// The mode of each macro block.
    pub modes: &'a mut [u8],
    /// The blocks that are not yet at their end.
    pub active: &'a mut [u64],
}

/// The three plane buffers of a frame call, each of 64·NBS bytes.
#[derive(Debug)]
pub struct Buffers<'a> {
    /// The golden frame.
    pub golden: &'a [u8],
    /// The previous frame.
    pub previous: &'a [u8],
    /// Receives the new frame, if the packet is accepted.
    pub new: &'a mut [u8],
}

/// The lengths of work memory for a session's frames (11 numbers).
pub fn work_lengths(session: &[u64], lengths: &mut [u64]) -> u32 {
    // SAFETY: as in `identification`.
    unsafe {
        face::wedgepetal_work_lengths(
            session.as_ptr(),
            session.len(),
            lengths.as_mut_ptr(),
            lengths.len(),
        )
    }
}

/// A frame in red, green and blue, three bytes a pixel, the top row first:
/// `written` (1 number) receives how many bytes of `out` were written.
pub fn rgb(session: &[u64], planes: &[u8], out: &mut [u8], written: &mut [u64]) -> u32 {
    // SAFETY: as in `identification`.
    unsafe {
        face::wedgepetal_rgb(
            session.as_ptr(),
            session.len(),
            planes.as_ptr(),
            planes.len(),
            out.as_mut_ptr(),
            out.len(),
            written.as_mut_ptr(),
            written.len(),
        )
    }
}

/// Writes frames, plane buffer after plane buffer, as a YUV4MPEG2 stream:
/// `written` (1 number) receives how many bytes of `out` were written.
pub fn y4m_write(session: &[u64], frames: &[u8], out: &mut [u8], written: &mut [u64]) -> u32 {
    // SAFETY: as in `identification`.
    unsafe {
        face::wedgepetal_y4m_write(
            session.as_ptr(),
            session.len(),
            frames.as_ptr(),
            frames.len(),
            out.as_mut_ptr(),
            out.len(),
            written.as_mut_ptr(),
            written.len(),
        )
    }
}

/// Writes the header of a session's stream, likewise.
pub fn y4m_header(session: &[u64], out: &mut [u8], written: &mut [u64]) -> u32 {
    // SAFETY: as in `identification`.
    unsafe {
        face::wedgepetal_y4m_header(
            session.as_ptr(),
            session.len(),
            out.as_mut_ptr(),
            out.len(),
            written.as_mut_ptr(),
            written.len(),
        )
    }
}

/// Writes one frame of a session's stream, likewise.
pub fn y4m_frame(session: &[u64], planes: &[u8], out: &mut [u8], written: &mut [u64]) -> u32 {
    // SAFETY: as in `identification`.
    unsafe {
        face::wedgepetal_y4m_frame(
            session.as_ptr(),
            session.len(),
            planes.as_ptr(),
            planes.len(),
            out.as_mut_ptr(),
            out.len(),
            written.as_mut_ptr(),
            written.len(),
        )
    }
}

/// Reads a stream: `planes` receives its frames, `film` (8 numbers) what it
/// holds.
pub fn y4m_read(stream: &[u8], planes: &mut [u8], film: &mut [u64]) -> u32 {
    // SAFETY: as in `identification`.
    unsafe {
        face::wedgepetal_y4m_read(
            stream.as_ptr(),
            stream.len(),
            planes.as_mut_ptr(),
            planes.len(),
            film.as_mut_ptr(),
            film.len(),
        )
    }
}

/// Writes the text of settings (4 numbers) in a version: `written` (1 number)
/// receives how many bytes of `out` were written.
pub fn settings_write(version: u64, settings: &[u64], out: &mut [u8], written: &mut [u64]) -> u32 {
    // SAFETY: as in `identification`.
    unsafe {
        face::wedgepetal_settings_write(
            version,
            settings.as_ptr(),
            settings.len(),
            out.as_mut_ptr(),
            out.len(),
            written.as_mut_ptr(),
            written.len(),
        )
    }
}

/// Reads a text for a version into the settings in use (4 numbers).
pub fn settings_read(version: u64, text: &[u8], settings: &mut [u64]) -> u32 {
    // SAFETY: as in `identification`.
    unsafe {
        face::wedgepetal_settings_read(
            version,
            text.as_ptr(),
            text.len(),
            settings.as_mut_ptr(),
            settings.len(),
        )
    }
}

/// Decodes a frame packet: `answer` (8 numbers) receives the number of the
/// refusal (0 if there is none) and its bit place, then the frame's kind (0
/// intra, 1 inter, 2 repeat), how many qi it has, three qi, of which the others
/// are 0, and how many tokens were read; after a refusal these six are 0. An
/// accepted intra frame sets the reference number of `session` to 1, counts as a
/// key frame and sets the other packets to 0; another accepted packet counts as
/// one of these.
pub fn frame(
    session: &mut [u64],
    packet: &[u8],
    table: &[u8],
    work: WorkSlices<'_>,
    buffers: Buffers<'_>,
    answer: &mut [u64],
) -> u32 {
    // SAFETY: as in `identification`.
    unsafe {
        face::wedgepetal_frame(
            session.as_mut_ptr(),
            session.len(),
            packet.as_ptr(),
            packet.len(),
            table.as_ptr(),
            table.len(),
            work.records.as_mut_ptr(),
            work.records.len(),
            work.coded.as_mut_ptr(),
            work.coded.len(),
            work.coefs.as_mut_ptr(),
            work.coefs.len(),
            work.dc.as_mut_ptr(),
            work.dc.len(),
            work.lasts.as_mut_ptr(),
            work.lasts.len(),
            work.flags.as_mut_ptr(),
            work.flags.len(),
            work.bits.as_mut_ptr(),
            work.bits.len(),
            work.supers.as_mut_ptr(),
            work.supers.len(),
            work.modes.as_mut_ptr(),
            work.modes.len(),
            work.active.as_mut_ptr(),
            work.active.len(),
            buffers.golden.as_ptr(),
            buffers.golden.len(),
            buffers.previous.as_ptr(),
            buffers.previous.len(),
            buffers.new.as_mut_ptr(),
            buffers.new.len(),
            answer.as_mut_ptr(),
            answer.len(),
        )
    }
}

/// Decodes all packets of a shot in order, as one [`frame`] for each would:
/// `lengths` has their lengths, `packets` their bytes joined together, and
/// `answers` (8 numbers for each packet) receives their answers, also of those
/// that are refused. `names` (2 numbers) says which of the three buffers holds
/// golden and which previous, before and after; without references it is
/// ignored before, and [`NO_BUFFER`] twice after. Each new frame goes into the
/// first buffer that holds neither.
#[allow(clippy::too_many_arguments)]
pub fn shot(
    session: &mut [u64],
    names: &mut [u64],
    lengths: &[u64],
    packets: &[u8],
    table: &[u8],
    work: WorkSlices<'_>,
    buffers: [&mut [u8]; 3],
    answers: &mut [u64],
) -> u32 {
    let [first, second, third] = buffers;
    // SAFETY: as in `identification`.
    unsafe {
        face::wedgepetal_shot(
            session.as_mut_ptr(),
            session.len(),
            names.as_mut_ptr(),
            names.len(),
            lengths.as_ptr(),
            lengths.len(),
            packets.as_ptr(),
            packets.len(),
            table.as_ptr(),
            table.len(),
            work.records.as_mut_ptr(),
            work.records.len(),
            work.coded.as_mut_ptr(),
            work.coded.len(),
            work.coefs.as_mut_ptr(),
            work.coefs.len(),
            work.dc.as_mut_ptr(),
            work.dc.len(),
            work.lasts.as_mut_ptr(),
            work.lasts.len(),
            work.flags.as_mut_ptr(),
            work.flags.len(),
            work.bits.as_mut_ptr(),
            work.bits.len(),
            work.supers.as_mut_ptr(),
            work.supers.len(),
            work.modes.as_mut_ptr(),
            work.modes.len(),
            work.active.as_mut_ptr(),
            work.active.len(),
            first.as_mut_ptr(),
            first.len(),
            second.as_mut_ptr(),
            second.len(),
            third.as_mut_ptr(),
            third.len(),
            answers.as_mut_ptr(),
            answers.len(),
        )
    }
}
