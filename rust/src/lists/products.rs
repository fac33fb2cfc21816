//! The calls that make more of packets than frames: changed tiles, the check of
//! a stream, the census.

use super::{Buffers, WorkSlices, face};
use crate::Packets;

/// How many numbers a check finds.
pub const FOUND_NUMBERS: usize = 2;

/// How many numbers the report of a census has: packets by kind (3), refusals by
/// number from 1 to 17, coded blocks by plane (3), uncoded ones (3), macro blocks
/// by mode (8).
pub const REPORT_NUMBERS: usize = 34;

/// The two headers of a recording that a check reads.
#[derive(Clone, Copy, Debug)]
pub struct Headers<'a> {
    /// The first packet.
    pub identification: &'a [u8],
    /// The third packet.
    pub setup: &'a [u8],
}

/// How many bytes a map of changed tiles has, by settings (4 numbers) and a
/// session: `length` (1 number).
pub fn tiles_length(settings: &[u64], session: &[u64], length: &mut [u64]) -> u32 {
    // SAFETY: as in `identification`.
    unsafe {
        face::wedgepetal_tiles_length(
            settings.as_ptr(),
            settings.len(),
            session.as_ptr(),
            session.len(),
            length.as_mut_ptr(),
            length.len(),
        )
    }
}

/// [`frame`](super::frame), and in `map` 1 for each tile in which some sample differs from the
/// previous frame, else 0, row by row from the bottom; by settings (4 numbers).
/// A refused call leaves the map as it was.
#[allow(clippy::too_many_arguments)]
pub fn tiles_frame(
    settings: &[u64],
    session: &mut [u64],
    packet: &[u8],
    table: &[u8],
    work: WorkSlices<'_>,
    buffers: Buffers<'_>,
    answer: &mut [u64],
    map: &mut [u8],
) -> u32 {
    // SAFETY: as in `identification`.
    unsafe {
        face::wedgepetal_tiles_frame(
            settings.as_ptr(),
            settings.len(),
            session.as_mut_ptr(),
            session.len(),
            packet.as_ptr(),
            packet.len(),
            table.as_ptr(),
            table.len(),
            work.records.as_mut_ptr(),
            work.records.len(),
            work.coded.as_mut_ptr(),
            work.coded.len(),
            work.coefs.as_mut_ptr(),
            work.coefs.len(),
            work.dc.as_mut_ptr(),
            work.dc.len(),
            work.lasts.as_mut_ptr(),
            work.lasts.len(),
            work.flags.as_mut_ptr(),
            work.flags.len(),
            work.bits.as_mut_ptr(),
            work.bits.len(),
            work.supers.as_mut_ptr(),
            work.supers.len(),
            work.modes.as_mut_ptr(),
            work.modes.len(),
            work.active.as_mut_ptr(),
            work.active.len(),
            buffers.golden.as_ptr(),
            buffers.golden.len(),
            buffers.previous.as_ptr(),
            buffers.previous.len(),
            buffers.new.as_mut_ptr(),
            buffers.new.len(),
            answer.as_mut_ptr(),
            answer.len(),
            map.as_mut_ptr(),
            map.len(),
        )
    }
}

/// [`shot`](super::shot), and in `maps` the map of each packet, one behind the other; a refused
/// packet leaves its own as it was.
#[allow(clippy::too_many_arguments)]
pub fn tiles_shot(
    settings: &[u64],
    session: &mut [u64],
    names: &mut [u64],
    packets: Packets<'_>,
    table: &[u8],
    work: WorkSlices<'_>,
    [first, second, third]: [&mut [u8]; 3],
    answers: &mut [u64],
    maps: &mut [u8],
) -> u32 {
    // SAFETY: as in `identification`.
    unsafe {
        face::wedgepetal_tiles_shot(
            settings.as_ptr(),
            settings.len(),
            session.as_mut_ptr(),
            session.len(),
            names.as_mut_ptr(),
            names.len(),
            packets.lengths.as_ptr(),
            packets.lengths.len(),
            packets.bytes.as_ptr(),
            packets.bytes.len(),
            table.as_ptr(),
            table.len(),
            work.records.as_mut_ptr(),
            work.records.len(),
            work.coded.as_mut_ptr(),
            work.coded.len(),
            work.coefs.as_mut_ptr(),
            work.coefs.len(),
            work.dc.as_mut_ptr(),
            work.dc.len(),
            work.lasts.as_mut_ptr(),
            work.lasts.len(),
            work.flags.as_mut_ptr(),
            work.flags.len(),
            work.bits.as_mut_ptr(),
            work.bits.len(),
            work.supers.as_mut_ptr(),
            work.supers.len(),
            work.modes.as_mut_ptr(),
            work.modes.len(),
            work.active.as_mut_ptr(),
            work.active.len(),
            first.as_mut_ptr(),
            first.len(),
            second.as_mut_ptr(),
            second.len(),
            third.as_mut_ptr(),
            third.len(),
            answers.as_mut_ptr(),
            answers.len(),
            maps.as_mut_ptr(),
            maps.len(),
        )
    }
}

/// Holds a file to the stream of frames of a recording: `found` (2 numbers)
/// receives 0 and 0 if it is that stream, 1 and a byte if it differs from there on,
/// or 0 and the place of a refusal. `answers` (8 numbers for each packet) and the
/// buffers are left as by [`shot`](super::shot), `table` as by [`setup`](super::setup).
#[allow(clippy::too_many_arguments)]
pub fn check(
    headers: Headers<'_>,
    packets: Packets<'_>,
    file: &[u8],
    table: &mut [u8],
    work: WorkSlices<'_>,
    [first, second, third]: [&mut [u8]; 3],
    answers: &mut [u64],
    found: &mut [u64],
) -> u32 {
    // SAFETY: as in `identification`.
    unsafe {
        face::wedgepetal_check(
            headers.identification.as_ptr(),
            headers.identification.len(),
            headers.setup.as_ptr(),
            headers.setup.len(),
            packets.lengths.as_ptr(),
            packets.lengths.len(),
            packets.bytes.as_ptr(),
            packets.bytes.len(),
            file.as_ptr(),
            file.len(),
            table.as_mut_ptr(),
            table.len(),
            work.records.as_mut_ptr(),
            work.records.len(),
            work.coded.as_mut_ptr(),
            work.coded.len(),
            work.coefs.as_mut_ptr(),
            work.coefs.len(),
            work.dc.as_mut_ptr(),
            work.dc.len(),
            work.lasts.as_mut_ptr(),
            work.lasts.len(),
            work.flags.as_mut_ptr(),
            work.flags.len(),
            work.bits.as_mut_ptr(),
            work.bits.len(),
            work.supers.as_mut_ptr(),
            work.supers.len(),
            work.modes.as_mut_ptr(),
            work.modes.len(),
            work.active.as_mut_ptr(),
            work.active.len(),
            first.as_mut_ptr(),
            first.len(),
            second.as_mut_ptr(),
            second.len(),
            third.as_mut_ptr(),
            third.len(),
            answers.as_mut_ptr(),
            answers.len(),
            found.as_mut_ptr(),
            found.len(),
        )
    }
}

/// Adds to `report` (34 numbers) what the packets of a recording, its three
/// headers first, are and hold. All else is scratch, and zero afterwards (not by
/// 16, which changes nothing).
pub fn census(
    packets: Packets<'_>,
    report: &mut [u64],
    table: &mut [u8],
    work: WorkSlices<'_>,
    [golden, previous, new]: [&mut [u8]; 3],
) -> u32 {
    // SAFETY: as in `identification`.
    unsafe {
        face::wedgepetal_census(
            packets.lengths.as_ptr(),
            packets.lengths.len(),
            packets.bytes.as_ptr(),
            packets.bytes.len(),
            report.as_mut_ptr(),
            report.len(),
            table.as_mut_ptr(),
            table.len(),
            work.records.as_mut_ptr(),
            work.records.len(),
            work.coded.as_mut_ptr(),
            work.coded.len(),
            work.coefs.as_mut_ptr(),
            work.coefs.len(),
            work.dc.as_mut_ptr(),
            work.dc.len(),
            work.lasts.as_mut_ptr(),
            work.lasts.len(),
            work.flags.as_mut_ptr(),
            work.flags.len(),
            work.bits.as_mut_ptr(),
            work.bits.len(),
            work.supers.as_mut_ptr(),
            work.supers.len(),
            work.modes.as_mut_ptr(),
            work.modes.len(),
            work.active.as_mut_ptr(),
            work.active.len(),
            golden.as_mut_ptr(),
            golden.len(),
            previous.as_mut_ptr(),
            previous.len(),
            new.as_mut_ptr(),
            new.len(),
        )
    }
}
