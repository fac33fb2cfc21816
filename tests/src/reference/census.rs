//! The census: what the packets of a recording are and hold.

use super::decode::Decoder;
use super::frame::{FramePacket, Kind};
use super::identification::identification;
use super::session::Session;
use super::setup::setup;

/// How many numbers a report has.
pub const NUMBERS: usize = 34;

/// Where in the report things are counted: kinds, refusals by number, coded and
/// uncoded blocks by plane, modes.
const REFUSALS: usize = 3;
const CODED: usize = 20;
const UNCODED: usize = 23;
const MODES: usize = 26;

/// What a recording adds, if its frame packets are lent what they ask for.
/// "Three headers come first, the comment one skipped; the first refused header is
/// counted by its number (a missing one as 4) and no more of that recording is
/// read."
pub fn added(packets: &[Vec<u8>]) -> [u64; NUMBERS] {
    let mut report = [0; NUMBERS];
    let mut refused = |number: u32| report[REFUSALS + number as usize - 1] += 1;
    let fields = match packets.first().map(|packet| identification(packet)) {
        None => {
            refused(4);
            return report;
        }
        Some(Err(fault)) => {
            refused(fault.number);
            return report;
        }
        Some(Ok(fields)) => fields,
    };
    let setup = match packets.get(2).map(|packet| setup(packet)) {
        None => {
            refused(4);
            return report;
        }
        Some(Err(fault)) => {
            refused(fault.fault.number);
            return report;
        }
        Some(Ok(setup)) => setup,
    };
    let decoder = Decoder::new(&fields, &setup);
    let mut session = Session::fresh(fields);
    for packet in &packets[3..] {
        let number = match decoder.read(session.references, packet) {
            Err(fault) => fault.fault.number,
            Ok(read) => match session.after(read.kind) {
                None => 17,
                Some(after) => {
                    session = after;
                    count(&mut report, &decoder, &read);
                    continue;
                }
            },
        };
        report[REFUSALS + number as usize - 1] += 1;
    }
    report
}

/// Counts an accepted packet.
fn count(report: &mut [u64; NUMBERS], decoder: &Decoder, read: &FramePacket) {
    match read.kind {
        Kind::Intra => report[0] += 1,
        Kind::Inter => report[1] += 1,
        Kind::Repeat => {
            report[2] += 1;
            return;
        }
    }
    let planes = &decoder.layout.sizes.planes;
    for plane in 0..3 {
        let first: u64 = planes[..plane].iter().map(|plane| plane.blocks()).sum();
        let last = first + planes[plane].blocks();
        let coded = read.coded.iter().map(|block| *block as u64);
        let coded = coded.filter(|block| (first..last).contains(block)).count() as u64;
        report[CODED + plane] += coded;
        report[UNCODED + plane] += last - first - coded;
    }
    if read.kind == Kind::Inter {
        for mode in &read.modes {
            report[MODES + *mode as usize] += 1;
        }
    }
}
