//! Whole frames, made of random block data.

use super::face::{self, Blocks, Frame, MATRICES};
use super::lent::Lent;
use super::material::{coded, flags, frame, layout, packed_records, samples, small, wild};
use crate::check::Difference;
use crate::random::Random;
use crate::reference::frame::record::Record;
use crate::reference::frame::{FramePacket, Kind};
use crate::reference::layout::Layout;
use crate::reference::matrices::matrix;
use crate::reference::ranges::QuantRanges;
use crate::reference::samples::ways::{Source, Way, make};
use crate::reference::setup::Setup;
use std::fmt;

/// What was compared.
#[derive(Clone, Copy, Debug, Default)]
pub struct Counts {
    frames: u64,
    coded: u64,
    uncoded: u64,
    dc_only: u64,
}

impl fmt::Display for Counts {
    fn fmt(&self, f: &mut fmt::Formatter<'_>) -> fmt::Result {
        write!(
            f,
            "{}, of {} coded blocks ({} DC-only) and {} uncoded ones",
            self.frames, self.coded, self.dc_only, self.uncoded
        )
    }
}

/// Compares random frames.
pub fn compare(random: &mut Random, count: u64) -> Result<Counts, Difference> {
    let mut counts = Counts::default();
    for _ in 0..count {
        let frame = frame(random, 4);
        let layout = layout(frame);
        let setup = setup(random);
        let packet = packet(random, &layout);
        counts.frames += 1;
        counts.coded += packet.coded.len() as u64;
        counts.uncoded += (frame.blocks() - packet.coded.len()) as u64;
        let dc_only = packet.last_visits.iter().filter(|last| **last < 2);
        counts.dc_only += dc_only.count() as u64;
        check(random, frame, &layout, &setup, &packet)?;
    }
    Ok(counts)
}

/// What a setup says of limits and matrices.
fn setup(random: &mut Random) -> Setup {
    let mut list = |most: u64| -> Vec<u64> { (0..64).map(|_| random.up_to(most)).collect() };
    let limits = list(127);
    let (ac_scale, dc_scale) = (list(300), list(65535));
    let base_matrices = (0..4).map(|_| list(255)).collect();
    let mut ranges = || {
        let first = 1 + random.below(62);
        QuantRanges {
            sizes: vec![first, 63 - first],
            indices: (0..3).map(|_| random.below(4)).collect(),
        }
    };
    Setup {
        limits,
        ac_scale,
        dc_scale,
        base_matrices,
        ranges: (0..6).map(|_| ranges()).collect(),
        codes: Vec::new(),
        bits: 0,
    }
}

/// What a frame packet could say, and more: any values, vectors and orders.
fn packet(random: &mut Random, layout: &Layout) -> FramePacket {
    let qis: Vec<usize> = (0..1 + random.index(3)).map(|_| random.index(64)).collect();
    let flags = flags(random, layout.blocks.len());
    let mut blocks: Vec<usize> = layout.coded_order().filter(|b| flags[*b]).collect();
    if random.once_in(3) {
        shuffle(random, &mut blocks);
    }
    let mut records = vec![Record::UNCODED; layout.blocks.len()];
    for block in &blocks {
        records[*block] = coded(random, qis.len());
    }
    let limit = random.pick(&[1, 30, 580, 0]);
    let coefficients = blocks.iter().map(|_| coefficients(random, limit)).collect();
    let last_visits = blocks.iter().map(|_| last_visit(random)).collect();
    FramePacket {
        kind: Kind::Inter,
        qis,
        flags: Vec::new(),
        coded: blocks,
        records,
        modes: Vec::new(),
        coefficients,
        last_visits,
        tokens: 0,
        bits: 0,
    }
}

/// Puts a list into any order.
fn shuffle(random: &mut Random, list: &mut [usize]) {
    for i in (1..list.len()).rev() {
        list.swap(i, random.index(i + 1));
    }
}

/// The coefficients of a block, few or many.
fn coefficients(random: &mut Random, limit: i16) -> [i16; 64] {
    let mut coefficients = [0; 64];
    let few = random.pick(&[1, 4, 16, 64]);
    for coefficient in &mut coefficients {
        *coefficient = match (random.once_in(few), limit) {
            (false, _) => 0,
            (true, 0) => wild(random),
            (true, limit) => small(random, limit),
        };
    }
    coefficients
}

/// The position of a last visit.
fn last_visit(random: &mut Random) -> u8 {
    match random.below(3) {
        0 => random.below(3) as u8,
        _ => random.below(64) as u8,
    }
}

/// The matrices of a frame: by type, plane and qi of the list. What stands in
/// the place of a qi that the list does not have is read by nobody.
fn matrices(setup: &Setup, qis: &[usize]) -> Vec<u16> {
    let mut list = Vec::with_capacity(MATRICES);
    for kind in 0..2 {
        for plane in 0..3 {
            for index in 0..3 {
                match qis.get(index) {
                    Some(qi) => {
                        let matrix = matrix(setup, kind, plane, *qi);
                        list.extend(matrix.iter().map(|value| *value as u16));
                    }
                    None => list.extend([0x5A5A; 64]),
                }
            }
        }
    }
    list
}

/// Work memory with a frame's blocks.
struct Work {
    records: Lent<u32>,
    coded: Lent<u64>,
    coefs: Lent<i16>,
    dc: Lent<i16>,
    lasts: Lent<u8>,
}

impl Work {
    fn new(random: &mut Random, frame: Frame, packet: &FramePacket) -> Work {
        let blocks = frame.blocks();
        let mut coded: Vec<u64> = packet.coded.iter().map(|block| *block as u64).collect();
        let mut coefs = packet.coefficients.concat();
        let mut lasts = packet.last_visits.clone();
        coded.resize(blocks, 0);
        coefs.resize(64 * blocks, 0);
        lasts.resize(blocks, 0);
        Work {
            records: Lent::new(&packed_records(random, &packet.records), 0xA5A5_A5A5),
            coded: Lent::new(&coded, 0x1357_9BDF),
            coefs: Lent::new(&coefs, 0x2468),
            dc: Lent::new(&vec![0; blocks], 0x1234),
            lasts: Lent::new(&lasts, 0x5A),
        }
    }

    /// All zero, or what is not.
    fn is_zero(&self, blocks: usize) -> Result<(), String> {
        let name = |list: &str, came: String| format!("list:     {list}\n{came}");
        let named = |list: &'static str| move |came| name(list, came);
        self.records
            .holds(&vec![0; blocks])
            .map_err(named("records"))?;
        self.coded.holds(&vec![0; blocks]).map_err(named("coded"))?;
        let coefs = self.coefs.holds(&vec![0; 64 * blocks]);
        coefs.map_err(named("coefs"))?;
        self.dc.holds(&vec![0; blocks]).map_err(named("dc"))?;
        self.lasts.holds(&vec![0; blocks]).map_err(named("lasts"))
    }
}

/// Compares a frame, and what is left of its blocks.
fn check(
    random: &mut Random,
    frame: Frame,
    layout: &Layout,
    setup: &Setup,
    packet: &FramePacket,
) -> Result<(), Difference> {
    let [golden, previous, old] = [(); 3].map(|()| samples(random, frame.bytes()));
    let mut expected = vec![0; frame.bytes()];
    let source = Source {
        layout,
        setup,
        golden: &golden,
        previous: &previous,
    };
    make(Way::First, source, packet, &mut expected);
    let mut new = Lent::new(&old, 0xA5);
    let mut work = Work::new(random, frame, packet);
    let blocks = Blocks {
        records: work.records.list(),
        coded: work.coded.list(),
        count: packet.coded.len(),
        coefs: work.coefs.list(),
        dc: work.dc.list(),
        lasts: work.lasts.list(),
    };
    let limit = setup.limits[packet.qis[0]];
    face::make_frame(
        blocks.tested(frame),
        (&matrices(setup, &packet.qis), limit as u32),
        [&golden, &previous],
        new.list(),
    );
    let came = new
        .holds(&expected)
        .and_then(|()| work.is_zero(frame.blocks()));
    came.map_err(|came| {
        let given = format!(
            "call:     parts_make_frame\ngiven:    {frame:?}, limit {limit}\n\
             coded:    {:?}\nrecords:  {:?}\nlasts:    {:?}\ncoefs:    {:?}\n",
            packet.coded, packet.records, packet.last_visits, packet.coefficients
        );
        Difference::new(&given, &came)
    })
}
