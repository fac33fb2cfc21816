//! Which cases of four vectors were read. What "last" is behind a macro block
//! with FOUR hangs on which of its luma blocks are coded, 15 sets; it shows in
//! the next macro block if that has LAST or LAST2. With the three formats
//! these are 90 cases.

use crate::reference::frame::FramePacket;
use crate::reference::frame::modes::Mode;
use crate::reference::frame::record::{Prediction, Record, Vector};
use crate::reference::layout::{Layout, MacroBlock};
use std::collections::BTreeMap;
use std::fmt;

/// All formats.
pub const FORMATS: [u64; 3] = [0, 2, 3];

/// The modes that show what "last" and "last2" are.
pub const SHOWING: [Mode; 2] = [Mode::Last, Mode::Last2];

/// A case.
#[derive(Clone, Copy, Debug, PartialEq, Eq, PartialOrd, Ord)]
pub struct FourCase {
    /// PF.
    pub format: u64,
    /// Which of A, B, C, D are coded.
    pub coded: [bool; 4],
    /// The mode of the next macro block.
    pub next: Mode,
}

/// How often each case was read.
#[derive(Default)]
pub struct FourCases(BTreeMap<FourCase, u64>);

impl FourCases {
    /// Counts the cases of a packet.
    pub fn count(&mut self, layout: &Layout, packet: &FramePacket) {
        for (_, case) in cases(layout, packet) {
            *self.0.entry(case).or_default() += 1;
        }
    }

    /// The cases that were not read.
    pub fn missed(&self) -> Vec<String> {
        let missed = all().filter(|case| !self.0.contains_key(case));
        missed.map(|case| format!("no {case:?}")).collect()
    }
}

impl fmt::Display for FourCases {
    fn fmt(&self, f: &mut fmt::Formatter<'_>) -> fmt::Result {
        let counts = || all().map(|case| self.0.get(&case).copied().unwrap_or(0));
        write!(
            f,
            "four vectors, then LAST or LAST2: {} of {} cases, each at least {} times",
            counts().filter(|count| *count > 0).count(),
            counts().count(),
            counts().min().unwrap_or(0)
        )
    }
}

/// All sets of coded luma blocks but the empty one: which of A, B, C, D.
pub fn sets() -> impl Iterator<Item = [bool; 4]> {
    (1..16).map(|set| [0, 1, 2, 3].map(|block| set >> block & 1 == 1))
}

/// All cases.
fn all() -> impl Iterator<Item = FourCase> {
    sets().flat_map(|coded| {
        FORMATS.into_iter().flat_map(move |format| {
            SHOWING.map(|next| FourCase {
                format,
                coded,
                next,
            })
        })
    })
}

/// The cases of a packet, each with the number of its macro block in coded
/// order, but those in which a wrong vector might not show.
pub fn cases(layout: &Layout, packet: &FramePacket) -> Vec<(usize, FourCase)> {
    let of_macro_block = layout.macro_blocks.iter().zip(&packet.modes);
    let behind = of_macro_block.clone().skip(1);
    let mut cases = Vec::new();
    for (number, ((four, mode), (behind, next))) in of_macro_block.zip(behind).enumerate() {
        if *mode != Mode::Four || !SHOWING.contains(next) {
            continue;
        }
        let case = FourCase {
            format: layout.format,
            coded: four.luma.map(|block| packet.records[block].coded),
            next: *next,
        };
        if shows(four, behind, *next, &packet.records) {
            cases.push((number, case));
        }
    }
    cases
}

/// Whether these all differ: zero, the vectors that FOUR read, and the one
/// before them, which LAST2 shows.
fn shows(four: &MacroBlock, behind: &MacroBlock, next: Mode, records: &[Record]) -> bool {
    let mut vectors = vec![Vector::ZERO];
    vectors.extend(luma_vectors(four, records));
    if next == Mode::Last2 {
        vectors.extend(luma_vectors(behind, records).take(1));
    }
    let seen_before = |(number, vector)| vectors[..number].contains(vector);
    !vectors.iter().enumerate().any(seen_before)
}

/// The vectors of a macro block's coded luma blocks.
pub fn luma_vectors(macro_block: &MacroBlock, records: &[Record]) -> impl Iterator<Item = Vector> {
    let predictions = macro_block.luma.map(|block| records[block].prediction);
    predictions
        .into_iter()
        .filter_map(|prediction| match prediction {
            Prediction::Previous(vector) => Some(vector),
            _ => None,
        })
}

#[cfg(test)]
mod tests {
    use super::*;
    use crate::four_streams::read_stream;

    #[test]
    fn what_was_not_read_is_missed() {
        let mut counts = FourCases::default();
        assert_eq!(counts.missed().len(), 90);
        for format in [0, 3] {
            let (layout, packets) = read_stream(format);
            packets
                .iter()
                .for_each(|packet| counts.count(&layout, packet));
        }
        assert_eq!(counts.missed().len(), 30);
        assert!(
            counts
                .missed()
                .iter()
                .all(|case| case.contains("format: 2"))
        );
    }

    #[test]
    fn equal_vectors_do_not_count() {
        let (layout, mut packets) = read_stream(0);
        let packet = packets.last_mut().unwrap();
        let (number, case) = cases(&layout, packet)[14];
        assert_eq!(case.coded.map(u8::from), [0, 0, 0, 1]);
        let d = layout.macro_blocks[number].luma[3];
        packet.records[d].prediction = Prediction::Previous(Vector::ZERO);
        assert!(cases(&layout, packet).iter().all(|case| case.0 != number));
    }
}
