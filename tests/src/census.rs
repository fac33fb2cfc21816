//! The census of recordings, held to the independent implementation's counts:
//! as they are, with packets damaged, cut, emptied, left out and exchanged, with
//! damaged headers, and with reports whose sums are at the end of 64 bits.

use crate::damage::{damage_bit, damage_byte};
use crate::random::Random;
use crate::reference::census::{NUMBERS, added};
use std::fmt;
use wedgepetal::{Refusal, Report, Unplayable};

/// How many variants of a recording are counted.
const VARIANTS: u64 = 6;

/// What was counted.
#[derive(Default)]
pub struct Counts {
    recordings: u64,
    packets: u64,
    /// How often each number was refused, from 1.
    refused: [u64; 17],
    /// Sums that passed 64 bits.
    past: u64,
}

impl Counts {
    /// Counts a recording and variants of it.
    pub fn of_recording(&mut self, random: &mut Random, packets: &[Vec<u8>]) -> Result<(), String> {
        self.compare(random, packets)?;
        for _ in 0..VARIANTS {
            let changed = variant(random, packets);
            self.compare(random, &changed)?;
        }
        for length in 0..3.min(packets.len()) {
            self.compare(random, &packets[..length])?;
        }
        Ok(())
    }

    /// Adds a recording to any report, by both.
    fn compare(&mut self, random: &mut Random, packets: &[Vec<u8>]) -> Result<(), String> {
        let added = added(packets);
        let mut before = [0; NUMBERS].map(|_: u64| random.any() >> 1);
        if random.once_in(3) {
            // The sum of one number is the last of 64 bits, or passes them.
            let place = random.index(NUMBERS);
            before[place] = (u64::MAX - added[place]).saturating_add(random.below(2));
        }
        let sums = before.iter().zip(added);
        let sums: Option<Vec<u64>> = sums.map(|(sum, more)| sum.checked_add(more)).collect();
        let mut report = Report::from_list(before);
        let answer = report.count(packets);
        let expected = match &sums {
            Some(_) => Ok(()),
            None => Err(Unplayable::Refused(Refusal::PAST_COUNT)),
        };
        let left = sums.clone().unwrap_or(before.to_vec());
        if answer != expected || report.to_list() != left[..] {
            return Err(format!(
                "census: {answer:?}, report {:?}; expected {expected:?}, {left:?}",
                report.to_list()
            ));
        }
        self.recordings += 1;
        self.packets += packets.len() as u64;
        self.past += u64::from(sums.is_none());
        for (count, more) in self.refused.iter_mut().zip(&added[3..]) {
            *count += more;
        }
        Ok(())
    }
}

/// A recording with some packets damaged, cut, emptied, left out or exchanged.
fn variant(random: &mut Random, packets: &[Vec<u8>]) -> Vec<Vec<u8>> {
    let mut packets = packets.to_vec();
    // Headers are changed in one variant out of four, or nothing else is read.
    let first = if random.once_in(4) { 0 } else { 3 };
    for _ in 0..1 + random.below(6) {
        if packets.len() <= first {
            break;
        }
        let at = first + random.index(packets.len() - first);
        let other = random.index(packets.len());
        match random.below(6) {
            0 if !packets[at].is_empty() => damage_bit(random, &mut packets[at]),
            1 if !packets[at].is_empty() => damage_byte(random, &mut packets[at]),
            2 => {
                let length = random.index(packets[at].len() + 1);
                packets[at].truncate(length);
            }
            3 => packets[at].clear(),
            4 => {
                packets.remove(at);
            }
            _ => packets[at] = packets[other].clone(),
        }
    }
    packets
}

impl fmt::Display for Counts {
    fn fmt(&self, f: &mut fmt::Formatter<'_>) -> fmt::Result {
        let refused = (1..).zip(self.refused).filter(|(_, count)| *count > 0);
        let refused: Vec<String> = refused
            .map(|(number, count)| format!("{count} by {number}"))
            .collect();
        write!(
            f,
            "{} recordings counted, {} packets, refused {}; sums past 64 bits: {}",
            self.recordings,
            self.packets,
            refused.join(", "),
            self.past
        )
    }
}
