//! Memory that is lent to a call: what it holds before, and whether the call
//! left what it must.

use crate::random::Random;
use crate::reference::decode::Work;
use crate::reference::work_memory::SLICES;
use wedgepetal::lists::WorkSlices;

/// Elements before and behind each lent slice, which no call may touch. An odd
/// number, so that bytes begin at odd addresses.
const GUARD: usize = 5;

/// What lent memory holds that may hold anything.
#[derive(Clone, Copy)]
pub enum Contents {
    /// Any numbers.
    Any,
    /// Numbers below 70.
    Small,
    /// The same byte everywhere.
    Byte(u8),
}

impl Contents {
    /// One of them.
    pub fn pick(random: &mut Random) -> Contents {
        match random.below(8) {
            0 => Contents::Byte(0),
            1 => Contents::Byte(0xA5),
            2 => Contents::Byte(0xFF),
            3 => Contents::Small,
            _ => Contents::Any,
        }
    }

    fn element(self, random: &mut Random) -> u64 {
        match self {
            Contents::Any => random.any(),
            Contents::Small => random.below(70),
            Contents::Byte(byte) => u64::from_ne_bytes([byte; 8]),
        }
    }
}

/// An element of a lent slice.
pub trait Element: Copy + PartialEq {
    /// The low bits of a number.
    fn of(number: u64) -> Self;
}

impl Element for u8 {
    fn of(number: u64) -> u8 {
        number as u8
    }
}

impl Element for i16 {
    fn of(number: u64) -> i16 {
        number as i16
    }
}

impl Element for u32 {
    fn of(number: u64) -> u32 {
        number as u32
    }
}

impl Element for u64 {
    fn of(number: u64) -> u64 {
        number
    }
}

/// A lent slice with random elements around it, and how all was before the call.
pub struct Slice<T> {
    memory: Vec<T>,
    before: Vec<T>,
}

impl<T: Element> Slice<T> {
    fn new(random: &mut Random, contents: impl Iterator<Item = T>) -> Slice<T> {
        let mut memory: Vec<T> = Vec::with_capacity(contents.size_hint().0 + 2 * GUARD);
        memory.extend((0..GUARD).map(|_| T::of(random.any())));
        memory.extend(contents);
        memory.extend((0..GUARD).map(|_| T::of(random.any())));
        Slice {
            before: memory.clone(),
            memory,
        }
    }

    /// These elements.
    pub fn of(random: &mut Random, elements: &[T]) -> Slice<T> {
        Slice::new(random, elements.iter().copied())
    }

    /// So many elements that may be anything.
    fn anything(random: &mut Random, length: u64, contents: Contents) -> Slice<T> {
        let mut source = Random::new(random.any());
        let elements = (0..length).map(|_| T::of(contents.element(&mut source)));
        Slice::new(random, elements)
    }

    /// The slice.
    pub fn inner(&self) -> &[T] {
        &self.memory[GUARD..self.memory.len() - GUARD]
    }

    /// The slice, to be lent.
    pub fn lent(&mut self) -> &mut [T] {
        let end = self.memory.len() - GUARD;
        &mut self.memory[GUARD..end]
    }

    /// Whether it and what lies around it are as they were.
    pub fn untouched(&self) -> bool {
        self.memory == self.before
    }

    /// Whether what lies around the slice is as it was.
    pub fn kept_around(&self) -> bool {
        let end = self.memory.len() - GUARD;
        self.memory[..GUARD] == self.before[..GUARD] && self.memory[end..] == self.before[end..]
    }

    /// Whether it is as a call leaves work memory.
    fn is(&self, work: Work) -> bool {
        match work {
            Work::Untouched => self.untouched(),
            Work::Zero => self.kept_around() && self.inner().iter().all(|x| *x == T::of(0)),
        }
    }
}

/// Work memory.
pub struct WorkMemory {
    records: Slice<u32>,
    coded: Slice<u64>,
    coefs: Slice<i16>,
    dc: Slice<i16>,
    /// Last visits, flags, bits, super blocks, modes.
    bytes: [Slice<u8>; 5],
    active: Slice<u64>,
}

impl WorkMemory {
    /// Slices of these lengths that hold anything.
    pub fn new(random: &mut Random, lengths: [u64; SLICES]) -> WorkMemory {
        let [
            records,
            coded,
            coefs,
            dc,
            lasts,
            flags,
            bits,
            supers,
            modes,
            active,
        ] = lengths;
        let contents = Contents::pick(random);
        WorkMemory {
            records: Slice::anything(random, records, contents),
            coded: Slice::anything(random, coded, contents),
            coefs: Slice::anything(random, coefs, contents),
            dc: Slice::anything(random, dc, contents),
            bytes: [lasts, flags, bits, supers, modes]
                .map(|length| Slice::anything(random, length, contents)),
            active: Slice::anything(random, active, contents),
        }
    }

    /// The slices, to be lent.
    pub fn slices(&mut self) -> WorkSlices<'_> {
        let [lasts, flags, bits, supers, modes] = self.bytes.each_mut().map(Slice::lent);
        WorkSlices {
            records: self.records.lent(),
            coded: self.coded.lent(),
            coefs: self.coefs.lent(),
            dc: self.dc.lent(),
            lasts,
            flags,
            bits,
            supers,
            modes,
            active: self.active.lent(),
        }
    }

    /// Which slices are as a call leaves them.
    pub fn are(&self, work: Work) -> [bool; SLICES] {
        let [lasts, flags, bits, supers, modes] = self.bytes.each_ref().map(|x| x.is(work));
        [
            self.records.is(work),
            self.coded.is(work),
            self.coefs.is(work),
            self.dc.is(work),
            lasts,
            flags,
            bits,
            supers,
            modes,
            self.active.is(work),
        ]
    }
}

#[cfg(test)]
mod tests {
    use super::*;

    #[test]
    fn what_is_touched_shows() {
        let mut random = Random::new(5);
        let mut slice: Slice<i16> = Slice::anything(&mut random, 3, Contents::Byte(0xA5));
        assert_eq!(slice.inner(), [-0x5A5B; 3]);
        assert!(slice.is(Work::Untouched) && !slice.is(Work::Zero));
        slice.lent().fill(0);
        assert!(slice.is(Work::Zero) && !slice.is(Work::Untouched));
        slice.lent()[2] = 1;
        assert!(!slice.is(Work::Zero) && slice.kept_around());
        for around in [GUARD - 1, GUARD + 3] {
            let mut slice: Slice<u8> = Slice::of(&mut random, &[0; 3]);
            assert!(slice.is(Work::Zero) && slice.is(Work::Untouched));
            slice.memory[around] ^= 1;
            assert!(!slice.is(Work::Zero) && !slice.is(Work::Untouched));
        }
    }
}
