//! Work memory: its published lengths, and slices of these lengths.

use crate::lists::{self, LENGTH_NUMBERS, TABLE_BYTES, WorkSlices};
use crate::{Refusal, Session, Unplayable};
use std::collections::TryReserveError;

/// The lengths of the slices of work memory, in elements.
#[derive(Clone, Debug, PartialEq, Eq)]
#[non_exhaustive]
pub struct WorkLengths {
    /// Block records: NBS.
    pub records: u64,
    /// The coded blocks: NBS.
    pub coded: u64,
    /// Coefficients: 64·NBS.
    pub coefs: u64,
    /// DC after prediction: NBS.
    pub dc: u64,
    /// Last visits: NBS.
    pub lasts: u64,
    /// Coded flags: NBS.
    pub flags: u64,
    /// Bits of a run string: NBS.
    pub bits: u64,
    /// Scratch for super blocks: 2·NSBS.
    pub supers: u64,
    /// Modes: NMBS.
    pub modes: u64,
    /// Blocks that are not yet at their end: NBS.
    pub active: u64,
    /// The bytes of all of them together: 153·NBS + 2·NSBS + NMBS.
    pub bytes: u64,
}

impl Session {
    /// The lengths of work memory for this session's frames.
    ///
    /// # Errors
    ///
    /// Number 8, as for every call on a session.
    pub fn work_lengths(&self) -> Result<WorkLengths, Refusal> {
        let mut list = [0; LENGTH_NUMBERS];
        Refusal::check(lists::work_lengths(&self.to_list(), &mut list))?;
        let [
            records,
            coded,
            coefs,
            dc,
            lasts,
            flags,
            bits,
            supers,
            modes,
            active,
            bytes,
        ] = list;
        Ok(WorkLengths {
            records,
            coded,
            coefs,
            dc,
            lasts,
            flags,
            bits,
            supers,
            modes,
            active,
            bytes,
        })
    }
}

/// Work memory, lent to frame calls. It keeps nothing from call to call.
#[derive(Debug, Default)]
pub struct Work {
    records: Vec<u32>,
    coded: Vec<u64>,
    coefs: Vec<i16>,
    dc: Vec<i16>,
    lasts: Vec<u8>,
    flags: Vec<u8>,
    bits: Vec<u8>,
    supers: Vec<u8>,
    modes: Vec<u8>,
    active: Vec<u64>,
}

impl Work {
    /// Work memory of these lengths, all zero.
    ///
    /// # Errors
    ///
    /// So much memory cannot be had.
    pub fn new(lengths: &WorkLengths) -> Result<Work, TryReserveError> {
        Ok(Work {
            records: zeros(lengths.records)?,
            coded: zeros(lengths.coded)?,
            coefs: zeros(lengths.coefs)?,
            dc: zeros(lengths.dc)?,
            lasts: zeros(lengths.lasts)?,
            flags: zeros(lengths.flags)?,
            bits: zeros(lengths.bits)?,
            supers: zeros(lengths.supers)?,
            modes: zeros(lengths.modes)?,
            active: zeros(lengths.active)?,
        })
    }

    /// The slices, to be lent to a call.
    pub fn slices(&mut self) -> WorkSlices<'_> {
        WorkSlices {
            records: &mut self.records,
            coded: &mut self.coded,
            coefs: &mut self.coefs,
            dc: &mut self.dc,
            lasts: &mut self.lasts,
            flags: &mut self.flags,
            bits: &mut self.bits,
            supers: &mut self.supers,
            modes: &mut self.modes,
            active: &mut self.active,
        }
    }
}

/// Work memory and three plane buffers.
#[derive(Debug)]
pub(crate) struct Lent {
    pub work: Work,
    pub buffers: [Vec<u8>; 3],
}

impl Lent {
    /// How many bytes a session needs: three plane buffers, work memory and table
    /// memory.
    pub fn bytes(session: &Session) -> Result<u64, Refusal> {
        let (sizes, lengths) = (session.sizes()?, session.work_lengths()?);
        Ok(3 * sizes.buffer + lengths.bytes + TABLE_BYTES as u64)
    }

    /// What a session needs, all zero, if that is not more than the limit.
    pub fn new(session: &Session, limit: u64) -> Result<Lent, Unplayable> {
        let bytes = Lent::bytes(session)?;
        if bytes > limit {
            return Err(Unplayable::Limit { bytes, limit });
        }
        let (sizes, lengths) = (session.sizes()?, session.work_lengths()?);
        let no_memory = |_| Unplayable::Memory(bytes);
        let buffer = || zeros(sizes.buffer).map_err(no_memory);
        Ok(Lent {
            work: Work::new(&lengths).map_err(no_memory)?,
            buffers: [buffer()?, buffer()?, buffer()?],
        })
    }

    /// Memory without a byte, for a recording that has no session.
    pub fn none() -> Lent {
        Lent {
            work: Work::default(),
            buffers: Default::default(),
        }
    }

    /// Both, to be lent to a call.
    pub fn parts(&mut self) -> (&mut Work, [&mut [u8]; 3]) {
        let buffers = self.buffers.each_mut().map(Vec::as_mut_slice);
        (&mut self.work, buffers)
    }
}

/// So many zeros, or the error that there is no memory for them.
pub(crate) fn zeros<T: Clone + Default>(length: u64) -> Result<Vec<T>, TryReserveError> {
    let mut list = Vec::new();
    // A length beyond the address space is one that cannot be reserved either.
    let length = usize::try_from(length).unwrap_or(usize::MAX);
    list.try_reserve_exact(length)?;
    list.resize(length, T::default());
    Ok(list)
}

#[cfg(test)]
mod tests {
    use super::*;

    #[test]
    fn memory_that_cannot_be_had_is_an_error() {
        assert_eq!(zeros::<u16>(3), Ok(vec![0; 3]));
        assert!(zeros::<u16>(u64::MAX).is_err());
        assert!(zeros::<u64>(1 << 61).is_err());
    }
}
