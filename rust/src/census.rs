//! A census of recordings.

use crate::lists::{self, REPORT_NUMBERS, TABLE_BYTES};
use crate::player::joined;
use crate::work::Lent;
use crate::{Packets, Refusal, Unplayable, free_memory, identification};

/// What the packets of recordings are and hold, counted.
///
/// ```
/// use wedgepetal::Report;
///
/// let mut report = Report::default();
/// // A recording without packets: its identification header is missing.
/// report.count(&[] as &[&[u8]])?;
/// assert_eq!(report.refused_by(4), 1);
/// assert_eq!(report.packets(), 0);
/// # Ok::<(), wedgepetal::Unplayable>(())
/// ```
#[derive(Clone, Copy, Debug, PartialEq, Eq, Hash)]
pub struct Report([u64; REPORT_NUMBERS]);

impl Default for Report {
    /// Nothing is counted yet.
    fn default() -> Report {
        Report([0; REPORT_NUMBERS])
    }
}

impl Report {
    /// The report that a list of numbers stands for.
    pub fn from_list(list: [u64; REPORT_NUMBERS]) -> Report {
        Report(list)
    }

    /// The report as a list of numbers.
    pub fn to_list(&self) -> [u64; REPORT_NUMBERS] {
        self.0
    }

    /// So many numbers from a place on.
    fn part<const N: usize>(&self, place: usize) -> [u64; N] {
        std::array::from_fn(|i| self.0[place + i])
    }

    /// Accepted packets: intra, inter, repeats.
    pub fn kinds(&self) -> [u64; 3] {
        self.part(0)
    }

    /// Refused headers and packets, by the numbers 1 to 17.
    pub fn refusals(&self) -> [u64; 17] {
        self.part(3)
    }

    /// What was refused by a number.
    pub fn refused_by(&self, number: usize) -> u64 {
        let place = number.checked_sub(1);
        place.map_or(0, |place| *self.refusals().get(place).unwrap_or(&0))
    }

    /// Coded blocks of Y', Cb and Cr in intra and inter frames.
    pub fn coded(&self) -> [u64; 3] {
        self.part(20)
    }

    /// Blocks of these frames that are not coded.
    pub fn uncoded(&self) -> [u64; 3] {
        self.part(23)
    }

    /// Macro blocks of inter frames by their mode, 0 to 7.
    pub fn modes(&self) -> [u64; 8] {
        self.part(26)
    }

    /// How many packets were accepted; sums that pass 64 bits stay at their end.
    pub fn packets(&self) -> u64 {
        self.kinds().into_iter().fold(0, u64::saturating_add)
    }

    /// How many headers and packets were refused, likewise.
    pub fn refused(&self) -> u64 {
        self.refusals().into_iter().fold(0, u64::saturating_add)
    }

    /// Adds a recording, which is given by all its packets, the three headers
    /// first. Its packets are read, and no frame is made. The first refused header
    /// is counted by its number, a missing one as 4, and no more of that recording
    /// is read.
    ///
    /// # Errors
    ///
    /// Number 15 if a sum would pass 64 bits, or there is not enough memory. The
    /// report is then as it was.
    pub fn count(&mut self, packets: &[impl AsRef<[u8]>]) -> Result<(), Unplayable> {
        self.count_within(packets, free_memory())
    }

    /// [`Report::count`] with at most so many bytes of memory.
    ///
    /// # Errors
    ///
    /// As for [`Report::count`], or it would take more.
    pub fn count_within(
        &mut self,
        packets: &[impl AsRef<[u8]>],
        limit: u64,
    ) -> Result<(), Unplayable> {
        // Where the header is missing or refused the call counts that, whatever
        // is lent.
        let first = packets.first().map_or(&[][..], AsRef::as_ref);
        let mut lent = match identification(first) {
            Ok(session) => Lent::new(&session, limit)?,
            Err(_) => Lent::none(),
        };
        let (lengths, bytes) = joined(packets);
        let (work, buffers) = lent.parts();
        let number = lists::census(
            Packets {
                lengths: &lengths,
                bytes: &bytes,
            },
            &mut self.0,
            &mut vec![0; TABLE_BYTES],
            work.slices(),
            buffers,
        );
        Ok(Refusal::check(number)?)
    }

    /// Adds another report to this one.
    ///
    /// # Errors
    ///
    /// Number 15 if a sum would pass 64 bits. The report is then as it was.
    pub fn add(&mut self, other: &Report) -> Result<(), Refusal> {
        let mut sums = self.0;
        for (sum, number) in sums.iter_mut().zip(other.0) {
            *sum = sum.checked_add(number).ok_or(Refusal::PAST_COUNT)?;
        }
        self.0 = sums;
        Ok(())
    }
}

#[cfg(test)]
mod tests {
    use super::*;

    #[test]
    fn parts_of_a_report() {
        let report = Report::from_list(std::array::from_fn(|i| i as u64));
        assert_eq!(report.kinds(), [0, 1, 2]);
        assert_eq!((report.refused_by(1), report.refused_by(17)), (3, 19));
        assert_eq!((report.refused_by(0), report.refused_by(18)), (0, 0));
        assert_eq!(report.coded(), [20, 21, 22]);
        assert_eq!(report.uncoded(), [23, 24, 25]);
        assert_eq!(report.modes(), [26, 27, 28, 29, 30, 31, 32, 33]);
        assert_eq!(report.packets(), 3);
    }

    #[test]
    fn sums_that_pass_are_refused_and_change_nothing() {
        let mut report = Report::from_list([u64::MAX - 1; REPORT_NUMBERS]);
        let one = Report::from_list([1; REPORT_NUMBERS]);
        report.add(&one).unwrap();
        assert_eq!(report.to_list(), [u64::MAX; REPORT_NUMBERS]);
        let mut last = [0; REPORT_NUMBERS];
        last[REPORT_NUMBERS - 1] = 1;
        let before = report;
        assert_eq!(
            report.add(&Report::from_list(last)),
            Err(Refusal::PAST_COUNT)
        );
        assert_eq!(report, before);
    }
}
