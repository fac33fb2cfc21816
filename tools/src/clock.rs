//! The place of packets in time.

use recording::part::Granule;
use std::fmt;
use wedgepetal::Session;

/// Gives the position of each frame packet of a stream, from 0: by the granule
/// position of its page where that says one, else one after the last.
pub struct Clock {
    shift: u32,
    /// Granule positions count from here on.
    first: u64,
    frn: u64,
    frd: u64,
    /// The position of the next packet, if there is no granule position.
    next: u64,
}

/// A time in a stream, in microseconds.
#[derive(Clone, Copy, Debug, PartialEq, Eq, PartialOrd, Ord)]
pub struct Time(u128);

impl Clock {
    /// The clock of a session.
    pub fn of(session: &Session) -> Clock {
        Clock {
            shift: session.kfgshift as u32,
            // Until version 3.2.1 a granule position was that of a frame's
            // beginning, since then that of its end.
            first: u64::from(session.vrev >= 1),
            frn: session.frn,
            frd: session.frd,
            next: 0,
        }
    }

    /// The position of the next packet.
    pub fn tick(&mut self, granule: Option<Granule>) -> u64 {
        let position = granule.and_then(|granule| self.position(granule));
        let position = position.unwrap_or(self.next);
        self.next = position + 1;
        position
    }

    /// The position after the last packet's.
    pub fn next(&self) -> u64 {
        self.next
    }

    /// What a granule position says: the number of the last key frame in its
    /// high bits, and how many packets came after it.
    fn position(&self, granule: Granule) -> Option<u64> {
        let key = granule.position >> self.shift;
        let after = granule.position - (key << self.shift);
        (key + after).checked_sub(self.first + granule.behind)
    }

    /// The time at which the frame of a position begins.
    pub fn time(&self, position: u64) -> Time {
        let (frn, frd) = (u128::from(self.frn), u128::from(self.frd));
        Time((u128::from(position) * frd * 1_000_000 + frn / 2) / frn)
    }
}

impl fmt::Display for Time {
    fn fmt(&self, f: &mut fmt::Formatter<'_>) -> fmt::Result {
        let digits = f.precision().unwrap_or(6).min(6);
        let (unit, scale) = (10_u128.pow(6 - digits as u32), 10_u128.pow(digits as u32));
        let rounded = (self.0 + unit / 2) / unit;
        write!(f, "{}.{:0digits$}", rounded / scale, rounded % scale)
    }
}

#[cfg(test)]
mod tests {
    use super::*;
    use crate::sample;

    fn clock(vrev: u64, frn: u64, frd: u64) -> Clock {
        let header = sample::identification_header();
        Clock::of(&Session {
            vrev,
            frn,
            frd,
            ..wedgepetal::identification(&header).unwrap()
        })
    }

    #[test]
    fn packets_are_counted_or_placed_by_their_page() {
        let mut clock = clock(1, 25, 1);
        assert_eq!((clock.tick(None), clock.tick(None)), (0, 1));
        // The key frame is frame 40, counted from 1; two packets after it.
        let granule = |behind| {
            Some(Granule {
                position: 40 << 6 | 2,
                behind,
            })
        };
        assert_eq!((clock.tick(granule(1)), clock.tick(granule(0))), (40, 41));
        assert_eq!(clock.tick(None), 42);
        let none = Some(Granule {
            position: 0,
            behind: 0,
        });
        assert_eq!(clock.tick(none), 43);
    }

    #[test]
    fn old_versions_count_from_zero() {
        let granule = Granule {
            position: 3 << 6,
            behind: 0,
        };
        assert_eq!(clock(0, 25, 1).tick(Some(granule)), 3);
        assert_eq!(clock(1, 25, 1).tick(Some(granule)), 2);
    }

    #[test]
    fn times() {
        assert_eq!(clock(1, 25, 1).time(7).to_string(), "0.280000");
        assert_eq!(clock(1, 30000, 1001).time(1).to_string(), "0.033367");
        assert_eq!(format!("{:.3}", clock(1, 30000, 1001).time(2)), "0.067");
        let long = clock(1, 1, 0xFFFF_FFFF).time(1 << 32);
        assert_eq!(long.to_string(), "18446744069414584320.000000");
    }
}
