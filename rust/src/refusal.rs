//! Refusals: their numbers, and where in a packet they were found.

use std::error::Error;
use std::fmt;

/// A refusal: its number and its bit place. The constants have place 0;
/// `Refusal::LONG_RUN.at(5311)` is a refusal by the same number at another place.
#[derive(Clone, Copy, Debug, PartialEq, Eq, Hash)]
pub struct Refusal {
    /// The number.
    pub number: u32,
    /// The bit place in the packet of the first bit of the field at fault, from
    /// 0; 0 where no field of a packet is (1, 8, 14 to 21, 255).
    pub place: u64,
}

impl Refusal {
    /// A lent list has another length than the published one.
    pub const WRONG_LENGTH: Refusal = Refusal::by(1);
    /// The type byte or "theora" is not the wanted one.
    pub const OTHER_HEADER: Refusal = Refusal::by(2);
    /// VMAJ is not 3, or VMIN is not 2.
    pub const OTHER_VERSION: Refusal = Refusal::by(3);
    /// A read passes the end of the packet.
    pub const PACKET_ENDS: Refusal = Refusal::by(4);
    /// An identification field breaks its range.
    pub const OUT_OF_RANGE: Refusal = Refusal::by(5);
    /// PF is 1, or the 3 last identification bits are not 0.
    pub const BAD_FORMAT: Refusal = Refusal::by(6);
    /// Setup: NBMS above 384, a matrix index not below NBMS, a qi sum above
    /// 63, a code longer than 32, or a 33rd leaf.
    pub const BAD_SETUP: Refusal = Refusal::by(7);
    /// The session's identification fields break 5, 6 or their widths, or its
    /// packets since the last key frame are not below 2 to the power KFGSHIFT;
    /// or a shot with references has a name that is not 0 to 2; or no accepted
    /// setup packet leaves this table memory.
    pub const NOT_GENUINE: Refusal = Refusal::by(8);
    /// An inter or empty packet, and no references.
    pub const NO_REFERENCES: Refusal = Refusal::by(9);
    /// The first bit of a frame packet is 1: it is a header.
    pub const NO_FRAME: Refusal = Refusal::by(10);
    /// An intra frame's 3 reserved bits are not 0.
    pub const RESERVED_BITS: Refusal = Refusal::by(11);
    /// A run exceeds the bits still wanted.
    pub const LONG_RUN: Refusal = Refusal::by(12);
    /// A token moves its block past position 64.
    pub const PAST_BLOCK: Refusal = Refusal::by(13);
    /// The lent output, or the plane buffer for a stream's frames, is too short.
    pub const SHORT_OUTPUT: Refusal = Refusal::by(14);
    /// A sum of a census would pass 64 bits.
    pub const PAST_COUNT: Refusal = Refusal::by(15);
    /// The lengths of packets reach past their end.
    pub const PAST_PACKETS: Refusal = Refusal::by(16);
    /// A key frame more than 64 bits count, or so many other packets since the
    /// last one that they would not stay below 2 to the power KFGSHIFT.
    pub const UNCOUNTED: Refusal = Refusal::by(17);
    /// CS is neither 1 nor 2.
    pub const UNKNOWN_COLOUR: Refusal = Refusal::by(18);
    /// A reader for version 1 is given settings of version 2.
    pub const LATER_VERSION: Refusal = Refusal::by(19);
    /// Settings, their text or the version are not as they must be.
    pub const BAD_SETTINGS: Refusal = Refusal::by(20);
    /// The stream is none that the writer writes.
    pub const OTHER_STREAM: Refusal = Refusal::by(21);
    /// The frame has no such block, macro block or sample, or there is no such
    /// type, plane or qi.
    pub const ABSENT: Refusal = Refusal::by(255);

    /// By this number, at place 0.
    pub const fn by(number: u32) -> Refusal {
        Refusal { number, place: 0 }
    }

    /// By the same number, at this place.
    pub const fn at(self, place: u64) -> Refusal {
        Refusal { place, ..self }
    }

    /// Whether it is found inside a packet, so that its place says where.
    pub fn has_place(self) -> bool {
        matches!(self.number, 2..=7 | 9..=13)
    }

    /// What its number means, in words.
    pub fn meaning(self) -> &'static str {
        match self.number {
            1 => "a lent length differs from the published one",
            2 => "a header's type byte or \"theora\" is not the wanted one",
            3 => "VMAJ is not 3, or VMIN is not 2",
            4 => "a read passes the end of the packet",
            5 => "an identification field breaks its range",
            6 => "PF is 1, or the 3 last identification bits are not 0",
            7 => {
                "setup: NBMS above 384, a matrix index not below NBMS, a qi sum above 63, \
                 a code longer than 32, or a 33rd leaf"
            }
            8 => {
                "the identification fields break 5, 6 or their widths, \
                 the packets since the last key frame are not below 2 to the power KFGSHIFT, \
                 or no accepted setup packet leaves this table memory"
            }
            9 => "an inter or empty packet and no references",
            10 => "the first bit of a frame packet is 1",
            11 => "an intra frame's 3 reserved bits are not 0",
            12 => "a run exceeds the bits still wanted",
            13 => "a token moves its block past position 64",
            14 => "the lent output is too short",
            15 => "a sum of the census would pass 64 bits",
            16 => "the lengths of the packets reach past their end",
            17 => {
                "the key frames would pass 64 bits, \
                 or the packets since the last one would reach 2 to the power KFGSHIFT"
            }
            18 => "CS is neither 1 nor 2",
            19 => "a reader for version 1 is given a text that begins with the line version=2",
            20 => {
                "settings out of range, plane 1 or 2 as version 1, a version other than 1 and 2, \
                 or a text that is none of the reader's version"
            }
            21 => "the stream is none that the writer of frames writes",
            255 => {
                "the frame has no such block, macro block or sample, \
                 or there is no such type, plane or qi"
            }
            _ => "a number without a meaning",
        }
    }

    /// All of it in words, for a packet of so many bytes.
    pub fn in_packet(self, bytes: usize) -> String {
        match self.has_place() {
            true => format!("{self} of {}", grouped(8 * bytes as u128)),
            false => self.to_string(),
        }
    }

    /// The answer of a call on lists as a result.
    pub(crate) fn check(number: u32) -> Result<(), Refusal> {
        Refusal::check_at(number, 0)
    }

    /// The same of a call that says a place.
    pub(crate) fn check_at(number: u32, place: u64) -> Result<(), Refusal> {
        match number {
            0 => Ok(()),
            number => Err(Refusal { number, place }),
        }
    }
}

/// A number as refusals have it in words: with a comma before each three digits.
pub fn grouped(number: u128) -> String {
    let digits = number.to_string();
    let mut text = String::new();
    for (i, digit) in digits.chars().enumerate() {
        if i > 0 && (digits.len() - i) % 3 == 0 {
            text.push(',');
        }
        text.push(digit);
    }
    text
}

impl fmt::Display for Refusal {
    fn fmt(&self, f: &mut fmt::Formatter<'_>) -> fmt::Result {
        write!(f, "refused by {}, {}", self.number, self.meaning())?;
        match self.has_place() {
            true => write!(f, ", at bit {}", grouped(self.place.into())),
            false => Ok(()),
        }
    }
}

impl Error for Refusal {}

/// A packet of a recording that is refused: which one, and by what.
///
/// ```
/// use wedgepetal::{Refusal, Refused};
///
/// let refused = Refused::new(17, 1113, Refusal::LONG_RUN.at(5311));
/// assert_eq!(
///     refused.to_string(),
///     "packet 17: refused by 12, a run exceeds the bits still wanted, at bit 5,311 of 8,904"
/// );
/// assert_eq!((refused.packet, refused.refusal.number), (17, 12));
/// ```
#[derive(Clone, Copy, Debug, PartialEq, Eq, Hash)]
#[non_exhaustive]
pub struct Refused {
    /// The number of the packet in its stream, from 0; the first three are
    /// headers.
    pub packet: u64,
    /// How many bytes it has.
    pub bytes: usize,
    /// The number, and the bit place in the packet.
    pub refusal: Refusal,
}

impl Refused {
    /// The refusal of the packet with this number and so many bytes.
    pub fn new(packet: u64, bytes: usize, refusal: Refusal) -> Refused {
        Refused {
            packet,
            bytes,
            refusal,
        }
    }
}

impl fmt::Display for Refused {
    fn fmt(&self, f: &mut fmt::Formatter<'_>) -> fmt::Result {
        let refusal = self.refusal.in_packet(self.bytes);
        write!(f, "packet {}: {refusal}", self.packet)
    }
}

impl Error for Refused {
    fn source(&self) -> Option<&(dyn Error + 'static)> {
        Some(&self.refusal)
    }
}

#[cfg(test)]
mod tests {
    use super::*;

    #[test]
    fn digits_in_threes() {
        let texts = [0, 999, 1000, 12_345, 1_234_567].map(grouped);
        assert_eq!(texts, ["0", "999", "1,000", "12,345", "1,234,567"]);
    }

    #[test]
    fn refusals_in_words() {
        assert_eq!(
            Refusal::LONG_RUN.at(5311).in_packet(1113),
            "refused by 12, a run exceeds the bits still wanted, at bit 5,311 of 8,904"
        );
        assert_eq!(
            Refusal::OTHER_VERSION.at(56).to_string(),
            "refused by 3, VMAJ is not 3, or VMIN is not 2, at bit 56"
        );
        assert_eq!(
            Refusal::WRONG_LENGTH.in_packet(9),
            "refused by 1, a lent length differs from the published one"
        );
    }
}
