//! The session record: the identification fields and when they are sound,
//! whether references exist, and the numbers that give a frame its place.

use super::frame::Kind;

/// How many numbers stand for a session: 16 fields, whether references exist,
/// accepted key frames, and accepted others since the last.
pub const SESSION_NUMBERS: usize = 19;

/// Where the last three stand.
pub const REFERENCES: usize = 16;
pub const KEY_FRAMES: usize = 17;
pub const OTHERS: usize = 18;

/// The fields' names, in the order of a session's list.
pub const NAMES: [&str; SESSION_NUMBERS] = [
    "VREV",
    "FMBW",
    "FMBH",
    "PICW",
    "PICH",
    "PICX",
    "PICY",
    "FRN",
    "FRD",
    "PARN",
    "PARD",
    "CS",
    "NOMBR",
    "QUAL",
    "KFGSHIFT",
    "PF",
    "references",
    "key frames",
    "others",
];

/// The fields' widths in bits, in the order of a session's list.
pub const WIDTHS: [u32; 16] = [8, 16, 16, 24, 24, 8, 8, 32, 32, 24, 24, 8, 24, 6, 5, 2];

/// The identification fields.
#[derive(Clone, Debug, Default, PartialEq, Eq)]
pub struct Fields {
    /// Version revision.
    pub vrev: u64,
    /// Frame width in macro blocks.
    pub fmbw: u64,
    /// Frame height in macro blocks.
    pub fmbh: u64,
    /// Picture width.
    pub picw: u64,
    /// Picture height.
    pub pich: u64,
    /// Picture offset from the left.
    pub picx: u64,
    /// Picture offset from the bottom.
    pub picy: u64,
    /// Frame rate numerator.
    pub frn: u64,
    /// Frame rate denominator.
    pub frd: u64,
    /// Aspect ratio numerator.
    pub parn: u64,
    /// Aspect ratio denominator.
    pub pard: u64,
    /// Colour space.
    pub cs: u64,
    /// Nominal bit rate.
    pub nombr: u64,
    /// Quality hint.
    pub qual: u64,
    /// Key frame number shift.
    pub kfgshift: u64,
    /// Pixel format.
    pub pf: u64,
}

impl Fields {
    /// Sound fields of a frame of so many macro blocks; all others are the
    /// least that they may be.
    pub fn of_frame(fmbw: u64, fmbh: u64, pf: u64) -> Fields {
        Fields {
            fmbw,
            fmbh,
            pf,
            frn: 1,
            frd: 1,
            ..Fields::default()
        }
    }

    /// The fields in the order of a session's list.
    pub fn numbers(&self) -> [u64; 16] {
        [
            self.vrev,
            self.fmbw,
            self.fmbh,
            self.picw,
            self.pich,
            self.picx,
            self.picy,
            self.frn,
            self.frd,
            self.parn,
            self.pard,
            self.cs,
            self.nombr,
            self.qual,
            self.kfgshift,
            self.pf,
        ]
    }

    /// The session's list with these fields, in which nothing is counted yet.
    pub fn session(&self, references: u64) -> [u64; SESSION_NUMBERS] {
        let mut list = [0; SESSION_NUMBERS];
        list[..16].copy_from_slice(&self.numbers());
        list[REFERENCES] = references;
        list
    }

    /// The fields of a session's list.
    pub fn of_session(list: &[u64; SESSION_NUMBERS]) -> Fields {
        Fields {
            vrev: list[0],
            fmbw: list[1],
            fmbh: list[2],
            picw: list[3],
            pich: list[4],
            picx: list[5],
            picy: list[6],
            frn: list[7],
            frd: list[8],
            parn: list[9],
            pard: list[10],
            cs: list[11],
            nombr: list[12],
            qual: list[13],
            kfgshift: list[14],
            pf: list[15],
        }
    }

    /// Whether every field fits its width.
    fn fit(&self) -> bool {
        let numbers = self.numbers();
        (0..16).all(|i| u128::from(numbers[i]) < 1 << WIDTHS[i])
    }

    /// Whether no field breaks number 5. The fields fit their widths.
    fn in_range(&self) -> bool {
        self.fmbw > 0
            && self.fmbh > 0
            && self.picw <= 16 * self.fmbw
            && self.pich <= 16 * self.fmbh
            && self.picx <= 16 * self.fmbw - self.picw
            && self.picy <= 16 * self.fmbh - self.pich
            && self.frn > 0
            && self.frd > 0
    }

    /// Whether the fields break neither 5 nor 6 nor their widths.
    pub fn sound(&self) -> bool {
        self.fit() && self.in_range() && self.pf != 1
    }
}

/// "The session record holds the identification fields and whether references
/// exist"; it "gains two numbers"
#[derive(Clone, Debug, PartialEq, Eq)]
pub struct Session {
    /// The identification fields.
    pub fields: Fields,
    /// Whether references exist.
    pub references: bool,
    /// "accepted key frames"
    pub key_frames: u64,
    /// "accepted other packets since the last one"
    pub others: u64,
}

impl Session {
    /// "Both start at 0".
    pub fn fresh(fields: Fields) -> Session {
        Session {
            fields,
            references: false,
            key_frames: 0,
            others: 0,
        }
    }

    /// The session that a list says. "references: 0 is no, any other number is
    /// yes"
    pub fn of_list(list: &[u64; SESSION_NUMBERS]) -> Session {
        Session {
            fields: Fields::of_session(list),
            references: list[REFERENCES] != 0,
            key_frames: list[KEY_FRAMES],
            others: list[OTHERS],
        }
    }

    /// The bound of the second number, "2 to the power KFGSHIFT". The fields are
    /// sound.
    pub fn bound(&self) -> u64 {
        2_u64.pow(self.fields.kfgshift as u32)
    }

    /// Whether the session breaks no part of 8: neither its fields, nor "a
    /// session whose second number breaks this".
    pub fn sound(&self) -> bool {
        self.fields.sound() && self.others < self.bound()
    }

    /// The session after an accepted packet, or none where the packet is refused
    /// by 17. "A key frame sets the second to 0. The first has 64 bits, and a key
    /// frame that would pass them is refused"; "An empty packet counts as other";
    /// the second "must stay below" its bound.
    pub fn after(&self, kind: Kind) -> Option<Session> {
        match kind {
            Kind::Intra => Some(Session {
                fields: self.fields.clone(),
                references: true,
                key_frames: self.key_frames.checked_add(1)?,
                others: 0,
            }),
            Kind::Inter | Kind::Repeat => {
                let others = self.others + 1;
                (others < self.bound()).then(|| Session {
                    others,
                    ..self.clone()
                })
            }
        }
    }
}

#[cfg(test)]
mod tests {
    use super::*;

    #[test]
    fn places_among_key_frames() {
        let mut fields = small();
        fields.kfgshift = 1;
        let session = Session::fresh(fields);
        let at = |session: &Session| (session.references, session.key_frames, session.others);
        let key = session.after(Kind::Intra).unwrap();
        assert_eq!(at(&key), (true, 1, 0));
        let other = key.after(Kind::Repeat).unwrap();
        assert_eq!(at(&other), (true, 1, 1));
        assert_eq!(other.after(Kind::Inter), None);
        assert_eq!(other.after(Kind::Repeat), None);
        assert_eq!(at(&other.after(Kind::Intra).unwrap()), (true, 2, 0));
        let last = Session {
            key_frames: u64::MAX,
            ..key.clone()
        };
        assert_eq!(last.after(Kind::Intra), None);
        assert!(last.after(Kind::Inter).is_some());
        let mut none = key;
        none.fields.kfgshift = 0;
        assert_eq!(none.after(Kind::Inter), None);
        assert!(none.sound());
        none.others = 1;
        assert!(!none.sound());
    }

    /// Fields of 3 by 2 macro blocks.
    fn small() -> Fields {
        Fields {
            fmbw: 3,
            fmbh: 2,
            picw: 40,
            pich: 32,
            picx: 8,
            frn: 25,
            frd: 1,
            ..Fields::default()
        }
    }

    /// The small fields with one number of the list changed.
    fn changed(index: usize, value: u64) -> Fields {
        let mut list = small().session(0);
        list[index] = value;
        Fields::of_session(&list)
    }

    #[test]
    fn lists_go_both_ways() {
        let list: [u64; SESSION_NUMBERS] = std::array::from_fn(|i| i as u64 + 100);
        let again = Fields::of_session(&list).session(116);
        assert_eq!((&again[..17], &again[17..]), (&list[..17], &[0, 0][..]));
        let session = Session::of_list(&list);
        assert_eq!((session.key_frames, session.others), (117, 118));
    }

    #[test]
    fn every_width_is_a_limit() {
        assert!(small().sound());
        for (index, width) in WIDTHS.into_iter().enumerate() {
            assert!(!changed(index, 1 << width).sound(), "{}", NAMES[index]);
            assert!(!changed(index, u64::MAX).sound(), "{}", NAMES[index]);
        }
        for free in [0, 7, 8, 9, 10, 11, 12, 13, 14, 15] {
            let limit = (1 << WIDTHS[free]) - 1;
            assert!(changed(free, limit).sound(), "{}", NAMES[free]);
        }
    }

    #[test]
    fn ranges_are_limits() {
        for index in [1, 2, 7, 8] {
            assert!(!changed(index, 0).sound(), "{}", NAMES[index]);
        }
        assert!(changed(5, 8).sound());
        assert!(!changed(5, 9).sound());
        assert!(!changed(6, 1).sound());
        assert!(!changed(3, 41).sound());
        assert!(!changed(4, 33).sound());
        assert!(changed(4, 0).sound());
        assert!(!changed(15, 1).sound());
    }
}
