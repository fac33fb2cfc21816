//! What a frame says of a block.

/// A vector, x to the right and y up.
#[derive(Clone, Copy, Debug, Default, PartialEq, Eq)]
pub struct Vector {
    /// To the right.
    pub x: i64,
    /// Up.
    pub y: i64,
}

impl Vector {
    /// No motion.
    pub const ZERO: Vector = Vector { x: 0, y: 0 };
}

/// Which prediction a block has.
#[derive(Clone, Copy, Debug, PartialEq, Eq)]
pub enum Prediction {
    /// None.
    None,
    /// From the previous frame.
    Previous(Vector),
    /// From the golden frame.
    Golden(Vector),
}

/// The reference of a prediction: none, previous or golden.
#[derive(Clone, Copy, Debug, PartialEq, Eq)]
pub enum Reference {
    /// None.
    None,
    /// The previous frame.
    Previous,
    /// The golden frame.
    Golden,
}

impl Prediction {
    /// Its reference.
    pub fn reference(self) -> Reference {
        match self {
            Prediction::None => Reference::None,
            Prediction::Previous(_) => Reference::Previous,
            Prediction::Golden(_) => Reference::Golden,
        }
    }
}

/// A block's record.
#[derive(Clone, Copy, Debug, PartialEq, Eq)]
pub struct Record {
    /// Whether the block is coded.
    pub coded: bool,
    /// The index of its qi in the list.
    pub qi_index: usize,
    /// Its prediction; none for an uncoded block.
    pub prediction: Prediction,
}

impl Record {
    /// The record of an uncoded block.
    pub const UNCODED: Record = Record {
        coded: false,
        qi_index: 0,
        prediction: Prediction::None,
    };
}
