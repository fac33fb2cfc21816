//! A very small encoder: blocks of one value, and whole blocks that move.

use recording::bit_writer::BitWriter;
use wedgepetal::{Block, MacroBlock, Session, Sizes};

/// The qi of every frame.
const QI: u64 = 20;

/// The largest run of a long run string.
const LONGEST_RUN: usize = 4129;

/// The token of an end-of-block run with 12 bits; a run of 0 means all blocks.
const END_ALL: u64 = 6;

/// How a whole frame is predicted.
#[derive(Clone, Copy)]
pub enum Mode {
    /// From the previous frame, so many half samples to the right and up.
    Moved {
        /// To the right.
        x: i64,
        /// Up.
        y: i64,
    },
    /// From the golden frame, in place.
    Golden,
}

/// Writes the frames of a session.
pub struct Encoder {
    session: Session,
    sizes: Sizes,
}

impl Encoder {
    /// An encoder for frames of a sound session.
    pub fn new(session: Session) -> Encoder {
        let sizes = session.sizes().expect("the sample's session is sound");
        Encoder { session, sizes }
    }

    /// An intra frame: the drawn picture.
    pub fn intra(&self) -> Vec<u8> {
        let mut bits = BitWriter::default();
        put_header(&mut bits, 0);
        // Reserved.
        bits.put(0, 3);
        self.put_values(
            &mut bits,
            |_| true,
            |block| self.drawn(block.plane, block.x, block.y),
        );
        bits.into_bytes()
    }

    /// An inter frame with all blocks coded, in one mode, and no residual.
    pub fn whole(&self, mode: Mode) -> Vec<u8> {
        let mut bits = BitWriter::default();
        put_header(&mut bits, 1);
        self.put_super_blocks(&mut bits, |_| true);
        put_mode_scheme(&mut bits);
        let macro_blocks = self.sizes.macro_blocks;
        match mode {
            Mode::Moved { .. } => {
                // MV, then LAST.
                bits.put(2, 3);
                (1..macro_blocks).for_each(|_| bits.put(3, 3));
            }
            Mode::Golden => (0..macro_blocks).for_each(|_| bits.put(5, 3)),
        }
        // Vectors of five bits and a sign.
        bits.put(1, 1);
        if let Mode::Moved { x, y } = mode {
            for component in [x, y] {
                bits.put(component.unsigned_abs(), 5);
                bits.put(u64::from(component < 0), 1);
            }
        }
        put_table_choices(&mut bits);
        put_ends(&mut bits);
        put_table_choices(&mut bits);
        bits.into_bytes()
    }

    /// An inter frame in which only the super blocks of the luma plane's centre
    /// are coded, and are brighter by 20.
    pub fn brighter_centre(&self) -> Vec<u8> {
        let [luma, _, _] = &self.sizes.planes;
        let middle = |blocks: u64| blocks.div_ceil(4) / 2;
        let (x, y) = (middle(luma.blocks_across), middle(luma.blocks_up));
        let centre = |block: Block| {
            block.plane == 0
                && (x - 1..=x).contains(&(block.x / 4))
                && (y - 1..=y).contains(&(block.y / 4))
        };
        let mut bits = BitWriter::default();
        put_header(&mut bits, 1);
        self.put_super_blocks(&mut bits, centre);
        put_mode_scheme(&mut bits);
        for number in 0..self.sizes.macro_blocks {
            let place = self.session.macro_block_at(number);
            let MacroBlock { x, y } = place.expect("the frame has so many macro blocks");
            let lower_left = Block {
                plane: 0,
                x: 2 * x,
                y: 2 * y,
            };
            if centre(lower_left) {
                // NOMV.
                bits.put(0, 3);
            }
        }
        bits.put(1, 1);
        self.put_values(&mut bits, centre, |_| 20);
        bits.into_bytes()
    }

    /// An inter frame without a coded block.
    pub fn nothing(&self) -> Vec<u8> {
        let mut bits = BitWriter::default();
        put_header(&mut bits, 1);
        self.put_super_blocks(&mut bits, |_| false);
        put_mode_scheme(&mut bits);
        bits.put(1, 1);
        put_table_choices(&mut bits);
        put_table_choices(&mut bits);
        bits.into_bytes()
    }

    /// The drawn picture: how far a block is from the value 128. A spot of
    /// light in the middle, and colours that go over into each other.
    pub fn drawn(&self, plane: u64, x: u64, y: u64) -> i64 {
        let (across, up) = {
            let plane = &self.sizes.planes[plane as usize];
            (plane.blocks_across as i64, plane.blocks_up as i64)
        };
        // Twice the distance from the middle.
        let (right, above) = (2 * x as i64 + 1 - across, 2 * y as i64 + 1 - up);
        match plane {
            0 => 9000 / (50 + right * right + above * above) - 80,
            1 => 2 * right,
            _ => -3 * above,
        }
    }

    /// The blocks in coded order.
    fn blocks(&self) -> impl Iterator<Item = Block> {
        let at = |number| self.session.block_at(number);
        (0..self.sizes.blocks).map(move |number| at(number).expect("the frame has so many blocks"))
    }

    /// Which super blocks are coded, all of a super block's blocks or none; no
    /// super block is partly coded.
    fn put_super_blocks(&self, bits: &mut BitWriter, coded: impl Fn(Block) -> bool) {
        let mut flags = Vec::new();
        for (plane, sizes) in (0..).zip(&self.sizes.planes) {
            for y in (0..sizes.blocks_up).step_by(4) {
                for x in (0..sizes.blocks_across).step_by(4) {
                    flags.push(coded(Block { plane, x, y }));
                }
            }
        }
        put_runs(bits, &vec![false; flags.len()]);
        put_runs(bits, &flags);
    }

    /// One value for each coded block, in the tokens of position 0; then all
    /// blocks end. The coded blocks of a plane are a rectangle, or none.
    fn put_values(
        &self,
        bits: &mut BitWriter,
        coded: impl Fn(Block) -> bool,
        value: impl Fn(Block) -> i64,
    ) {
        let known = |block: Block| coded(block).then(|| value(block));
        put_table_choices(bits);
        for block in self.blocks().filter(|block| coded(*block)) {
            put_value(bits, value(block) - predicted(block, known));
        }
        put_table_choices(bits);
        put_ends(bits);
    }
}

/// What is predicted for a block of a rectangle of coded blocks, in which its
/// neighbours at the left and below have these values.
fn predicted(block: Block, known: impl Fn(Block) -> Option<i64>) -> i64 {
    let Block { x, y, .. } = block;
    let neighbour = |x: Option<u64>, y: Option<u64>| {
        let (x, y) = (x?, y?);
        known(Block { x, y, ..block })
    };
    let left = neighbour(x.checked_sub(1), Some(y));
    let below = neighbour(Some(x), y.checked_sub(1));
    let below_left = neighbour(x.checked_sub(1), y.checked_sub(1));
    match (left, below_left, below) {
        (Some(l), Some(dl), Some(d)) => {
            let sum = (29 * l - 26 * dl + 29 * d) / 32;
            let far = [d, l, dl].into_iter().find(|n| (sum - n).abs() > 128);
            far.unwrap_or(sum)
        }
        (Some(l), _, None) => l,
        (None, _, Some(d)) => d,
        _ => 0,
    }
}

/// The first bits of a frame packet: its type (0 is intra), and one qi.
fn put_header(bits: &mut BitWriter, frame_type: u64) {
    bits.put(0, 1);
    bits.put(frame_type, 1);
    bits.put(QI, 6);
    bits.put(0, 1);
}

/// Scheme 7: modes are sent as they are, in 3 bits.
fn put_mode_scheme(bits: &mut BitWriter) {
    bits.put(7, 3);
}

/// The tables of luma and chroma: all are equal.
fn put_table_choices(bits: &mut BitWriter) {
    bits.put(0, 8);
}

/// All blocks end.
fn put_ends(bits: &mut BitWriter) {
    bits.put(END_ALL, 5);
    bits.put(0, 12);
}

/// A coefficient of at most 580, as one token.
fn put_value(bits: &mut BitWriter, value: i64) {
    let sign = u64::from(value < 0);
    let size = value.unsigned_abs();
    // The least size of tokens 17 to 22, and how many bits say how much more.
    const RANGES: [(u64, u64, u32); 6] = [
        (17, 7, 1),
        (18, 9, 2),
        (19, 13, 3),
        (20, 21, 4),
        (21, 37, 5),
        (22, 69, 9),
    ];
    match size {
        0 => {
            // A run of one zero.
            bits.put(7, 5);
            bits.put(0, 3);
        }
        1..=2 => bits.put(7 + 2 * size + sign, 5),
        3..=6 => {
            bits.put(10 + size, 5);
            bits.put(sign, 1);
        }
        _ => {
            let ranges = RANGES.iter().rev();
            let (token, least, width) = ranges
                .into_iter()
                .find(|(_, least, _)| *least <= size)
                .expect("the size is 7 at least");
            bits.put(*token, 5);
            bits.put(sign, 1);
            bits.put(size - least, *width);
        }
    }
}

/// A string of long runs.
fn put_runs(bits: &mut BitWriter, flags: &[bool]) {
    let mut rest = flags;
    let mut explicit = true;
    while let [first, ..] = rest {
        let length = rest.iter().take_while(|flag| *flag == first).count();
        let length = length.min(LONGEST_RUN);
        if explicit {
            bits.put(u64::from(*first), 1);
        }
        put_run(bits, length as u64);
        // The bit flips by itself, but not after the longest run.
        explicit = length == LONGEST_RUN;
        rest = &rest[length..];
    }
}

/// A long run: its code, and how much it is more than the code's least.
fn put_run(bits: &mut BitWriter, length: u64) {
    // Code, its bits, the least run, the bits of what is more.
    const CODES: [(u64, u32, u64, u32); 7] = [
        (0b0, 1, 1, 0),
        (0b10, 2, 2, 1),
        (0b110, 3, 4, 1),
        (0b1110, 4, 6, 2),
        (0b11110, 5, 10, 3),
        (0b111110, 6, 18, 4),
        (0b111111, 6, 34, 12),
    ];
    let codes = CODES.iter().rev();
    let (code, code_bits, least, width) = codes
        .into_iter()
        .find(|(_, _, least, _)| *least <= length)
        .expect("a run has one bit at least");
    bits.put(*code, *code_bits);
    bits.put(length - least, *width);
}
