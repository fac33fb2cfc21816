//! A small encoder of random frame packets: it follows the order of a packet
//! and writes what can be read, with wild values, and sometimes a run or a
//! token that is too long.

use crate::random::Random;
use crate::reference::bits::BitReader;
use crate::reference::decode::Decoder;
use crate::reference::frame::Kind;
use crate::reference::frame::coefficients::group;
use crate::reference::frame::modes::{Alphabet, MODES, Mode, SCHEMES};
use crate::reference::frame::reader::{Bits, Field};
use crate::reference::frame::runs::{LONG, LONGEST, RunCodes, SHORT};
use crate::reference::frame::token::{EXTRA_BITS, Token, token};
use crate::reference::trees::Code;
use crate::written::Written;

/// What a packet says, as far as the encoder keeps it.
#[derive(Clone, Debug, PartialEq, Eq)]
pub struct Sent {
    /// Intra or inter.
    pub kind: Kind,
    /// The qi list.
    pub qis: Vec<usize>,
    /// Which blocks are coded, in coded order.
    pub flags: Vec<bool>,
    /// The modes, in coded order.
    pub modes: Vec<Mode>,
    /// How many tokens there are.
    pub tokens: u64,
    /// How many runs of 4129 there are.
    pub longest_runs: u64,
}

/// A packet.
pub struct Encoded {
    /// Its bits.
    pub written: Written<Field>,
    /// What it says; nothing if it ends with a fault.
    pub sent: Option<Sent>,
}

/// The packet ends here, with a fault.
struct Spoiled;

/// What extra bits are.
#[derive(Clone, Copy)]
enum Extra {
    Any,
    Zeros,
    Ones,
}

/// How a packet is made.
struct Style {
    /// Once in so many runs and tokens one is too long, if it can be.
    faults: u64,
    /// How likely tokens are that end blocks, that are zeros, that are values.
    weights: [u64; 3],
    extra: Extra,
    /// Whether runs of bits are rather long.
    long_runs: bool,
}

impl Style {
    fn any(random: &mut Random) -> Style {
        Style {
            faults: random.pick(&[u64::MAX, u64::MAX, u64::MAX, 400, 60]),
            weights: random.pick(&[
                [1, 1, 1],
                [8, 1, 4],
                [1, 1, 8],
                [1, 8, 4],
                [1, 0, 40],
                [20, 1, 1],
            ]),
            extra: random.pick(&[
                Extra::Any,
                Extra::Any,
                Extra::Any,
                Extra::Zeros,
                Extra::Ones,
            ]),
            long_runs: random.once_in(2),
        }
    }
}

/// Writes a packet for this session and setup.
pub fn encoded(random: &mut Random, decoder: &Decoder, kind: Kind) -> Encoded {
    let style = Style::any(random);
    let mut encoder = Encoder {
        random,
        decoder,
        style,
        written: Written::new(),
        longest_runs: 0,
    };
    let sent = encoder.packet(kind).ok();
    Encoded {
        written: encoder.written,
        sent,
    }
}

struct Encoder<'a> {
    random: &'a mut Random,
    decoder: &'a Decoder<'a>,
    style: Style,
    written: Written<Field>,
    longest_runs: u64,
}

impl Encoder<'_> {
    fn packet(&mut self, kind: Kind) -> Result<Sent, Spoiled> {
        let layout = &self.decoder.layout;
        let qis = self.header(kind);
        let flags = match kind {
            Kind::Inter => self.flags()?,
            _ => vec![true; layout.blocks.len()],
        };
        // In raster order.
        let mut coded = vec![false; layout.blocks.len()];
        for (block, flag) in layout.coded_order().zip(&flags) {
            coded[block] = *flag;
        }
        let modes = match kind {
            Kind::Inter => {
                let modes = self.modes(&coded);
                self.vectors(&modes, &coded);
                modes
            }
            _ => vec![Mode::Intra; layout.macro_blocks.len()],
        };
        self.block_qi(qis.len(), flags.iter().filter(|flag| **flag).count())?;
        let in_order = layout.coded_order().filter(|block| coded[*block]);
        let chroma = in_order.map(|block| usize::from(layout.blocks[block].plane > 0));
        let tokens = self.tokens(&chroma.collect::<Vec<_>>())?;
        Ok(Sent {
            kind,
            qis,
            flags,
            modes,
            tokens,
            longest_runs: self.longest_runs,
        })
    }

    /// The header; gives the qi list.
    fn header(&mut self, kind: Kind) -> Vec<usize> {
        self.written.put(Field::FirstBit, 0, 1);
        self.written
            .put(Field::Type, u64::from(kind == Kind::Inter), 1);
        let count = 1 + self.random.index(3);
        let mut qis = Vec::new();
        for index in 0..count {
            if index > 0 {
                self.written.put(Field::MoreQi(index), 1, 1);
            }
            let qi = self.random.below(64);
            self.written.put(Field::Qi(index), qi, 6);
            qis.push(qi as usize);
        }
        if count < 3 {
            self.written.put(Field::MoreQi(count), 0, 1);
        }
        if kind == Kind::Intra {
            self.written.put(Field::Reserved, 0, 3);
        }
        qis
    }

    /// Whether something goes wrong now.
    fn fault(&mut self) -> bool {
        self.random.once_in(self.style.faults)
    }
}

/// Strings of bits.
impl Encoder<'_> {
    /// The flags in coded order.
    fn flags(&mut self) -> Result<Vec<bool>, Spoiled> {
        let super_blocks = &self.decoder.layout.super_blocks;
        let partly = self.runs(Bits::Partly, LONG, super_blocks.len())?;
        let rest = partly.iter().filter(|partly| !**partly).count();
        let mut fully = self.runs(Bits::Fully, LONG, rest)?.into_iter();
        let blocks = super_blocks.iter().zip(&partly);
        let wanted = blocks.map(|(blocks, partly)| if *partly { blocks.len() } else { 0 });
        let mut blocks = self.runs(Bits::Blocks, SHORT, wanted.sum())?.into_iter();
        let mut flags = Vec::new();
        for (super_block, partly) in super_blocks.iter().zip(partly) {
            let whole = if partly { None } else { fully.next() };
            flags.extend(
                super_block
                    .iter()
                    .map(|_| whole.or_else(|| blocks.next()) == Some(true)),
            );
        }
        Ok(flags)
    }

    /// Which coded blocks leave each step of the qi list.
    fn block_qi(&mut self, qis: usize, coded: usize) -> Result<(), Spoiled> {
        let mut at_step = coded;
        for step in 0..qis - 1 {
            let raised = self.runs(Bits::BlockQi(step), LONG, at_step)?;
            at_step = raised.iter().filter(|raised| **raised).count();
        }
        Ok(())
    }

    /// A string of random bits.
    fn runs(&mut self, which: Bits, codes: &RunCodes, wanted: usize) -> Result<Vec<bool>, Spoiled> {
        let (start, extra) = codes[codes.len() - 1];
        let longest = start + (1 << extra) - 1;
        let mut bits = Vec::new();
        let (mut bit, mut explicit) = (false, true);
        while bits.len() < wanted {
            bit = !bit;
            if explicit {
                bit = self.random.once_in(2);
                self.written.put(Field::RunBit(which), u64::from(bit), 1);
            }
            let rest = wanted - bits.len();
            if rest < longest && self.fault() {
                let length = rest + 1 + self.random.index(longest - rest);
                put_run(&mut self.written, which, codes, length);
                return Err(Spoiled);
            }
            let length = self.run_length(rest.min(longest));
            put_run(&mut self.written, which, codes, length);
            bits.resize(bits.len() + length, bit);
            explicit = length == LONGEST;
            self.longest_runs += u64::from(explicit);
        }
        Ok(bits)
    }

    /// A run of 1 to `most`.
    fn run_length(&mut self, most: usize) -> usize {
        let length = match self.random.below(8) {
            _ if most >= LONGEST => self.random.pick(&[LONGEST, LONGEST, LONGEST - 1, 1]),
            0 => most,
            1..6 if self.style.long_runs => 1 + self.random.index(most),
            1 => self.random.pick(&[1, 2, 4, 6, 10, 18, 34]),
            2 => self.random.pick(&[3, 5, 7, 11, 15, 30, 17, 33]),
            _ => 1 + self.random.index(4),
        };
        length.min(most)
    }
}

/// Writes a run: its code and its extra bits.
pub fn put_run(written: &mut Written<Field>, which: Bits, codes: &RunCodes, length: usize) {
    let behind = codes.partition_point(|code| code.0 <= length);
    let (start, extra) = codes[behind - 1];
    // So many 1s and a 0, the last one without the 0.
    let ones = (1 << behind) - 2;
    let (prefix, width) = match behind == codes.len() {
        true => (ones >> 1, behind - 1),
        false => (ones, behind),
    };
    let value = prefix << extra | (length - start) as u64;
    written.put(Field::Run(which), value, width as u32 + extra);
}

/// Modes and vectors.
impl Encoder<'_> {
    /// The modes of all macro blocks, in coded order.
    fn modes(&mut self, coded: &[bool]) -> Vec<Mode> {
        let scheme = self.random.below(8);
        self.written.put(Field::Scheme, scheme, 3);
        let alphabet = match scheme {
            0 => Some(self.ranks()),
            7 => None,
            _ => Some(SCHEMES[scheme as usize - 1]),
        };
        let macro_blocks = &self.decoder.layout.macro_blocks;
        let mut modes = Vec::new();
        for macro_block in macro_blocks {
            let sent = macro_block.luma.iter().any(|block| coded[*block]);
            modes.push(match sent {
                true => MODES[self.mode(alphabet.as_ref())],
                false => Mode::NoMv,
            });
        }
        modes
    }

    /// Scheme 0: mostly each mode has a rank of its own.
    fn ranks(&mut self) -> Alphabet {
        let mut ranks: Vec<u64> = (0..8).collect();
        let all = self.random.once_in(4);
        let mut alphabet = [0; 8];
        for mode in 0..8 {
            let rank = match all {
                true => self.random.below(8),
                false => ranks.swap_remove(self.random.index(ranks.len())),
            };
            self.written.put(Field::Rank, rank, 3);
            alphabet[rank as usize] = mode;
        }
        alphabet
    }

    /// A mode; four vectors are the likeliest.
    fn mode(&mut self, alphabet: Option<&Alphabet>) -> usize {
        let mode = self.random.pick(&[0, 1, 2, 3, 4, 5, 6, 7, 7, 7, 2, 3, 4]);
        let Some(alphabet) = alphabet else {
            self.written.put(Field::RawMode, mode as u64, 3);
            return mode;
        };
        let rank = alphabet.iter().position(|other| *other == mode);
        let rank = rank.unwrap_or(self.random.index(8));
        let (code, width) = match rank {
            7 => (0x7F, 7),
            _ => ((2 << rank) - 2, rank as u32 + 1),
        };
        self.written.put(Field::RankCode, code, width);
        alphabet[rank]
    }

    /// The vectors of all macro blocks.
    fn vectors(&mut self, modes: &[Mode], coded: &[bool]) {
        let fixed = self.random.once_in(2);
        self.written.put(Field::VectorBit, u64::from(fixed), 1);
        for (macro_block, mode) in self.decoder.layout.macro_blocks.iter().zip(modes) {
            let vectors = match mode {
                Mode::Mv | Mode::GoldenMv => 1,
                Mode::Four => macro_block
                    .luma
                    .iter()
                    .filter(|block| coded[**block])
                    .count(),
                _ => 0,
            };
            for _ in 0..2 * vectors {
                self.component(fixed);
            }
        }
    }

    /// A component of a vector: any, small, or the greatest.
    fn component(&mut self, fixed: bool) {
        let magnitude = match self.random.below(4) {
            0 => self.random.below(4),
            1 => self.random.pick(&[0, 1, 3, 4, 7, 8, 15, 16, 31]),
            _ => self.random.below(32),
        };
        let sign = self.random.below(2);
        put_magnitude(&mut self.written, fixed, magnitude, sign);
    }
}

/// Writes a component of a vector.
pub fn put_component(written: &mut Written<Field>, fixed: bool, component: i64) {
    let sign = u64::from(component < 0);
    put_magnitude(written, fixed, component.unsigned_abs(), sign);
}

/// Writes a component of this magnitude and sign: the fixed code has two zeros.
#[allow(clippy::unusual_byte_groupings)] // a group is a field
fn put_magnitude(written: &mut Written<Field>, fixed: bool, magnitude: u64, sign: u64) {
    if fixed {
        written.put(Field::FixedComponent, 2 * magnitude + sign, 6);
        return;
    }
    let (code, width) = match magnitude {
        0 => (0, 3),
        1 => (1 + sign, 3),
        2 | 3 => (2 * (magnitude + 1) + sign, 4),
        4..8 => (0b101_000 + 2 * (magnitude - 4) + sign, 6),
        8..16 => (0b110_0000 + 2 * (magnitude - 8) + sign, 7),
        _ => (0b111_00000 + 2 * (magnitude - 16) + sign, 8),
    };
    written.put(Field::VariableComponent, code, width);
}

/// Tokens.
impl Encoder<'_> {
    /// The tokens of coded blocks of luma (0) and chroma (1); gives their number.
    fn tokens(&mut self, chroma: &[usize]) -> Result<u64, Spoiled> {
        let mut positions = vec![0; chroma.len()];
        let (mut ending, mut tokens) = (0, 0);
        let mut choices = [0, 0];
        for position in 0..64 {
            if position < 2 {
                choices = [0, 1].map(|plane| self.choice(position, plane));
            }
            for block in 0..chroma.len() {
                if positions[block] != position {
                    continue;
                }
                if ending == 0 {
                    tokens += 1;
                    let table = 16 * group(position) + choices[chroma[block]];
                    let token = self.token(table, position)?;
                    positions[block] += token.moves();
                    ending = match token {
                        Token::End(blocks) => blocks,
                        Token::EndAll => positions.iter().filter(|at| **at < 64).count(),
                        _ => 0,
                    };
                }
                if ending > 0 {
                    ending -= 1;
                    positions[block] = 64;
                }
            }
        }
        Ok(tokens)
    }

    /// A table choice.
    fn choice(&mut self, position: usize, plane: usize) -> usize {
        let choice = self.random.below(16);
        self.written.put(Field::Choice(position, plane), choice, 4);
        choice as usize
    }

    /// A token for a block at this position.
    fn token(&mut self, table: usize, position: usize) -> Result<Token, Spoiled> {
        let too_long = self.fault();
        let (code, extra, token) = self.pick_token(table, position, too_long);
        let width = EXTRA_BITS[code.token as usize];
        let value = code.bits << width | extra;
        self.written
            .put(Field::Token, value, code.length as u32 + width);
        match position + token.moves() > 64 {
            true => Err(Spoiled),
            false => Ok(token),
        }
    }

    /// A token of this table that moves past 64 or does not, if there is one.
    fn pick_token(&mut self, table: usize, position: usize, too_long: bool) -> (Code, u64, Token) {
        let decoder = self.decoder;
        let codes = decoder.codebooks[table].codes();
        let mut picked = None;
        for _ in 0..6 {
            let code = self.pick_code(codes);
            let extra = self.extra(EXTRA_BITS[code.token as usize]);
            let token = said(code.token, extra);
            picked = Some((code, extra, token));
            if (position + token.moves() > 64) == too_long {
                break;
            }
        }
        let (code, extra, token) = picked.expect("there was a first try");
        if too_long || position + token.moves() <= 64 {
            return (code, extra, token);
        }
        let short = codes.iter().map(|code| (*code, 0, said(code.token, 0)));
        let good = short.clone().find(|code| position + code.2.moves() <= 64);
        good.unwrap_or((code, extra, token))
    }

    /// A code, by the weights of the three kinds of tokens.
    fn pick_code(&mut self, codes: &[Code]) -> Code {
        let weights = self.style.weights;
        let kind = match self.random.below(weights.iter().sum()) {
            number if number < weights[0] => 0..7,
            number if number < weights[0] + weights[1] => 7..9,
            _ => 9..32,
        };
        for _ in 0..8 {
            let code = self.random.pick(codes);
            if kind.contains(&code.token) {
                return code;
            }
        }
        self.random.pick(codes)
    }

    /// Extra bits.
    fn extra(&mut self, width: u32) -> u64 {
        let last = (1 << width) - 1;
        match self.style.extra {
            Extra::Any => self.random.up_to(last),
            Extra::Zeros => 0,
            Extra::Ones => last,
        }
    }
}

/// What a token says with these extra bits.
fn said(number: u64, extra: u64) -> Token {
    let bits = extra << (16 - EXTRA_BITS[number as usize]);
    let bytes = (bits as u16).to_be_bytes();
    token(&mut BitReader::new(&bytes), number).expect("there are enough bits")
}
