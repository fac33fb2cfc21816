//! Table memories: genuine, genuine with one bit or byte changed, refused
//! headers, random, of wrong lengths; loop limits and quantization matrices.

use crate::check::{Difference, Tally};
use crate::random::Random;
use crate::reference::setup::setup;
use crate::reference::table_face::{Table, TableCall};
use crate::reference::table_memory::{TABLE_BYTES, left_by};
use crate::setup_header::{Trees, accepted_with, with_bad_tree};

/// How many table memories are made of one genuine one.
const TABLES_OF_A_HEADER: u64 = 16;

/// Compares so many table memories, and all limits and matrices of some
/// genuine ones, `samples` in number. Gives the number of borders between two
/// quant ranges among these matrices too.
pub fn compare(random: &mut Random, tables: u64, samples: u64) -> Result<(Tally, u64), Difference> {
    let mut tally = Tally::new();
    let mut borders = 0;
    let headers = tables.div_ceil(TABLES_OF_A_HEADER);
    for number in 0..headers {
        let small = random.once_in(4);
        // Trees of 32 leaves are read two at a time, others one by one.
        let trees = random.pick(&[Trees::Any, Trees::Full]);
        let packet = accepted_with(random, small, trees);
        let bits = packet.length() as usize;
        let table = left_by(packet.bytes(), &setup(packet.bytes()));
        compare_one(random, &mut tally, &table)?;
        for _ in 1..TABLES_OF_A_HEADER {
            let other = changed(random, &table, bits);
            compare_one(random, &mut tally, &other)?;
        }
        if number < samples {
            whole(&mut tally, &table)?;
            borders += borders_in(&table);
        }
    }
    Ok((tally, borders))
}

/// How many borders between two ranges a genuine table memory's six sets have.
fn borders_in(table: &[u8]) -> u64 {
    match Table::read(table) {
        Table::Genuine(setup) => {
            let of_set = setup.ranges.iter().map(|set| set.sizes.len() as u64 - 1);
            of_set.sum()
        }
        _ => 0,
    }
}

/// Compares every loop limit and every matrix of a table memory.
pub fn whole(tally: &mut Tally, bytes: &[u8]) -> Result<(), Difference> {
    let table = Table::read(bytes);
    for qi in 0..64 {
        let limit = TableCall::LoopLimit { qi };
        tally.check_table(limit, bytes, 1, &table.answer(limit, 1))?;
        for set in 0..6 {
            let (kind, plane) = (set / 3, set % 3);
            let matrix = TableCall::Matrix { kind, plane, qi };
            tally.check_table(matrix, bytes, 64, &table.answer(matrix, 64))?;
        }
    }
    Ok(())
}

/// Another table memory than a genuine one, of which so many bits were read:
/// with a bit or a byte changed, of another length, or made anew.
pub fn changed(random: &mut Random, table: &[u8], bits: usize) -> Vec<u8> {
    let mut other = table.to_vec();
    match random.below(16) {
        0..12 => {
            let bit = bit(random, bits);
            other[bit / 8] = if random.once_in(4) {
                random.byte()
            } else {
                other[bit / 8] ^ 0x80 >> (bit % 8)
            };
        }
        12 => other = refused_header(random),
        13 => {
            let length = random.pick(&[0, 1, TABLE_BYTES - 1, TABLE_BYTES + 1, 2 * TABLE_BYTES]);
            other.resize(length, 0);
        }
        _ => other = arbitrary(random, table),
    }
    other
}

/// A bit of table memory: one that was read, one just behind, or any.
fn bit(random: &mut Random, bits: usize) -> usize {
    match random.below(8) {
        0..4 => random.index(bits),
        4 => bits + random.index(17),
        5 => 8 * TABLE_BYTES - 1 - random.index(16),
        _ => random.index(8 * TABLE_BYTES),
    }
}

/// The bits of a header that is refused.
pub fn refused_header(random: &mut Random) -> Vec<u8> {
    let mut table = with_bad_tree(random).bytes().to_vec();
    table.resize(TABLE_BYTES, 0);
    table
}

/// Zeros, random bytes, or a genuine table memory with a random tail.
fn arbitrary(random: &mut Random, table: &[u8]) -> Vec<u8> {
    match random.below(4) {
        0 => vec![random.pick(&[0, 0xFF, 0x82]); TABLE_BYTES],
        1 => (0..TABLE_BYTES).map(|_| random.byte()).collect(),
        2 => {
            let mut table: Vec<u8> = (0..TABLE_BYTES).map(|_| random.byte()).collect();
            table[..7].copy_from_slice(b"\x82theora");
            table
        }
        _ => {
            let mut table = table.to_vec();
            let kept = random.index(TABLE_BYTES);
            table[kept..].fill_with(|| random.byte());
            table
        }
    }
}

/// Compares the test of a table memory, and now and then the other calls with
/// any numbers and lengths.
pub fn compare_one(random: &mut Random, tally: &mut Tally, bytes: &[u8]) -> Result<(), Difference> {
    let table = Table::read(bytes);
    let mut check = |call: TableCall, length: usize| {
        tally.check_table(call, bytes, length, &table.answer(call, length))
    };
    check(TableCall::Table, 0)?;
    if random.once_in(8) {
        let qi = number(random, 64);
        let length = if random.once_in(8) {
            random.index(3)
        } else {
            1
        };
        check(TableCall::LoopLimit { qi }, length)?;
    }
    if random.once_in(8) {
        let kind = number(random, 2);
        let plane = number(random, 3);
        let qi = number(random, 64);
        let length = if random.once_in(8) {
            random.pick(&[0, 1, 63, 65])
        } else {
            64
        };
        check(TableCall::Matrix { kind, plane, qi }, length)?;
    }
    Ok(())
}

/// A number that is mostly below `end`, else at or past it.
fn number(random: &mut Random, end: u64) -> u64 {
    match random.below(16) {
        0 => end,
        1 => random.any(),
        2 => random.below(end) + (1 << random.pick(&[8, 32, 63])),
        _ => random.below(end),
    }
}
