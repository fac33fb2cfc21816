//! The calls of `include/wedgepetal.h` on table memory: what each answers for
//! any table memory and any numbers.
//!
//! The lengths are judged first (number 1), then the table memory (number 8),
//! then whether there is what is asked for (number 255).

use super::face::Answer;
use super::matrices::matrix;
use super::setup::Setup;
use super::table_memory::{TABLE_BYTES, genuine};

/// A call on table memory.
#[derive(Clone, Copy, Debug)]
pub enum TableCall {
    /// `wedgepetal_table`
    Table,
    /// `wedgepetal_loop_limit`
    LoopLimit {
        /// The quantization index.
        qi: u64,
    },
    /// `wedgepetal_matrix`
    Matrix {
        /// 0 intra, 1 inter.
        kind: u64,
        /// 0 to 2.
        plane: u64,
        /// The quantization index.
        qi: u64,
    },
}

impl TableCall {
    /// How many numbers the call writes.
    pub fn output_length(&self) -> usize {
        match self {
            TableCall::Table => 0,
            TableCall::LoopLimit { .. } => 1,
            TableCall::Matrix { .. } => 64,
        }
    }
}

/// What a table memory says, read once for many calls.
pub enum Table {
    /// It has another length than the published one.
    OtherLength,
    /// No accepted setup packet leaves it.
    NotGenuine,
    /// An accepted setup packet leaves it.
    Genuine(Setup),
}

impl Table {
    /// Reads a table memory.
    pub fn read(table: &[u8]) -> Table {
        if table.len() != TABLE_BYTES {
            return Table::OtherLength;
        }
        genuine(table).map_or(Table::NotGenuine, Table::Genuine)
    }

    /// What a call answers, given the length of the list that it is lent to write.
    pub fn answer(&self, call: TableCall, output_length: usize) -> Answer {
        if output_length != call.output_length() {
            return Answer::Refused(1);
        }
        match self {
            Table::OtherLength => Answer::Refused(1),
            Table::NotGenuine => Answer::Refused(8),
            Table::Genuine(setup) => {
                answer_for(setup, call).map_or(Answer::Refused(255), Answer::Accepted)
            }
        }
    }
}

/// What a call on a genuine table memory writes, or nothing if there is no
/// such type, plane or qi.
fn answer_for(setup: &Setup, call: TableCall) -> Option<Vec<u64>> {
    match call {
        TableCall::Table => Some(Vec::new()),
        TableCall::LoopLimit { qi } => Some(vec![setup.limits[below(qi, 64)?]]),
        TableCall::Matrix { kind, plane, qi } => Some(matrix(
            setup,
            below(kind, 2)?,
            below(plane, 3)?,
            below(qi, 64)?,
        )),
    }
}

/// A number as an index, if it is below `end`.
fn below(number: u64, end: usize) -> Option<usize> {
    usize::try_from(number).ok().filter(|index| *index < end)
}

#[cfg(test)]
mod tests {
    use super::super::setup::setup;
    use super::super::setup::tests::small;
    use super::super::table_memory::left_by;
    use super::*;

    fn matrix_call(kind: u64, plane: u64, qi: u64) -> TableCall {
        TableCall::Matrix { kind, plane, qi }
    }

    #[test]
    fn lengths_come_first_then_the_table_then_the_numbers() {
        let zeros = Table::read(&[0; TABLE_BYTES]);
        let short = Table::read(&[0; TABLE_BYTES - 1]);
        let limit = TableCall::LoopLimit { qi: 64 };
        assert_eq!(short.answer(limit, 1), Answer::Refused(1));
        assert_eq!(zeros.answer(limit, 2), Answer::Refused(1));
        assert_eq!(zeros.answer(limit, 1), Answer::Refused(8));
        assert_eq!(zeros.answer(TableCall::Table, 0), Answer::Refused(8));
    }

    #[test]
    fn what_a_genuine_table_says() {
        let header = small();
        let table = left_by(header.bytes(), &setup(header.bytes()));
        let table = Table::read(&table);
        assert_eq!(table.answer(TableCall::Table, 0), Answer::accepted(&[]));
        let limit = |qi| table.answer(TableCall::LoopLimit { qi }, 1);
        assert_eq!(limit(63), Answer::accepted(&[7]));
        assert_eq!(limit(64), Answer::Refused(255));
        let mut least = vec![8; 64];
        least[0] = 16;
        let answer = table.answer(matrix_call(0, 2, 63), 64);
        assert_eq!(answer, Answer::Accepted(least));
        for (kind, plane, qi) in [(2, 0, 0), (0, 3, 0), (0, 0, 64), (1 << 32, 0, 0)] {
            let answer = table.answer(matrix_call(kind, plane, qi), 64);
            assert_eq!(answer, Answer::Refused(255));
        }
    }
}
