//! Table memory: what a setup header says, and the calls that take it.

use crate::Refusal;
use crate::lists::{self, FAULT_NUMBERS, MATRIX_NUMBERS, TABLE_BYTES};

/// Table memory that an accepted setup packet leaves.
#[derive(Clone, Debug, PartialEq, Eq)]
pub struct Table(Vec<u8>);

/// The type of a quantization matrix.
#[derive(Clone, Copy, Debug, PartialEq, Eq, Hash)]
pub enum MatrixType {
    /// For blocks without prediction.
    Intra,
    /// For all others.
    Inter,
}

/// Reads a setup header.
///
/// # Errors
///
/// Numbers 2, 4 and 7 with the bit place, for the first fault in reading order.
pub fn setup(packet: &[u8]) -> Result<Table, Refusal> {
    let (mut bytes, mut place) = (vec![0; TABLE_BYTES], [0; FAULT_NUMBERS]);
    let number = lists::setup(packet, &mut bytes, &mut place);
    Refusal::check_at(number, place[0])?;
    Ok(Table(bytes))
}

impl Table {
    /// Table memory from its bytes.
    ///
    /// # Errors
    ///
    /// Number 1 if there are not 28,184 bytes; 8 if no accepted setup packet
    /// leaves them.
    pub fn from_bytes(bytes: &[u8]) -> Result<Table, Refusal> {
        Refusal::check(lists::table(bytes))?;
        Ok(Table(bytes.to_vec()))
    }

    /// The bytes, 28,184 of them.
    pub fn bytes(&self) -> &[u8] {
        &self.0
    }

    /// The loop limit of a qi.
    ///
    /// # Errors
    ///
    /// Number 255 if qi is above 63.
    pub fn loop_limit(&self, qi: u64) -> Result<u64, Refusal> {
        let mut list = [0; 1];
        Refusal::check(lists::loop_limit(&self.0, qi, &mut list))?;
        Ok(list[0])
    }

    /// The quantization matrix of a type, plane and qi, in natural order.
    ///
    /// # Errors
    ///
    /// Number 255 if there is no such plane or qi.
    pub fn matrix(
        &self,
        kind: MatrixType,
        plane: u64,
        qi: u64,
    ) -> Result<[u64; MATRIX_NUMBERS], Refusal> {
        let kind = match kind {
            MatrixType::Intra => 0,
            MatrixType::Inter => 1,
        };
        let mut list = [0; MATRIX_NUMBERS];
        Refusal::check(lists::matrix(&self.0, kind, plane, qi, &mut list))?;
        Ok(list)
    }
}
