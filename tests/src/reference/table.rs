//! The values that the rules' table fixes.

use super::bits::BitReader;
use super::matrices::value;
use super::numeric::{cut, round_mean};
use super::order::Grid;
use super::samples::loop_filter::response;
use super::samples::residual::dc_only;
use super::session::Fields;
use super::setup::setup;
use super::setup::tests::{begin, put_copies, put_lone_leaves};
use super::sizes::{Sizes, sizes};

fn frame(fmbw: u64, fmbh: u64, pf: u64) -> Sizes {
    sizes(&Fields::of_frame(fmbw, fmbh, pf))
}

#[test]
fn b1_read_3_then_5_bits() {
    let mut reader = BitReader::new(&[0xB1]);
    assert_eq!((reader.read(3), reader.read(5)), (Ok(5), Ok(17)));
}

#[test]
fn block_3_3_is_10() {
    assert_eq!(Grid::blocks(4, 4).number((3, 3)), Some(10));
    assert_eq!(Grid::blocks(4, 4).walk()[10], (3, 3));
}

#[test]
fn luma_of_240_by_48_samples() {
    let luma = frame(15, 3, 0).planes[0];
    let grid = Grid::blocks(luma.across, luma.up);
    assert_eq!(grid.number((0, 4)), Some(120));
    assert_eq!(grid.number((3, 5)), Some(124));
}

#[test]
fn sizes_of_4096_by_4097_macro_blocks() {
    let frame = frame(4096, 4097, 0);
    assert_eq!(frame.planes[0].length, 4_296_015_872);
    assert_eq!(frame.nbs, 100_687_872);
}

#[test]
fn blocks_of_65535_squared_444() {
    assert_eq!(frame(65535, 65535, 3).nbs, 51_538_034_700);
}

#[test]
fn intra_dc_of_scale_10_and_base_16() {
    assert_eq!(value(10, 16, 16), 16);
}

#[test]
fn ac_of_scale_65535_and_base_255() {
    assert_eq!(value(65535, 255, 8), 4096);
    assert_eq!(value(65535, 255, 16), 4096);
}

#[test]
fn round_of_minus_2_quarters() {
    assert_eq!(round_mean(-2, 4), -1);
}

#[test]
fn loop_filter_with_limit_10() {
    assert_eq!([15, -15, 20].map(|r| response(r, 10)), [5, -5, 0]);
}

#[test]
fn dc_32767_and_1_cut() {
    assert_eq!(cut(32767 + 1), -32768);
}

#[test]
fn dc_only_with_quantizer_16() {
    assert_eq!([-1, 1].map(|dc| dc_only(dc, 16)), [-1, 0]);
}

#[test]
fn nbms_384_passes_and_385_is_7() {
    let header = |nbms: u64| {
        let mut bits = begin(nbms - 1);
        put_copies(&mut bits, 9);
        put_lone_leaves(&mut bits);
        setup(bits.bytes()).map_err(|refused| refused.fault.number)
    };
    assert!(header(384).is_ok());
    assert_eq!(header(385).err(), Some(7));
}
