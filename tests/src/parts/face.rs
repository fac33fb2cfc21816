//! The calls of the static library `parts_c`, made safe: each tests what the
//! contract of its part requires.
#![allow(unsafe_code)]

mod library {
    unsafe extern "C" {
        pub fn parts_residual(
            coefs: *const i16,
            coefs_length: usize,
            at: usize,
            dc: i16,
            last: u8,
            q: u16,
            matrix: *const u16,
            matrix_length: usize,
            out: *mut i16,
            out_length: usize,
        );
        pub fn parts_predict_dc(
            dc: *mut i16,
            dc_length: usize,
            records: *const u32,
            records_length: usize,
            across: usize,
            up: usize,
            chroma_across: usize,
            chroma_up: usize,
        );
        pub fn parts_write_block(
            new: *mut u8,
            new_length: usize,
            golden: *const u8,
            golden_length: usize,
            previous: *const u8,
            previous_length: usize,
            residual: *const i16,
            residual_length: usize,
            pf: u64,
            w: u64,
            h: u64,
            plane: u64,
            x: u64,
            y: u64,
            packed: u32,
        );
        pub fn parts_filter_frame(
            new: *mut u8,
            new_length: usize,
            records: *const u32,
            records_length: usize,
            limit: u32,
            pf: u64,
            w: u64,
            h: u64,
        );
        pub fn parts_make_frame(
            new: *mut u8,
            new_length: usize,
            golden: *const u8,
            golden_length: usize,
            previous: *const u8,
            previous_length: usize,
            records: *mut u32,
            records_length: usize,
            coded: *mut u64,
            coded_length: usize,
            count: usize,
            coefs: *mut i16,
            coefs_length: usize,
            dc: *mut i16,
            dc_length: usize,
            lasts: *mut u8,
            lasts_length: usize,
            matrices: *const u16,
            matrices_length: usize,
            limit: u32,
            pf: u64,
            w: u64,
            h: u64,
        );
        pub fn parts_copy(dst: *mut u8, dst_length: usize, src: *const u8, src_length: usize);
    }
}

/// How many numbers the matrices of a frame have: 64 for each of two types,
/// three planes and three qi.
pub const MATRICES: usize = 2 * 3 * 3 * 64;

/// A frame: PF, and its macro blocks across and up.
#[derive(Clone, Copy, Debug)]
pub struct Frame {
    /// 0, 2 or 3.
    pub pf: u64,
    /// Across.
    pub w: u64,
    /// Up.
    pub h: u64,
}

impl Frame {
    /// The blocks across and up of luma and of chroma.
    fn planes(self) -> [(usize, usize); 2] {
        let luma = (2 * self.w as usize, 2 * self.h as usize);
        let chroma = match self.pf {
            0 => (luma.0 / 2, luma.1 / 2),
            2 => (luma.0 / 2, luma.1),
            _ => luma,
        };
        [luma, chroma]
    }

    /// How many blocks it has.
    pub fn blocks(self) -> usize {
        let [luma, chroma] = self.planes();
        luma.0 * luma.1 + 2 * chroma.0 * chroma.1
    }

    /// How many bytes a plane buffer has.
    pub fn bytes(self) -> usize {
        64 * self.blocks()
    }

    /// "w ≤ 65535", "h ≤ 65535"
    fn test(self) {
        assert!(self.w <= 65535 && self.h <= 65535);
    }
}

/// Where a block lies.
#[derive(Clone, Copy, Debug)]
pub struct Place {
    /// The plane.
    pub plane: u64,
    /// From the left.
    pub x: u64,
    /// From below.
    pub y: u64,
}

/// "InRange (unpacked packed)": at most three qi, components within 31.
fn in_range(packed: u32) -> bool {
    let component = |bits: u32| (1..64).contains(&(bits % 64));
    let has_vector = packed / 8 % 4 != 0;
    packed / 2 % 4 <= 2 && (!has_vector || component(packed / 32) && component(packed / 2048))
}

/// The residuals of a block, from the 64 coefficients at `at`.
pub fn residual(
    coefs: &[i16],
    at: usize,
    (dc, q): (i16, u16),
    last: u8,
    matrix: &[u16],
    out: &mut [i16],
) {
    assert!(at + 64 <= coefs.len() && matrix.len() == 64 && out.len() == 64);
    // SAFETY: each pointer comes from a slice and is valid for its length, a
    // slice that is written overlaps no other, and what is required was tested.
    unsafe {
        library::parts_residual(
            coefs.as_ptr(),
            coefs.len(),
            at,
            dc,
            last,
            q,
            matrix.as_ptr(),
            matrix.len(),
            out.as_mut_ptr(),
            out.len(),
        );
    }
}

/// DC prediction over the planes of a frame.
pub fn predict_dc(frame: Frame, dc: &mut [i16], records: &[u32]) {
    let [(across, up), (chroma_across, chroma_up)] = frame.planes();
    assert!(frame.blocks() <= dc.len() && frame.blocks() <= records.len());
    // SAFETY: as in `residual`.
    unsafe {
        library::parts_predict_dc(
            dc.as_mut_ptr(),
            dc.len(),
            records.as_ptr(),
            records.len(),
            across,
            up,
            chroma_across,
            chroma_up,
        );
    }
}

/// The samples of a block, predicted as its record says.
pub fn write_block(
    frame: Frame,
    place: Place,
    packed: u32,
    [golden, previous]: [&[u8]; 2],
    residual: &[i16],
    new: &mut [u8],
) {
    frame.test();
    let (across, up) = frame.planes()[usize::from(place.plane > 0)];
    assert!(place.plane < 3 && place.x < across as u64 && place.y < up as u64);
    assert!(in_range(packed) && residual.len() == 64);
    assert!([golden.len(), previous.len(), new.len()] == [frame.bytes(); 3]);
    // SAFETY: as in `residual`.
    unsafe {
        library::parts_write_block(
            new.as_mut_ptr(),
            new.len(),
            golden.as_ptr(),
            golden.len(),
            previous.as_ptr(),
            previous.len(),
            residual.as_ptr(),
            residual.len(),
            frame.pf,
            frame.w,
            frame.h,
            place.plane,
            place.x,
            place.y,
            packed,
        );
    }
}

/// The loop filter over a frame.
pub fn filter_frame(frame: Frame, records: &[u32], limit: u32, new: &mut [u8]) {
    frame.test();
    assert!(new.len() == frame.bytes() && records.len() == frame.blocks() && limit <= 127);
    // SAFETY: as in `residual`.
    unsafe {
        library::parts_filter_frame(
            new.as_mut_ptr(),
            new.len(),
            records.as_ptr(),
            records.len(),
            limit,
            frame.pf,
            frame.w,
            frame.h,
        );
    }
}

/// The work memory that a frame is made of.
pub struct Blocks<'a> {
    /// Each block's packed record, in raster order.
    pub records: &'a mut [u32],
    /// The raster numbers of the coded blocks, and zeros behind them.
    pub coded: &'a mut [u64],
    /// How many are coded.
    pub count: usize,
    /// 64 coefficients for each coded block, and zeros behind them.
    pub coefs: &'a mut [i16],
    /// A zero for each block.
    pub dc: &'a mut [i16],
    /// The position of each coded block's last visit, and zeros behind them.
    pub lasts: &'a mut [u8],
}

/// Work memory of which all that is required was tested, and its frame.
pub struct Tested<'a>(Blocks<'a>, Frame);

impl<'a> Blocks<'a> {
    /// "Lent", "ZerosBehind", and zeros for DC.
    pub fn tested(self, frame: Frame) -> Tested<'a> {
        frame.test();
        let (blocks, count) = (frame.blocks(), self.count);
        assert!(self.records.len() == blocks && self.dc == vec![0; blocks]);
        assert!(count <= self.coded.len() && count <= self.lasts.len());
        assert!(64 * count <= self.coefs.len());
        let mut listed = vec![false; blocks];
        for block in &self.coded[..count] {
            assert!(!std::mem::replace(&mut listed[*block as usize], true));
            assert!(in_range(self.records[*block as usize]));
        }
        for (record, listed) in self.records.iter().zip(listed) {
            assert!((record % 2 == 1) == listed);
        }
        assert!(self.coded[count..].iter().all(|number| *number == 0));
        assert!(self.lasts[count..].iter().all(|last| *last == 0));
        assert!(self.coefs[64 * count..].iter().all(|coef| *coef == 0));
        Tested(self, frame)
    }
}

/// Makes a frame; what held its blocks is zero afterwards.
pub fn make_frame(
    Tested(blocks, frame): Tested,
    (matrices, limit): (&[u16], u32),
    [golden, previous]: [&[u8]; 2],
    new: &mut [u8],
) {
    assert!(matrices.len() == MATRICES && limit <= 127);
    assert!([golden.len(), previous.len(), new.len()] == [frame.bytes(); 3]);
    // SAFETY: as in `residual`.
    unsafe {
        library::parts_make_frame(
            new.as_mut_ptr(),
            new.len(),
            golden.as_ptr(),
            golden.len(),
            previous.as_ptr(),
            previous.len(),
            blocks.records.as_mut_ptr(),
            blocks.records.len(),
            blocks.coded.as_mut_ptr(),
            blocks.coded.len(),
            blocks.count,
            blocks.coefs.as_mut_ptr(),
            blocks.coefs.len(),
            blocks.dc.as_mut_ptr(),
            blocks.dc.len(),
            blocks.lasts.as_mut_ptr(),
            blocks.lasts.len(),
            matrices.as_ptr(),
            matrices.len(),
            limit,
            frame.pf,
            frame.w,
            frame.h,
        );
    }
}

/// Copies a buffer.
pub fn copy(dst: &mut [u8], src: &[u8]) {
    assert!(dst.len() == src.len());
    // SAFETY: as in `residual`.
    unsafe {
        library::parts_copy(dst.as_mut_ptr(), dst.len(), src.as_ptr(), src.len());
    }
}
