//! Work memory: the published lengths of its slices (docs/MEMORY.md).

use super::sizes::Sizes;

/// How many slices it has.
pub const SLICES: usize = 10;

/// The slices' names, in the order in which they are lent.
pub const NAMES: [&str; SLICES] = [
    "records", "coded", "coefs", "dc", "lasts", "flags", "bits", "supers", "modes", "active",
];

/// The lengths of the slices for a frame of these sizes, in elements.
pub fn lengths(sizes: &Sizes) -> [u64; SLICES] {
    let Sizes {
        nbs, nmbs, nsbs, ..
    } = *sizes;
    [nbs, nbs, 64 * nbs, nbs, nbs, nbs, nbs, 2 * nsbs, nmbs, nbs]
}

/// The bytes of all slices together.
pub fn bytes(sizes: &Sizes) -> u64 {
    153 * sizes.nbs + 2 * sizes.nsbs + sizes.nmbs
}

#[cfg(test)]
mod tests {
    use super::super::session::Fields;
    use super::super::sizes::sizes;
    use super::*;

    /// How many bytes an element of each slice has.
    const ELEMENT_BYTES: [u64; SLICES] = [4, 8, 2, 2, 1, 1, 1, 1, 1, 8];

    #[test]
    fn bytes_are_those_of_the_slices_and_within_the_bound() {
        for pf in [0, 2, 3] {
            for (fmbw, fmbh) in [(1, 1), (3, 5), (65535, 65535), (1, 65535)] {
                let sizes = sizes(&Fields {
                    fmbw,
                    fmbh,
                    pf,
                    ..Fields::default()
                });
                let slices = lengths(&sizes).into_iter().zip(ELEMENT_BYTES);
                let together: u64 = slices.map(|(length, bytes)| length * bytes).sum();
                assert_eq!(together, bytes(&sizes));
                assert!(together <= 1024 * (sizes.nbs + sizes.nmbs + sizes.nsbs));
            }
        }
    }
}
