//! How the planes of a frame lie in its file.

use std::fmt::Write;
use wedgepetal::Player;

/// The text beside the frames of a stream.
pub fn layout(player: &Player) -> String {
    let (session, sizes) = (player.session(), player.sizes());
    let mut text = format!(
        "Each file is a frame, named by its number: {} bytes, one byte a sample.\n\
         Rows go from left to right, and the lowest row is the first.\n",
        sizes.buffer
    );
    for (name, plane) in ["Y'", "Cb", "Cr"].iter().zip(&sizes.planes) {
        let (width, height) = (8 * plane.blocks_across, 8 * plane.blocks_up);
        // Writing to a string does not fail.
        let _ = writeln!(
            text,
            "plane {name}: {width} by {height} samples from byte {}",
            plane.offset
        );
    }
    let [luma, _, _] = &sizes.planes;
    let (width, height) = (8 * luma.blocks_across, 8 * luma.blocks_up);
    let (left, bottom) = (session.picx, session.picy);
    let _ = write!(
        text,
        "The picture is {} by {} samples of Y', from column {left} and row {bottom}.\n\
         In Python, Y' with the highest row first:\n\
         numpy.fromfile(\"000000.planes\", \"u1\", {}).reshape({height}, {width})[::-1]\n",
        session.picw, session.pich, luma.length
    );
    text
}
