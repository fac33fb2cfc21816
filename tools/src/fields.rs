//! The fields of a session and its sizes by their names in the specification.

use crate::json::Json;
use std::fmt::{self, Write};
use wedgepetal::lists::TABLE_BYTES;
use wedgepetal::{Session, Sizes, WorkLengths};

/// The fields of a session, the sizes of its frames, and the memory that
/// decoding them takes, as text.
pub fn report(session: &Session, sizes: &Sizes, lengths: &WorkLengths) -> String {
    let mut text = String::new();
    // Writing to a string does not fail.
    let _ = write_fields(&mut text, session);
    let _ = write_sizes(&mut text, sizes);
    let _ = write_memory(&mut text, sizes, lengths);
    text
}

/// One line for each field.
fn write_fields(out: &mut String, s: &Session) -> fmt::Result {
    let line = |out: &mut String, name: &str, value: u64, note: &str| {
        writeln!(
            out,
            "  {}",
            format!("{name:9} {value:<12} {note}").trim_end()
        )
    };
    writeln!(out, "identification fields")?;
    line(out, "VREV", s.vrev, "revision of version 3.2")?;
    let note = format!("frame width in macro blocks ({} samples)", 16 * s.fmbw);
    line(out, "FMBW", s.fmbw, &note)?;
    let note = format!("frame height in macro blocks ({} samples)", 16 * s.fmbh);
    line(out, "FMBH", s.fmbh, &note)?;
    line(out, "PICW", s.picw, "picture width in samples")?;
    line(out, "PICH", s.pich, "picture height in samples")?;
    line(out, "PICX", s.picx, "picture offset from the left")?;
    line(out, "PICY", s.picy, "picture offset from the bottom")?;
    let rate = s.frn as f64 / s.frd as f64;
    let note = format!("frame rate, numerator ({rate:.3} frames a second)");
    line(out, "FRN", s.frn, &note)?;
    line(out, "FRD", s.frd, "frame rate, denominator")?;
    line(out, "PARN", s.parn, "aspect ratio of a sample, numerator")?;
    line(out, "PARD", s.pard, "aspect ratio of a sample, denominator")?;
    let note = format!("colour space: {}", colour_space(s.cs));
    line(out, "CS", s.cs, &note)?;
    line(out, "NOMBR", s.nombr, "nominal bits a second")?;
    line(out, "QUAL", s.qual, "quality hint")?;
    line(out, "KFGSHIFT", s.kfgshift, "shift of the key frame number")?;
    line(out, "PF", s.pf, pixel_format(s.pf))
}

/// The name of a colour space.
pub fn colour_space(cs: u64) -> &'static str {
    match cs {
        0 => "not said",
        1 => "Rec. 470M",
        2 => "Rec. 470BG",
        _ => "reserved",
    }
}

/// The name of a pixel format.
fn pixel_format(pf: u64) -> &'static str {
    match pf {
        0 => "pixel format 4:2:0",
        2 => "pixel format 4:2:2",
        3 => "pixel format 4:4:4",
        _ => "pixel format reserved",
    }
}

/// The counts of a frame and one line for each plane.
fn write_sizes(out: &mut String, sizes: &Sizes) -> fmt::Result {
    writeln!(out, "sizes of a frame")?;
    writeln!(out, "  macro blocks (NMBS)   {}", sizes.macro_blocks)?;
    writeln!(out, "  blocks (NBS)          {}", sizes.blocks)?;
    writeln!(out, "  super blocks (NSBS)   {}", sizes.super_blocks)?;
    writeln!(out, "  bytes of a buffer     {}", sizes.buffer)?;
    for (name, plane) in ["Y'", "Cb", "Cr"].iter().zip(&sizes.planes) {
        writeln!(
            out,
            "  plane {name}: {} by {} blocks, {} bytes at {}",
            plane.blocks_across, plane.blocks_up, plane.length, plane.offset
        )?;
    }
    Ok(())
}

/// What a decoder is lent, in bytes.
fn write_memory(out: &mut String, sizes: &Sizes, lengths: &WorkLengths) -> fmt::Result {
    writeln!(out, "bytes that decoding takes")?;
    writeln!(out, "  three buffers         {}", 3 * sizes.buffer)?;
    writeln!(out, "  work memory           {}", lengths.bytes)?;
    writeln!(out, "  table memory          {TABLE_BYTES}")
}

/// The fields as JSON.
pub fn json(s: &Session) -> Json {
    let fields = [
        ("VREV", s.vrev),
        ("FMBW", s.fmbw),
        ("FMBH", s.fmbh),
        ("PICW", s.picw),
        ("PICH", s.pich),
        ("PICX", s.picx),
        ("PICY", s.picy),
        ("FRN", s.frn),
        ("FRD", s.frd),
        ("PARN", s.parn),
        ("PARD", s.pard),
        ("CS", s.cs),
        ("NOMBR", s.nombr),
        ("QUAL", s.qual),
        ("KFGSHIFT", s.kfgshift),
        ("PF", s.pf),
    ];
    Json::Object(
        fields
            .map(|(name, value)| (name, Json::Number(value)))
            .into(),
    )
}

/// The sizes as JSON.
pub fn sizes_json(sizes: &Sizes) -> Json {
    let planes = sizes.planes.each_ref().map(|plane| {
        Json::Object(vec![
            ("width", Json::Number(8 * plane.blocks_across)),
            ("height", Json::Number(8 * plane.blocks_up)),
            ("offset", Json::Number(plane.offset)),
            ("length", Json::Number(plane.length)),
        ])
    });
    Json::Object(vec![
        ("NMBS", Json::Number(sizes.macro_blocks)),
        ("NBS", Json::Number(sizes.blocks)),
        ("NSBS", Json::Number(sizes.super_blocks)),
        ("buffer", Json::Number(sizes.buffer)),
        ("planes", Json::List(planes.into())),
    ])
}
