//! What a file is, by its first bytes.

/// How many bytes are looked at.
pub const LOOKED_AT: usize = 16;

/// How an identification header begins.
pub const HEADER: &[u8] = b"\x80theora";

/// A kind of recording.
#[derive(Clone, Copy, Debug, PartialEq, Eq)]
pub enum Kind {
    /// An Ogg file.
    Ogg,
    /// A packet file.
    PacketFile,
    /// An identification header alone.
    Header,
}

/// How other files begin: from this byte on, with these bytes.
const OTHERS: [(usize, &[u8], &str); 11] = [
    (0, b"RIFF", "a RIFF file (AVI or WAV)"),
    (0, b"\x1A\x45\xDF\xA3", "a Matroska or WebM file"),
    (4, b"ftyp", "an MP4 or QuickTime file"),
    (0, b"YUV4MPEG2", "a Y4M film"),
    (0, b"\x89PNG", "a PNG picture"),
    (0, b"\xFF\xD8\xFF", "a JPEG picture"),
    (0, b"\x89HDF", "an HDF5 file"),
    (0, b"\x1F\x8B", "a file packed with gzip"),
    (0, b"\xFD7zXZ", "a file packed with xz"),
    (0, b"PK\x03\x04", "a ZIP archive"),
    (0, b"fLaC", "a FLAC file"),
];

/// The kind of the recording that begins so, or what else it seems to be.
///
/// # Errors
///
/// What the file is, in words.
pub fn kind(first: &[u8]) -> Result<Kind, &'static str> {
    if first.starts_with(b"OggS") {
        return Ok(Kind::Ogg);
    }
    if first.starts_with(HEADER) {
        return Ok(Kind::Header);
    }
    if first
        .get(4..)
        .is_some_and(|packet| packet.starts_with(HEADER))
    {
        return Ok(Kind::PacketFile);
    }
    Err(other(first))
}

/// What a file that is no recording seems to be.
fn other(first: &[u8]) -> &'static str {
    let known = OTHERS.iter().find(|(place, bytes, _)| {
        first
            .get(*place..)
            .is_some_and(|rest| rest.starts_with(bytes))
    });
    let is_text = |byte: &u8| matches!(byte, b'\t' | b'\n' | b'\r' | b' '..=b'~');
    match known {
        Some((_, _, name)) => name,
        None if first.is_empty() => "an empty file",
        None if first.iter().all(is_text) => "a text",
        None => "something else",
    }
}

/// What streams of other kinds begin with.
const STREAMS: [(&[u8], &str); 9] = [
    (b"\x01vorbis", "Vorbis sound"),
    (b"OpusHead", "Opus sound"),
    (b"Speex   ", "Speex sound"),
    (b"\x7FFLAC", "FLAC sound"),
    (b"fishead\0", "a Skeleton"),
    (b"\x80kate", "Kate texts"),
    (b"CMML", "CMML texts"),
    (b"BBCD", "Dirac video"),
    (b"OVP80", "VP8 video"),
];

/// What a stream holds whose first packet begins so.
pub fn holds(first_packet: &[u8]) -> &'static str {
    STREAMS
        .iter()
        .find(|(bytes, _)| first_packet.starts_with(bytes))
        .map_or("something unknown", |(_, name)| name)
}

#[cfg(test)]
mod tests {
    use super::*;

    #[test]
    fn kinds_of_recordings() {
        assert_eq!(kind(b"OggS\0\x02"), Ok(Kind::Ogg));
        assert_eq!(kind(b"\x80theora\x03"), Ok(Kind::Header));
        assert_eq!(kind(b"\x2A\0\0\0\x80theora\x03\x02"), Ok(Kind::PacketFile));
    }

    #[test]
    fn other_files() {
        assert_eq!(
            kind(b"RIFF\x24\x08\0\0WAVEfmt "),
            Err("a RIFF file (AVI or WAV)")
        );
        assert_eq!(kind(b"\0\0\0\x20ftypisom"), Err("an MP4 or QuickTime file"));
        assert_eq!(kind(b"shot 12, 25 frame"), Err("a text"));
        assert_eq!(kind(b""), Err("an empty file"));
        assert_eq!(kind(b"Ogg\0"), Err("something else"));
        assert_eq!(holds(b"\x01vorbis\0"), "Vorbis sound");
        assert_eq!(holds(b""), "something unknown");
    }
}
