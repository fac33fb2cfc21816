//! What of a recording is not read or is damaged, in words.

use recording::part::{Part, Stream};

/// A Theora stream beside those that are read.
pub fn beside(stream: &Stream) -> String {
    let number = stream.number;
    format!("{} is not read: --stream {number} reads it", named(stream))
}

/// A stream by its numbers.
pub fn named(stream: &Stream) -> String {
    match stream.serial {
        Some(serial) => format!("stream {} (serial {serial})", stream.number),
        None => format!("stream {}", stream.number),
    }
}

/// What a part says of data that nobody reads.
pub fn unread(part: &Part) -> Option<String> {
    match part {
        Part::NoPage(bytes) => Some(format!(
            "bytes {} to {} are no whole Ogg page: damaged, cut short or foreign",
            bytes.start,
            bytes.end - 1
        )),
        Part::Stray { serial, pages } => Some(format!(
            "{pages} pages of serial {serial} belong to no stream that began here"
        )),
        _ => None,
    }
}
