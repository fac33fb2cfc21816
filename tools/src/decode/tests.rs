use super::*;
use crate::sample;
use crate::target::Target;
use recording::{ogg, packet_file};
use std::io::Cursor;
use std::path::Path;

/// A request for the hashes of a recording, into nowhere.
fn request(after_gap: AfterGap) -> Request {
    Request {
        choice: Choice::Joined,
        after_gap,
        limit: Limit::new(None),
        output: Output::Hashes(Target::plan(Path::new("/dev/null"), false).unwrap()),
        index: None,
    }
}

/// What becomes of a recording, or why it is refused.
fn decoded(recording: &[u8], request: Request) -> Result<Summary, String> {
    let input = Input {
        name: "x".to_string(),
        reader: Box::new(Cursor::new(recording.to_vec())),
        progress: Progress::new(true, None),
    };
    match decode(input, request) {
        Ok(summary) => Ok(summary),
        Err(Failure::Refused(text) | Failure::File(text) | Failure::Usage(text)) => Err(text),
        Err(Failure::Unread) => Err("unread".to_string()),
    }
}

/// The text of a recording that is not refused as a whole.
fn text(recording: &[u8], after_gap: AfterGap) -> String {
    decoded(recording, request(after_gap)).unwrap().text("x")
}

/// The sample with some packets changed.
fn changed(change: impl Fn(&mut Vec<Vec<u8>>)) -> Vec<u8> {
    let mut packets = sample::packets();
    change(&mut packets);
    packet_file::write(&packets)
}

#[test]
fn the_sample_is_decoded() {
    let summary = decoded(&changed(|_| ()), request(AfterGap::Stop)).unwrap();
    assert!(summary.is_clean());
    assert_eq!(
        summary.text("x"),
        "x: 7 frames (1 intra, 5 inter, 1 repeat), no packet refused\n"
    );
}

#[test]
fn refused_packets_are_counted_and_passed_over() {
    let file = changed(|packets| {
        packets[3].clear();
        packets.insert(4, vec![0x80]);
        packets.insert(5, sample::packets()[3].clone());
    });
    let summary = decoded(&file, request(AfterGap::KeyFrame)).unwrap();
    assert!(!summary.is_clean());
    let text = summary.text("x");
    assert!(text.starts_with("x: 7 frames (1 intra,"), "{text}");
    assert!(text.contains("packets refused: 2\n"), "{text}");
    assert!(text.contains("  1 by 9, an inter or empty "), "{text}");
    assert!(
        text.contains("  1 by 10, the first bit of a frame packet is 1; the first is packet 4\n"),
        "{text}"
    );
    let json = summary.json("x").to_string();
    let first = "\"packets\": 1, \"first_packet\": 4, \"first_bit\": 0}";
    assert!(json.contains(first), "{json}");
}

#[test]
fn the_place_of_a_refusal_is_said() {
    // An inter frame that ends in its first run, behind ten bits.
    let file = changed(|packets| packets[4].truncate(2));
    let summary = decoded(&file, request(AfterGap::Stop)).unwrap();
    let json = summary.json("x").to_string();
    let first = "\"refusal\": 4, \"meaning\": \"a read passes the end of the packet\", \
                 \"packets\": 1, \"first_packet\": 4, \"first_bit\": 10}";
    assert!(json.contains(first), "{json}");
}

#[test]
fn a_cut_recording_is_decoded_as_far_as_it_goes() {
    let mut file = changed(|_| ());
    file.pop();
    let text = text(&file, AfterGap::Stop);
    assert!(text.starts_with("x: 6 frames"), "{text}");
    assert!(
        text.contains("  cut short inside a packet, at byte "),
        "{text}"
    );
}

#[test]
fn headers_are_refused() {
    let why = |file: Vec<u8>| decoded(&file, request(AfterGap::Stop)).err().unwrap();
    let cut = why(changed(|packets| packets[0].truncate(10)));
    assert!(
        cut.ends_with("identification header: refused by 4, a read passes the end of the packet, at bit 80 of 80"),
        "{cut}"
    );
    let other = why(changed(|packets| packets.swap(1, 2)));
    assert!(other.contains("setup header: refused by 2, "), "{other}");
    assert!(other.contains(", at bit 0 of "), "{other}");
    let short = why(changed(|packets| packets.truncate(2)));
    assert!(short.contains("before its first frame"), "{short}");
}

#[test]
fn memory_is_asked_for_first() {
    let small = Request {
        limit: Limit::new(Some(600_000)),
        ..request(AfterGap::Stop)
    };
    let why = decoded(&changed(|_| ()), small).err().unwrap();
    assert!(
        why.contains("need 649.7 kB of memory, more than the 600.0 kB"),
        "{why}"
    );
}

/// Four times the sample's frames, each time from its key frame on: the pages
/// of an Ogg file, a packet on each.
fn four_times() -> Vec<Vec<u8>> {
    let sample = sample::packets();
    let (headers, frames) = sample.split_at(3);
    let shift = wedgepetal::identification(&headers[0]).unwrap().kfgshift;
    let frame = |number: u64| {
        let (key, after) = (number / 7 * 7, number % 7);
        (frames[after as usize].clone(), (key + 1) << shift | after)
    };
    let headers = headers.iter().map(|header| (header.clone(), 0));
    let packets: Vec<_> = headers.chain((0..28).map(frame)).collect();
    ogg::pages(1, &packets).unwrap()
}

/// These pages without some.
fn without(pages: &[Vec<u8>], missing: std::ops::Range<usize>) -> Vec<u8> {
    [&pages[..missing.start], &pages[missing.end..]]
        .concat()
        .concat()
}

#[test]
fn at_a_gap_in_an_ogg_file_reading_stops() {
    // Page 12 has frame 9.
    let pages = four_times();
    let text = text(&without(&pages, 12..13), AfterGap::Stop);
    assert!(
        text.starts_with("x: 9 frames (2 intra, 6 inter, 1 repeat)"),
        "{text}"
    );
    assert!(
        text.contains("page 12 is damaged or missing, before byte "),
        "{text}"
    );
    assert!(
        text.contains("at 0.360000 s\n  reading stops there"),
        "{text}"
    );
}

#[test]
fn behind_a_gap_in_an_ogg_file_decoding_goes_on_at_the_next_key_frame() {
    // Frames 9 and 10 are lost; 11 to 13 are left out, since what they build
    // on is out of date; 14 is a key frame.
    let pages = four_times();
    let summary = decoded(&without(&pages, 12..14), request(AfterGap::KeyFrame)).unwrap();
    assert!(!summary.is_clean());
    let text = summary.text("x");
    assert!(
        text.starts_with("x: 23 frames (4 intra, 16 inter, 3 repeat), no packet refused\n"),
        "{text}"
    );
    assert!(
        text.contains(
            "packets lost: 2, from 0.360000 s to 0.440000 s; left out up to the next key frame: 3\n"
        ),
        "{text}"
    );
}

#[test]
fn a_repeated_page_of_an_ogg_file_loses_nothing() {
    let pages = four_times();
    let twice = [&pages[..12], &pages[10..]].concat().concat();
    let text = text(&twice, AfterGap::KeyFrame);
    assert!(
        text.starts_with("x: 28 frames (4 intra, 20 inter, 4 repeat)"),
        "{text}"
    );
    assert!(text.contains("page 10 comes again or too late"), "{text}");
}

#[test]
fn a_gap_among_the_headers_of_an_ogg_file_is_a_refusal() {
    let pages = four_times();
    for page in 1..3 {
        let gap = without(&pages, page..page + 1);
        let why = decoded(&gap, request(AfterGap::KeyFrame)).err().unwrap();
        assert!(why.contains("its headers are not whole"), "{why}");
    }
}

#[test]
fn joined_ogg_files_are_decoded_one_after_the_other() {
    let file = sample::ogg_file().unwrap();
    let text = text(&[&file[..], &file].concat(), AfterGap::Stop);
    let line = |stream| {
        format!("x: stream {stream}: 7 frames (1 intra, 5 inter, 1 repeat), no packet refused\n")
    };
    assert_eq!(text, line(1) + &line(2));
}
