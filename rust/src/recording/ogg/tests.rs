use super::*;
use crate::recording::part::Stream;

/// The first packet of every Theora stream here.
const FIRST: &[u8] = b"\x80theora";

/// A long packet, over four pages.
const LONG: &[u8] = &[7; 200_000];

/// The pages of a stream of these packets.
fn stream(serial: u32, packets: &[&[u8]]) -> Vec<Vec<u8>> {
    let packets: Vec<_> = packets.iter().map(|packet| (packet.to_vec(), 3)).collect();
    pages(serial, &packets).unwrap()
}

/// All parts of a recording.
fn parts(recording: &[u8], choice: Choice) -> Vec<Part> {
    let parts = Parts::new(recording, choice).unwrap();
    parts.map(Result::unwrap).collect()
}

/// The packets of a stream among these parts.
fn packets<'a>(parts: &'a [Part], stream: u64) -> Vec<&'a [u8]> {
    let packet = |part: &'a Part| match part {
        Part::Packet(packet) if packet.stream == stream => Some(&packet.bytes[..]),
        _ => None,
    };
    parts.iter().filter_map(packet).collect()
}

/// All but the packets.
fn events(parts: &[Part]) -> Vec<&Part> {
    let is_event = |part: &&Part| !matches!(part, Part::Packet(_));
    parts.iter().filter(is_event).collect()
}

/// A stream that begins.
fn begins(number: u64, serial: u32) -> Stream {
    Stream {
        number,
        serial: Some(serial),
    }
}

/// A stream ends as its last page says.
fn whole(stream: u64) -> Part {
    Part::End {
        stream,
        end: End::Whole,
    }
}

/// The gap of stream 1 at this byte.
fn gap(place: u64, kind: GapKind) -> Part {
    Part::Gap(Gap {
        stream: 1,
        place,
        kind,
    })
}

#[test]
fn a_known_page() {
    let header = b"OggS\0\x06\0\0\0\0\0\0\0\0\x07\0\0\0\0\0\0\0\xD4\x96\x56\x3F\x01\x07";
    assert_eq!(stream(7, &[FIRST]), [[header, FIRST].concat()]);
}

#[test]
fn packets_of_every_length_read_back() {
    let lengths = [0, 1, 254, 255, 256, 65024, 65025, 65026, 200_000];
    let bytes: Vec<u8> = (0..200_000).map(|i| i as u8).collect();
    let rest = lengths.map(|length| &bytes[..length]);
    let wanted = [&[FIRST], &rest[..]].concat();
    let parts = parts(&stream(5, &wanted).concat(), Choice::Joined);
    assert_eq!(packets(&parts, 1), wanted);
    assert_eq!(events(&parts), [&Part::Begin(begins(1, 5)), &whole(1)]);
}

#[test]
fn a_page_places_all_its_packets_in_time() {
    // A page with three packets, of 7 bytes and twice one, that begins and ends
    // its stream.
    let mut page = b"OggS\0\x06\x09\0\0\0\0\0\0\0\x07\0\0\0\0\0\0\0".to_vec();
    page.extend(b"\x15\x94\xCE\x40"); // the checksum
    page.extend([b"\x03\x07\x01\x01", FIRST, b"ab"].concat());
    let parts = parts(&page, Choice::Joined);
    assert_eq!(packets(&parts, 1), [FIRST, b"a", b"b"]);
    let granule = |part: &Part| match part {
        Part::Packet(packet) => packet.granule,
        _ => None,
    };
    let granules: Vec<Granule> = parts.iter().filter_map(granule).collect();
    let wanted = [2, 1, 0].map(|behind| Granule {
        position: 9,
        behind,
    });
    assert_eq!(granules, wanted);
}

/// The pages of a Theora stream and of another stream, one by one in turn.
fn side_by_side(first: &[Vec<u8>], second: &[Vec<u8>]) -> Vec<Vec<u8>> {
    assert_eq!(first.len(), second.len());
    let both = first.iter().zip(second);
    both.flat_map(|(one, other)| [one.clone(), other.clone()])
        .collect()
}

/// A Theora stream with serial number 5 behind sound with number 4.
fn with_sound() -> Vec<Vec<u8>> {
    let theora = stream(5, &[FIRST, LONG, b"", b"abc"]);
    side_by_side(&stream(4, &[b"\x01vorbis", b"x", LONG, b"y"]), &theora)
}

#[test]
fn sound_is_named_and_passed_over() {
    let parts = parts(&with_sound().concat(), Choice::Joined);
    assert_eq!(packets(&parts, 1), [FIRST, LONG, b"", b"abc"]);
    let sound = Part::Other {
        serial: 4,
        holds: "Vorbis sound",
    };
    assert_eq!(
        events(&parts),
        [&sound, &Part::Begin(begins(1, 5)), &whole(1)]
    );
}

#[test]
fn of_two_theora_streams_the_chosen_are_read() {
    let pages = side_by_side(&stream(5, &[FIRST, b"a"]), &stream(6, &[FIRST, b"b"]));
    let recording = pages.concat();
    let (one, two) = (begins(1, 5), begins(2, 6));
    let joined = parts(&recording, Choice::Joined);
    let beside = Part::Beside(two.clone());
    assert_eq!(
        events(&joined),
        [&Part::Begin(one.clone()), &beside, &whole(1)]
    );
    assert_eq!(packets(&joined, 1), [FIRST, b"a"]);
    let second = parts(&recording, Choice::One(2));
    assert_eq!(
        events(&second),
        [&Part::Beside(one), &Part::Begin(two), &whole(2)]
    );
    assert_eq!(packets(&second, 2), [FIRST, b"b"]);
    let all = parts(&recording, Choice::All);
    assert_eq!(packets(&all, 1), [FIRST, b"a"]);
    assert_eq!(packets(&all, 2), [FIRST, b"b"]);
}

#[test]
fn joined_recordings_are_read_one_after_the_other() {
    // The second has the serial number of the first.
    let recording = [stream(5, &[FIRST, b"a"]), stream(5, &[FIRST, b"b"])]
        .concat()
        .concat();
    let parts = parts(&recording, Choice::Joined);
    let (one, two) = (Part::Begin(begins(1, 5)), Part::Begin(begins(2, 5)));
    assert_eq!(events(&parts), [&one, &whole(1), &two, &whole(2)]);
    assert_eq!(
        (packets(&parts, 1), packets(&parts, 2)),
        (vec![FIRST, b"a"], vec![FIRST, b"b"])
    );
}

#[test]
fn a_recording_behind_one_that_is_cut_is_read() {
    let (first, second) = (stream(5, &[FIRST, b"a", b"b"]), stream(6, &[FIRST, b"c"]));
    let recording = [&first[..2], &second].concat().concat();
    let parts = parts(&recording, Choice::Joined);
    let cut = Part::End {
        stream: 1,
        end: End::NoLastPage,
    };
    assert_eq!(
        events(&parts),
        [
            &Part::Begin(begins(1, 5)),
            &cut,
            &Part::Begin(begins(2, 6)),
            &whole(2)
        ]
    );
}

/// A recording without one of its pages, and where the page was.
fn without(pages: &[Vec<u8>], page: usize) -> (Vec<u8>, u64) {
    let place = pages[..page].concat().len() as u64;
    (
        [&pages[..page], &pages[page + 1..]].concat().concat(),
        place,
    )
}

#[test]
fn a_missing_page_is_a_gap_and_the_packets_behind_it_come() {
    let all = [FIRST, b"ab", LONG, b"cd", b"ef"];
    let pages = stream(5, &all);
    // Which packets touch each page.
    let touched = [0, 1, 2, 2, 2, 2, 3];
    for (page, touched) in touched.into_iter().enumerate().skip(1) {
        let (recording, place) = without(&pages, page);
        let parts = parts(&recording, Choice::Joined);
        let left: Vec<&[u8]> = (0..5).filter(|i| *i != touched).map(|i| all[i]).collect();
        assert_eq!(packets(&parts, 1), left, "{page}");
        let missing = gap(place, GapKind::Missing(page as u32, 1));
        assert_eq!(events(&parts)[1], &missing, "{page}");
    }
}

#[test]
fn a_missing_page_of_another_stream_is_none() {
    let pages = with_sound();
    for page in (2..pages.len()).step_by(2) {
        let (recording, _) = without(&pages, page);
        let parts = parts(&recording, Choice::Joined);
        assert_eq!(packets(&parts, 1), [FIRST, LONG, b"", b"abc"]);
        assert!(!parts.iter().any(|part| matches!(part, Part::Gap(_))));
    }
}

#[test]
fn a_repeated_page_is_passed_over() {
    let pages = stream(5, &[FIRST, b"a", b"b", b"c"]);
    let recording = [&pages[..3], &pages[1..]].concat().concat();
    let parts = parts(&recording, Choice::Joined);
    assert_eq!(packets(&parts, 1), [FIRST, b"a", b"b", b"c"]);
    let gaps: Vec<&Part> = parts
        .iter()
        .filter(|part| matches!(part, Part::Gap(_)))
        .collect();
    let place = pages[..3].concat().len() as u64;
    let next = place + pages[1].len() as u64;
    let wanted = [
        gap(place, GapKind::Repeated(1)),
        gap(next, GapKind::Repeated(2)),
    ];
    assert_eq!(gaps, wanted.iter().collect::<Vec<_>>());
}

#[test]
fn pages_must_go_on_as_they_say() {
    let long = stream(5, &[FIRST, LONG]);
    let short = stream(5, &[FIRST, b"a", b"b"]);
    let torn = |parts: &[Part]| {
        parts
            .iter()
            .any(|part| matches!(part, Part::Gap(gap) if gap.kind == GapKind::Torn(2)))
    };
    let opened = parts(&[&long[..2], &short[2..]].concat().concat(), Choice::Joined);
    assert!(torn(&opened));
    assert_eq!(packets(&opened, 1), [FIRST, b"b"]);
    let closed = parts(&[&short[..2], &long[2..]].concat().concat(), Choice::Joined);
    assert!(torn(&closed));
    assert_eq!(packets(&closed, 1), [FIRST, b"a"]);
}

#[test]
fn cut_recordings_are_said() {
    let pages = stream(5, &[FIRST, b"abcdefgh"]);
    let recording = pages.concat();
    for length in pages[0].len()..recording.len() {
        let parts = parts(&recording[..length], Choice::Joined);
        assert_eq!(packets(&parts, 1), [FIRST]);
        let cut = Part::End {
            stream: 1,
            end: End::NoLastPage,
        };
        assert!(parts.contains(&cut), "{length}");
        let rest = Part::NoPage(pages[0].len() as u64..length as u64);
        assert_eq!(parts.contains(&rest), length > pages[0].len(), "{length}");
    }
    let long = stream(5, &[FIRST, LONG])[..3].concat();
    let end = End::InPacket(long.len() as u64);
    assert!(parts(&long, Choice::Joined).contains(&Part::End { stream: 1, end }));
}

/// Flips a bit of a recording.
fn flipped(recording: &[u8], bit: usize) -> Vec<u8> {
    let mut damaged = recording.to_vec();
    damaged[bit / 8] ^= 1 << (bit % 8);
    damaged
}

#[test]
fn a_flipped_bit_costs_its_page_alone() {
    let pages = stream(5, &[FIRST, b"abcdefgh", b"ij", b"klm"]);
    let recording = pages.concat();
    let (first, second) = (pages[0].len(), pages[0].len() + pages[1].len());
    for bit in 8 * first..8 * second {
        let parts = parts(&flipped(&recording, bit), Choice::Joined);
        assert_eq!(packets(&parts, 1), [FIRST, b"ij", b"klm"], "{bit}");
        let bytes = Part::NoPage(first as u64..second as u64);
        let missing = gap(second as u64, GapKind::Missing(1, 1));
        assert_eq!(events(&parts)[1..3], [&bytes, &missing], "{bit}");
    }
}

#[test]
fn every_flipped_bit_is_said() {
    let recording = stream(5, &[FIRST, b"abcdefgh"]).concat();
    for bit in 0..8 * recording.len() {
        let parts = parts(&flipped(&recording, bit), Choice::Joined);
        assert!(
            parts.iter().any(|part| matches!(part, Part::NoPage(_))),
            "{bit}"
        );
    }
}

#[test]
fn what_stands_between_pages_is_said() {
    let pages = stream(5, &[FIRST, b"abc"]);
    let between = [&pages[0][..], b"OggO", &pages[1], b"junk"].concat();
    let parts = parts(&between, Choice::Joined);
    assert_eq!(packets(&parts, 1), [FIRST, b"abc"]);
    let (place, end) = (pages[0].len() as u64, between.len() as u64);
    assert!(parts.contains(&Part::NoPage(place..place + 4)));
    assert!(parts.contains(&Part::NoPage(end - 4..end)));
}

#[test]
fn pages_of_no_stream_are_said() {
    let pages = stream(5, &[FIRST, b"abc"]);
    let strays = [
        &pages[..],
        &stream(6, &[FIRST, b"x", b"y"])[1..],
        &pages[1..],
    ]
    .concat();
    let parts = parts(&strays.concat(), Choice::Joined);
    let stray = |serial, pages| Part::Stray { serial, pages };
    assert_eq!(parts[parts.len() - 2..], [stray(5, 1), stray(6, 2)]);
}

#[test]
fn a_page_of_another_version_is_none() {
    let mut page = stream(7, &[FIRST]).concat();
    page[4] = 1;
    page[22..26].copy_from_slice(b"\xAC\x9A\xD8\x1E"); // the checksum
    let length = page.len() as u64;
    assert_eq!(parts(&page, Choice::Joined), [Part::NoPage(0..length)]);
}
