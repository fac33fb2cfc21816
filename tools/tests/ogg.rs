//! Ogg files as they come: joined, side by side, damaged, cut, without video.
#![allow(missing_docs)]

mod common;

use common::{changed_header, folder, good, pages, run, sample_packets};
use recording::ogg;
use std::fs;
use std::path::Path;

/// Writes a file of these pages.
fn write(folder: &Path, name: &str, pages: &[Vec<u8>]) {
    fs::write(folder.join(name), pages.concat()).unwrap();
}

/// The sample's packets with another picture: 100 rows high.
fn lower(packets: &[Vec<u8>]) -> Vec<Vec<u8>> {
    changed_header(packets, 17, &[0, 0, 100])
}

/// A row of an index begins and ends so.
fn assert_row(row: &str, begin: &str, end: &str) {
    assert!(row.starts_with(begin) && row.ends_with(end), "{row}");
}

#[test]
fn ogg_and_packet_files_give_the_same() {
    let folder = folder("ogg_and_packets");
    good(&folder, "sample s.ogv");
    good(&folder, "sample s.packets");
    let sample = common::command(&folder, "sample -").output().unwrap();
    assert_eq!(sample.stdout, fs::read(folder.join("s.ogv")).unwrap());
    assert_eq!(
        good(&folder, "packets s.ogv p.packets"),
        "s.ogv: 10 packets written\n"
    );
    let bytes = |name: &str| fs::read(folder.join(name)).unwrap();
    assert_eq!(bytes("s.packets"), bytes("p.packets"));
    good(&folder, "hashes s.ogv o.txt");
    good(&folder, "hashes s.packets p.txt");
    assert_eq!(bytes("o.txt"), bytes("p.txt"));
    let text = good(&folder, "info s.ogv");
    assert!(
        text.contains("\nstream 1 (serial 1): Theora 3.2.1\n"),
        "{text}"
    );
    assert!(
        text.ends_with("whole: nothing is missing or damaged\n"),
        "{text}"
    );
}

#[test]
fn joined_ogg_files_are_read_one_after_the_other() {
    let folder = folder("ogg_joined");
    let packets = sample_packets(&folder);
    write(
        &folder,
        "j.ogv",
        &[pages(5, &packets, 1), pages(6, &packets, 2)].concat(),
    );
    let out = good(&folder, "y4m j.ogv j.y4m --index j.csv");
    assert_eq!(
        out,
        "j.ogv: stream 1: 7 frames (1 intra, 5 inter, 1 repeat), no packet refused\n\
         j.ogv: stream 2: 14 frames (2 intra, 10 inter, 2 repeat), no packet refused\n"
    );
    let film = fs::read(folder.join("j.y4m")).unwrap();
    assert_eq!(film.len(), 43 + 21 * (6 + 320 * 240 * 3 / 2));
    let index = fs::read_to_string(folder.join("j.csv")).unwrap();
    let rows: Vec<&str> = index.lines().collect();
    assert_row(rows[7], "1,9,6,inter,20,", ",1,6,,,,0.240000");
    assert_row(rows[8], "2,3,7,intra,20,", ",1,0,,,,0.000000");
    good(&folder, "frames j.ogv frames");
    assert!(folder.join("frames/000006.planes").exists());
    assert!(folder.join("frames/stream-2/000007.planes").exists());
    assert!(folder.join("frames/stream-2/layout.txt").exists());
    let second = good(&folder, "hashes j.ogv h --stream 2");
    assert!(second.starts_with("j.ogv: 14 frames"), "{second}");
    let info = good(&folder, "info j.ogv");
    assert!(
        info.contains("stream 1 (serial 5)") && info.contains("stream 2 (serial 6)"),
        "{info}"
    );
}

#[test]
fn a_film_does_not_go_on_with_another_picture_of_an_ogg_file() {
    let folder = folder("ogg_other_picture");
    let packets = sample_packets(&folder);
    write(
        &folder,
        "j.ogv",
        &[pages(5, &packets, 1), pages(6, &lower(&packets), 1)].concat(),
    );
    let (status, out, _) = run(&folder, "cut j.ogv j.y4m");
    assert_eq!(status, 1);
    assert!(out.contains("j.ogv: stream 2: 0 frames"), "{out}");
    assert!(
        out.contains("the film cannot go on with it: YUV4MPEG2 W320 H100 "),
        "{out}"
    );
    assert_eq!(
        fs::read(folder.join("j.y4m")).unwrap().len(),
        43 + 7 * (6 + 320 * 232 * 3 / 2)
    );
    good(&folder, "cut j.ogv second.y4m --stream 2");
    let film = fs::read(folder.join("second.y4m")).unwrap();
    assert!(film.starts_with(b"YUV4MPEG2 W320 H100 "));
    // Of whole frames it is one stream, until the rate is another.
    good(&folder, "y4m j.ogv whole.y4m");
    let said = good(&folder, "y4m check whole.y4m");
    assert!(said.starts_with("whole.y4m: 14 frames of 320 x 240 samples"));
    let slower = changed_header(&packets, 22, &[0, 0, 0, 24]);
    write(
        &folder,
        "k.ogv",
        &[pages(5, &packets, 1), pages(6, &slower, 1)].concat(),
    );
    let (status, out, _) = run(&folder, "y4m k.ogv k.y4m");
    assert_eq!(status, 1);
    assert!(
        out.contains("the film cannot go on with it: YUV4MPEG2 W320 H240 F24:1 "),
        "{out}"
    );
}

#[test]
fn two_ogg_streams_side_by_side_are_named() {
    let folder = folder("ogg_two_streams");
    let packets = sample_packets(&folder);
    let (one, two) = (pages(5, &packets, 1), pages(6, &packets, 1));
    let both: Vec<Vec<u8>> = one.into_iter().zip(two).flat_map(|(a, b)| [a, b]).collect();
    write(&folder, "b.ogv", &both);
    let (status, out, _) = run(&folder, "y4m b.ogv b.y4m");
    assert_eq!(status, 1);
    let left = "b.ogv: stream 2 (serial 6) is not read: --stream 2 reads it\n";
    assert!(
        out.contains("b.ogv: 7 frames") && out.ends_with(left),
        "{out}"
    );
    let (status, out, _) = run(&folder, "packets b.ogv p");
    assert!(status == 1 && out.ends_with(left), "{out}");
    for words in [
        "y4m b.ogv /dev/null --quiet",
        "packets b.ogv /dev/null --quiet",
    ] {
        let quiet = (1, String::new(), left.to_string());
        assert_eq!(run(&folder, words), quiet, "{words}");
    }
    good(&folder, "y4m b.ogv c.y4m --stream 2");
    let bytes = |name: &str| fs::read(folder.join(name)).unwrap();
    assert_eq!(bytes("b.y4m"), bytes("c.y4m"));
    let (status, _, err) = run(&folder, "y4m b.ogv d.y4m --stream 3");
    assert!(
        status == 1
            && err.contains("there is no Theora stream 3; there is stream 1 (serial 5), stream 2"),
        "{err}"
    );
    let info = good(&folder, "info b.ogv");
    assert_eq!(
        info.matches("length    7 frames, 0.280 s").count(),
        2,
        "{info}"
    );
}

/// An Ogg file of four times the sample's frames, damaged in some way.
fn damaged(folder: &Path, damage: impl Fn(&mut Vec<Vec<u8>>)) {
    let mut all = pages(5, &sample_packets(folder), 4);
    damage(&mut all);
    write(folder, "d.ogv", &all);
}

#[test]
fn a_flipped_bit_in_an_ogg_file_stops_reading() {
    let folder = folder("ogg_flipped");
    damaged(&folder, |pages| pages[12][40] ^= 4);
    let (status, out, err) = run(&folder, "y4m d.ogv f --index i");
    assert_eq!(status, 1);
    assert!(
        err.contains("d.ogv: page 12 is damaged or missing, before byte "),
        "{err}"
    );
    assert!(
        out.starts_with("d.ogv: 9 frames (2 intra, 6 inter, 1 repeat), no packet refused\n"),
        "{out}"
    );
    assert!(
        out.contains("at 0.360000 s\n  reading stops there; --after-gap key-frame goes on"),
        "{out}"
    );
    assert!(
        out.contains("are no whole Ogg page: damaged, cut short or foreign"),
        "{out}"
    );
    let index = fs::read_to_string(folder.join("i")).unwrap();
    assert!(
        index.contains(",gap,,,,,,,\"page 12 is damaged or missing, before byte "),
        "{index}"
    );
    let (status, text, _) = run(&folder, "info d.ogv");
    assert!(
        status == 1 && text.contains("stream 1: page 12 is damaged or missing"),
        "{text}"
    );
}

#[test]
fn behind_a_flipped_bit_an_ogg_file_goes_on_at_a_key_frame() {
    let folder = folder("ogg_key_frame");
    damaged(&folder, |pages| pages[12][40] ^= 4);
    let (status, out, _) = run(&folder, "frames d.ogv f --after-gap key-frame --index i");
    assert_eq!(status, 1);
    // Frame 9 is lost, and 10 to 13 build on it.
    assert!(
        out.starts_with("d.ogv: 23 frames (4 intra, 16 inter, 3 repeat), no packet refused\n"),
        "{out}"
    );
    assert!(
        out.contains(
            "packets lost: 1, from 0.360000 s to 0.400000 s; left out up to the next key frame: 4\n"
        ),
        "{out}"
    );
    let index = fs::read_to_string(folder.join("i")).unwrap();
    let rows: Vec<&str> = index.lines().collect();
    assert_row(rows[9], "1,11,8,inter,20,", ",2,1,,,,0.320000");
    assert_row(rows[10], "1,,,gap,", ",0.360000");
    assert_eq!(
        rows[11],
        "1,12,,left out,,,,,9,1,\"an inter or empty packet and no references\",0.400000"
    );
    assert_row(rows[15], "1,16,9,intra,20,", ",3,0,,,,0.560000");
    // Every frame that is there is one of the whole recording.
    damaged(&folder, |_| ());
    good(&folder, "frames d.ogv whole");
    for (number, whole) in (0..9).chain(14..28).enumerate() {
        let frame = |folder_name: &str, number: usize| {
            fs::read(folder.join(format!("{folder_name}/{number:06}.planes"))).unwrap()
        };
        assert_eq!(frame("f", number), frame("whole", whole), "{number}");
    }
}

#[test]
fn lost_and_repeated_pages_of_an_ogg_file_are_said() {
    let folder = folder("ogg_lost");
    damaged(&folder, |pages| {
        pages.drain(12..15);
    });
    let (status, out, _) = run(&folder, "hashes d.ogv h --after-gap key-frame");
    assert_eq!(status, 1);
    assert!(
        out.contains("pages 12 to 14 are damaged or missing"),
        "{out}"
    );
    assert!(
        out.contains("packets lost: 3, from 0.360000 s to 0.480000 s"),
        "{out}"
    );
    damaged(&folder, |pages| pages.insert(13, pages[12].clone()));
    let (status, out, _) = run(&folder, "hashes d.ogv again --after-gap key-frame");
    assert_eq!(status, 1);
    assert!(
        out.starts_with("d.ogv: 28 frames") && out.contains("page 12 comes again or too late"),
        "{out}"
    );
    let (status, out, _) = run(&folder, "hashes d.ogv stopped");
    assert!(status == 1 && out.starts_with("d.ogv: 10 frames"), "{out}");
}

#[test]
fn a_cut_ogg_file_is_said() {
    let folder = folder("ogg_cut");
    good(&folder, "sample s.ogv");
    let file = fs::read(folder.join("s.ogv")).unwrap();
    fs::write(folder.join("c.ogv"), &file[..file.len() - 1]).unwrap();
    let (status, out, _) = run(&folder, "y4m c.ogv f");
    assert_eq!(status, 1);
    assert!(out.starts_with("c.ogv: 6 frames"), "{out}");
    assert!(
        out.contains("  cut short: its last page is not there\n"),
        "{out}"
    );
    fs::write(folder.join("h.ogv"), &file[..200]).unwrap();
    let (status, _, err) = run(&folder, "y4m h.ogv g");
    assert!(
        status == 1 && err.contains("it ends before its first frame"),
        "{err}"
    );
    let (status, out, err) = run(&folder, "info c.ogv --quiet");
    assert_eq!((status, &out[..]), (1, ""));
    assert!(
        err.ends_with("stream 1: cut short: its last page is not there\n"),
        "{err}"
    );
}

#[test]
fn an_ogg_file_of_sound_alone_is_named() {
    let folder = folder("ogg_sound");
    let sound = ogg::write(9, &[(b"\x01vorbis".to_vec(), 0), (b"x".to_vec(), 1)]).unwrap();
    fs::write(folder.join("s.oga"), sound).unwrap();
    let (status, out, err) = run(&folder, "y4m s.oga f");
    assert_eq!((status, &out[..]), (1, ""));
    assert!(
        err.contains("s.oga: there is no Theora stream; there is Vorbis sound"),
        "{err}"
    );
    let (status, text, _) = run(&folder, "info s.oga");
    assert!(
        status == 1 && text.contains("beside it: Vorbis sound (serial 9)"),
        "{text}"
    );
    assert_eq!(common::names(&folder), ["s.oga"]);
}

/// Numbers that look random, always the same.
struct Random(u64);

impl Random {
    /// A number below this one.
    fn below(&mut self, limit: usize) -> usize {
        self.0 = self
            .0
            .wrapping_mul(6_364_136_223_846_793_005)
            .wrapping_add(1);
        (self.0 >> 33) as usize % limit
    }
}

/// Damages one of the pages behind the headers.
fn damage(pages: &mut Vec<Vec<u8>>, random: &mut Random) {
    let page = 3 + random.below(pages.len() - 4);
    match random.below(6) {
        0 => {
            pages.remove(page);
        }
        1 => {
            let place = page + 1 + random.below(pages.len() - page - 1);
            pages.insert(place, pages[page].clone());
        }
        2 => pages.swap(page, page + 1),
        3 => {
            let length = random.below(pages[page].len());
            pages[page].truncate(length);
        }
        _ => {
            let bit = random.below(8 * pages[page].len());
            pages[page][bit / 8] ^= 1 << (bit % 8);
        }
    }
}

/// The time and the hash of each frame that `d.ogv` gives.
fn timed_hashes(folder: &Path) -> Vec<(String, String)> {
    let words = "hashes d.ogv h --index i --after-gap key-frame --force --quiet";
    assert!(run(folder, words).0 <= 1);
    let text = |name: &str| fs::read_to_string(folder.join(name)).unwrap();
    let (hashes, index) = (text("h"), text("i"));
    let hash = |packet: &str| {
        let begin = format!("frame {packet} ");
        let line = hashes.lines().find(|line| line.starts_with(&begin));
        line.unwrap().rsplit(' ').next().unwrap().to_string()
    };
    let rows = index
        .lines()
        .skip(1)
        .map(|row| row.split(',').collect::<Vec<_>>());
    rows.filter(|row| ["intra", "inter", "repeat"].contains(&row[3]))
        .map(|row| (row.last().unwrap().to_string(), hash(row[1])))
        .collect()
}

#[test]
fn damaged_ogg_files_give_no_frame_that_the_whole_one_has_not() {
    let folder = folder("ogg_random_damage");
    damaged(&folder, |_| ());
    let whole = timed_hashes(&folder);
    assert_eq!(whole.len(), 28);
    let all = pages(5, &sample_packets(&folder), 4);
    let mut random = Random(14);
    let mut frames = 0;
    for _ in 0..60 {
        let mut pages = all.clone();
        damage(&mut pages, &mut random);
        damage(&mut pages, &mut random);
        write(&folder, "d.ogv", &pages);
        let left = timed_hashes(&folder);
        let strange = left.iter().find(|frame| !whole.contains(frame));
        assert_eq!(strange, None);
        frames += left.len();
    }
    assert!(frames > 600, "{frames}");
}
