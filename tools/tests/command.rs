//! The command as it is run: files, what it says, and its status.
#![allow(missing_docs)]

mod common;

use common::{command, ended, folder, good, names, run, sample_packets};
use std::fs;
use std::os::fd::OwnedFd;
use std::os::unix::fs::symlink;
use std::os::unix::net::UnixStream;
use std::path::Path;
use std::process::Command;

const ALL_FRAMES: &str = "7 frames (1 intra, 5 inter, 1 repeat), no packet refused\n";

#[test]
fn the_sample_in_every_form() {
    let folder = folder("every_form");
    good(&folder, "sample s.packets");
    let summary = format!("s.packets: {ALL_FRAMES}");
    assert_eq!(good(&folder, "y4m s.packets s.y4m --index s.csv"), summary);
    assert_eq!(good(&folder, "hashes s.packets s.txt"), summary);
    assert_eq!(good(&folder, "frames s.packets planes"), summary);
    let hashes = fs::read_to_string(folder.join("s.txt")).unwrap();
    let lines: Vec<&str> = hashes.lines().collect();
    assert_eq!((lines.len(), lines[0]), (8, "stream 1"));
    assert!(lines[1].starts_with("frame 3 intra 20 "), "{hashes}");
    assert!(lines[5].starts_with("frame 7 repeat - "), "{hashes}");
    let hash = |line: &str| line.rsplit(' ').next().unwrap().to_string();
    assert_eq!(hash(lines[4]), hash(lines[5]));
    for frame in 0..7 {
        let name = format!("planes/{frame:06}.planes");
        assert_eq!(fs::read(folder.join(name)).unwrap().len(), 115_200);
    }
    let film = fs::read(folder.join("s.y4m")).unwrap();
    let header = b"YUV4MPEG2 W320 H240 F25:1 Ip A1:1 C420jpeg\n";
    assert!(film.starts_with(header));
    assert_eq!(film.len(), header.len() + 7 * (6 + 115_200));
    let index = fs::read_to_string(folder.join("s.csv")).unwrap();
    let rows: Vec<&str> = index.lines().collect();
    assert_eq!(
        rows[0],
        "stream,packet,frame,kind,qi,tokens,key_frame,since,refusal,bit,meaning,time_s"
    );
    assert!(rows[1].starts_with("1,3,0,intra,20,") && rows[1].ends_with(",1,0,,,,0.000000"));
    let tokens: Vec<u64> = rows[1..]
        .iter()
        .map(|row| row.split(',').nth(5).unwrap().parse().unwrap())
        .collect();
    // 1,800 blocks, all of which the first frame codes.
    assert!((1800..=64 * 1800).contains(&tokens[0]), "{index}");
    assert_eq!(rows[5], "1,7,4,repeat,,0,1,4,,,,0.160000");
    let json = good(&folder, "hashes s.packets s2.txt --json");
    let all = format!("\"tokens\": {}, ", tokens.iter().sum::<u64>());
    assert!(json.contains(&all), "{json}");
    assert_eq!(rows.len(), 8);
}

#[test]
fn films_whole_and_cut() {
    let folder = folder("films");
    good(&folder, "sample s.packets");
    good(&folder, "y4m s.packets s.y4m");
    good(&folder, "frames s.packets planes");
    let film = fs::read(folder.join("s.y4m")).unwrap();
    // The planes of each frame, and what the film has of them.
    for frame in 0..7 {
        let planes = fs::read(folder.join(format!("planes/{frame:06}.planes"))).unwrap();
        let text = &film[43 + frame * 115_206..][..115_206];
        assert_eq!(&text[..6], b"FRAME\n");
        let mut turned: Vec<u8> = Vec::new();
        for (from, rows, row) in [(0, 240, 320), (76_800, 120, 160), (96_000, 120, 160)] {
            let plane = &planes[from..from + rows * row];
            plane.rchunks(row).for_each(|row| turned.extend(row));
        }
        assert!(turned == text[6..]);
    }
    let said = "s.y4m: 7 frames of 320 x 240 samples (4:2:0), 25/1 a second, samples 1:1\n";
    assert_eq!(good(&folder, "y4m check s.y4m"), said);
    assert_eq!(good(&folder, "y4m check s.y4m --quiet"), "");
    let input = fs::File::open(folder.join("s.y4m")).unwrap();
    let output = command(&folder, "y4m check -").stdin(input).output();
    let (status, out, _) = ended(&output.unwrap());
    assert_eq!((status, out), (0, said.replace("s.y4m", "standard input")));
    let input = fs::File::open(folder.join("s.y4m")).unwrap();
    let output = command(&folder, "y4m check - --max-memory 1K")
        .stdin(input)
        .output();
    let (status, _, err) = ended(&output.unwrap());
    assert!(status == 2 && err.contains("has more than 1.0 kB"), "{err}");
    // The picture alone is another film, which the reader refuses.
    good(&folder, "cut s.packets cut.y4m");
    let cut = fs::read(folder.join("cut.y4m")).unwrap();
    let header = b"YUV4MPEG2 W320 H232 F25:1 Ip A1:1 C420jpeg\n";
    assert!(cut.starts_with(header));
    assert_eq!(cut.len(), header.len() + 7 * (6 + 320 * 232 * 3 / 2));
    let (status, out, err) = run(&folder, "y4m check cut.y4m");
    assert_eq!((status, &err[..]), (1, ""));
    assert!(
        out.starts_with("cut.y4m: refused by 21, ")
            && out
                .ends_with("\"232 F25:1 Ip A1:1 C420jp\" .. stands there; a multiple of 16 may\n"),
        "{out}"
    );
    let (status, out, _) = run(&folder, "y4m check cut.y4m --json");
    assert!(
        status == 1 && out.contains("\"refusal\": 21, ") && out.contains("\"byte\": 16, "),
        "{out}"
    );
    fs::write(folder.join("short.y4m"), &film[..film.len() - 1]).unwrap();
    let (status, _, err) = run(&folder, "y4m check short.y4m --quiet");
    assert!(
        status == 1 && err.ends_with("the end, 1 bytes before that of frame 6\n"),
        "{err}"
    );
    fs::write(folder.join("empty"), b"").unwrap();
    assert_eq!(run(&folder, "y4m check empty").0, 1);
    assert_eq!(run(&folder, "y4m check missing").0, 2);
}

#[test]
fn settings_are_written_and_checked() {
    let folder = folder("settings");
    let words = "settings write s.txt --tile 16 --shot-first 3 --shot-last 9";
    assert_eq!(
        good(&folder, &format!("{words} --plane 1")),
        "s.txt: 51 bytes written\n"
    );
    let text = fs::read_to_string(folder.join("s.txt")).unwrap();
    assert_eq!(
        text,
        "version=2\ntile=16\nshot_first=3\nshot_last=9\nplane=1\n"
    );
    assert_eq!(
        good(&folder, "settings check s.txt"),
        "s.txt: version 2, tile 16, shots 3 to 9, plane 1\n"
    );
    assert_eq!(good(&folder, "settings check s.txt --quiet"), "");
    let json = good(&folder, "settings check s.txt --json");
    assert!(json.contains("\"version\": 2, \"tile\": 16, "), "{json}");
    let (status, out, _) = run(&folder, "settings check s.txt --version 1");
    assert!(
        status == 1 && out.starts_with("s.txt: refused by 19: line 1: "),
        "{out}"
    );
    // A text that is there is not replaced, and one that is refused not written.
    let (status, _, err) = run(&folder, words);
    assert!(status == 2 && err.contains("is there already"), "{err}");
    for (more, why) in [
        (
            "--version 1 --plane 1",
            "plane 1; version 1 holds plane 0 alone",
        ),
        ("--version 3", "there is no version 3; 1 and 2 are"),
        ("--plane 3", "plane 3; 0 to 2 may be"),
        ("--tile 9", "tile 9; 8, 16 or 32 may be"),
    ] {
        let (status, _, err) = run(&folder, &format!("{words} --force {more}"));
        assert_eq!(
            (status, err),
            (1, format!("wedgepetal: refused by 20: {why}\n"))
        );
    }
    let (status, _, err) = run(&folder, "settings write t.txt --tile 8 --shot-last 9");
    assert!(
        status == 2 && err.contains("--shot-first N is missing"),
        "{err}"
    );
    assert_eq!(names(&folder), ["s.txt"]);
    let out = good(&folder, &format!("{words} --force --version 1 --quiet"));
    assert_eq!(out, "");
    assert_eq!(
        good(&folder, "settings check s.txt"),
        "s.txt: version 1, tile 16, shots 3 to 9, plane 0\n"
    );
    fs::write(folder.join("s.txt"), text.replace("16", "016")).unwrap();
    let (status, out, _) = run(&folder, "settings check s.txt");
    assert_eq!(
        (status, &out[..]),
        (
            1,
            "s.txt: refused by 20: line 2: \"tile=016\" stands there; \
             tile=8 or tile=16 or tile=32 may\n"
        )
    );
}

#[test]
fn work_is_counted_and_timed() {
    let folder = folder("work");
    good(&folder, "sample s.packets");
    let text = good(&folder, "work s.packets");
    let lines: Vec<&str> = text.lines().collect();
    assert_eq!(
        lines[0],
        "s.packets: 7 frames of 1800 blocks, at most 115200 tokens each"
    );
    assert!(lines[1].starts_with("  tokens    ") && lines[1].ends_with(" (packet 3)"));
    assert!(
        lines[2].starts_with("  time      ") && lines.len() == 3,
        "{text}"
    );
    let json = good(&folder, "work s.packets --json");
    assert!(
        json.contains("\"packet\": 7, \"tokens\": 0, \"ns\": "),
        "{json}"
    );
    assert_eq!(good(&folder, "work s.packets --quiet"), "");
    let (status, _, err) = run(&folder, "work s.packets --max-memory 1K");
    assert!(status == 1 && err.contains("more than the 1.0 kB"), "{err}");
}

#[test]
fn a_grey_picture_is_the_luma_of_its_frame() {
    let folder = folder("picture");
    good(&folder, "sample s.packets");
    good(&folder, "frames s.packets planes");
    good(&folder, "picture s.packets p.png --frame 3 --grey");
    let plane = fs::read(folder.join("planes/000003.planes")).unwrap();
    let png = fs::read(folder.join("p.png")).unwrap();
    // The picture lies 4 rows above the frame's lowest; its highest row is 235.
    let row = &plane[320 * 235..320 * 236];
    assert!(png.windows(320).any(|part| part == row));
    let (status, _, err) = run(&folder, "picture s.packets q.png --frame 7");
    assert_eq!(status, 1);
    assert!(err.contains("there is no frame 7; frames: 7"), "{err}");
    assert!(!folder.join("q.png").exists());
}

/// Red, green and blue by Rec. 470M, clamped, but not rounded.
fn exact(y: u8, cb: u8, cr: u8) -> [f64; 3] {
    let (kr, kb) = (0.299, 0.114);
    let light = (f64::from(y) - 16.0) / 219.0;
    let (pb, pr) = (
        (f64::from(cb) - 128.0) / 224.0,
        (f64::from(cr) - 128.0) / 224.0,
    );
    let green = light
        - 2.0 * (1.0 - kb) * kb / (1.0 - kb - kr) * pb
        - 2.0 * (1.0 - kr) * kr / (1.0 - kb - kr) * pr;
    [
        light + 2.0 * (1.0 - kr) * pr,
        green,
        light + 2.0 * (1.0 - kb) * pb,
    ]
    .map(|colour| (255.0 * colour).clamp(0.0, 255.0))
}

#[test]
fn a_picture_in_colour_is_the_whole_frame() {
    let folder = folder("colour");
    good(&folder, "sample s.packets");
    good(&folder, "frames s.packets planes");
    good(&folder, "picture s.packets p.ppm --frame 3");
    good(&folder, "picture s.packets p.png --frame 3");
    let plane = fs::read(folder.join("planes/000003.planes")).unwrap();
    let ppm = fs::read(folder.join("p.ppm")).unwrap();
    let pixels = ppm.strip_prefix(b"P6\n320 240\n255\n").unwrap();
    assert_eq!(pixels.len(), 3 * 320 * 240);
    // The sample is 4:2:0. The rows of planes stand from below.
    let (cb, cr) = (320 * 240, 320 * 240 + 160 * 120);
    for (number, pixel) in pixels.chunks(3).enumerate() {
        let (x, y) = (number % 320, 239 - number / 320);
        let chroma = y / 2 * 160 + x / 2;
        let wanted = exact(plane[y * 320 + x], plane[cb + chroma], plane[cr + chroma]);
        for (byte, wanted) in pixel.iter().zip(wanted) {
            assert!((f64::from(*byte) - wanted).abs() <= 0.6, "pixel {x}, {y}");
        }
    }
    let png = fs::read(folder.join("p.png")).unwrap();
    assert!(png.windows(960).any(|part| part == &pixels[..960]));
}

#[test]
fn a_colour_space_is_named() {
    let folder = folder("space");
    good(&folder, "sample s.packets");
    good(&folder, "picture s.packets p.png");
    let mut packets = fs::read(folder.join("s.packets")).unwrap();
    let header = packets.windows(7).position(|part| part == b"\x80theora");
    packets[header.unwrap() + 36] = 0;
    fs::write(folder.join("z.packets"), packets).unwrap();
    for words in [
        "picture z.packets z.png",
        "picture z.packets z.png --colour-space 3",
    ] {
        let (status, _, err) = run(&folder, words);
        assert!(
            status == 1 && err.contains("refused by 18, "),
            "{words}: {err}"
        );
        assert!(!folder.join("z.png").exists());
    }
    good(&folder, "picture z.packets z.png --colour-space 2");
    let [p, z] = ["p.png", "z.png"].map(|name| fs::read(folder.join(name)).unwrap());
    assert!(p == z);
}

#[test]
fn recordings_are_described() {
    let folder = folder("described");
    good(&folder, "sample s.packets");
    let text = good(&folder, "info s.packets");
    assert!(
        text.starts_with("s.packets: packet file, 4.5 kB\nstream 1: Theora 3.2.1\n"),
        "{text}"
    );
    assert!(text.lines().count() <= 12, "{text}");
    let fields = good(&folder, "info s.packets --fields");
    assert!(fields.contains("  FMBW      20 "), "{fields}");
    let json = good(&folder, "info s.packets --json");
    assert!(
        json.contains("\"clean\": true") && json.contains("\"NBS\": 1800"),
        "{json}"
    );
    let places = good(&folder, "info s.packets --places");
    assert!(places.contains("  frame 4: packet 7, key frame 1 and 4 since, at 0.160000 s\n"));
    assert_eq!(good(&folder, "info s.packets --quiet"), "");
    good(&folder, "sample s.header");
    assert!(good(&folder, "info s.header").contains("identification header alone"));
}

#[test]
fn standard_input_and_output() {
    let folder = folder("standard");
    good(&folder, "sample s.packets");
    good(&folder, "y4m s.packets s.y4m");
    let input = fs::File::open(folder.join("s.packets")).unwrap();
    let output = command(&folder, "y4m - -").stdin(input).output().unwrap();
    assert_eq!(output.stdout, fs::read(folder.join("s.y4m")).unwrap());
    assert_eq!(output.status.code(), Some(0));
    let said = String::from_utf8(output.stderr).unwrap();
    assert_eq!(said, format!("standard input: {ALL_FRAMES}"));
    let (status, _, err) = run(&folder, "frames s.packets -");
    assert!(
        status == 2 && err.contains("standard output: frames go into a folder"),
        "{err}"
    );
    let (status, out, err) = run(&folder, "y4m s.packets - --json --index /dev/null");
    assert!(status == 0 && err.contains("\"frames\": 7"), "{out}{err}");
}

#[test]
fn wrong_words_are_named() {
    let folder = folder("wrong_words");
    for (words, wanted) in [
        ("", "a verb is missing"),
        ("inof s", "inof: no such verb (did you mean info?)"),
        ("info", "RECORDING is missing"),
        ("info s t", "t: one word too many"),
        (
            "y4m s t --forc",
            "--forc: no such option (did you mean --force?)",
        ),
        ("y4m s t --stream 0", "--stream 0: expected --stream N"),
        (
            "y4m s t --after-gap go",
            "--after-gap go: expected --after-gap stop|key-frame",
        ),
        (
            "y4m s t --max-memory 1X",
            "--max-memory 1X: expected --max-memory BYTES",
        ),
        ("picture s t --frame", "--frame: N is missing"),
    ] {
        let (status, out, err) = run(&folder, words);
        assert_eq!((status, &out[..]), (2, ""), "{words}");
        assert!(err.contains(wanted), "{words}: {err}");
    }
    assert!(good(&folder, "--version").starts_with("wedgepetal 0.1.0\nproved library of crates/ "));
    assert!(good(&folder, "y4m --help").contains("--after-gap stop|key-frame"));
    assert!(good(&folder, "help").contains("picture RECORDING PICTURE.png"));
}

#[test]
fn nothing_is_replaced_without_force() {
    let folder = folder("replaced");
    good(&folder, "sample s.packets");
    fs::write(folder.join("there"), "mine").unwrap();
    for words in [
        "hashes s.packets there",
        "y4m s.packets there",
        "y4m s.packets new.y4m --index there",
        "picture s.packets there",
        "frames s.packets there",
        "packets s.packets there",
        "sample s.packets",
    ] {
        let (status, _, err) = run(&folder, words);
        assert!(status == 2 && err.contains("there"), "{words}: {err}");
    }
    assert_eq!(fs::read(folder.join("there")).unwrap(), b"mine");
    good(&folder, "hashes s.packets there --force");
    assert!(
        fs::read(folder.join("there"))
            .unwrap()
            .starts_with(b"stream 1\n")
    );
    assert_eq!(names(&folder), ["s.packets", "there"]);
}

#[test]
fn links_lead_to_what_is_written() {
    let folder = folder("links");
    good(&folder, "sample s.packets");
    for (to, link) in [
        ("film", "to_film"),
        ("frames", "to_frames"),
        ("no", "to_nothing"),
    ] {
        symlink(to, folder.join(link)).unwrap();
    }
    fs::write(folder.join("film"), "old").unwrap();
    fs::create_dir(folder.join("frames")).unwrap();
    good(&folder, "y4m s.packets to_film --force");
    good(&folder, "frames s.packets to_frames");
    assert!(folder.join("to_film").is_symlink() && folder.join("to_frames").is_symlink());
    assert!(
        fs::read(folder.join("film"))
            .unwrap()
            .starts_with(b"YUV4MPEG2 ")
    );
    assert_eq!(names(&folder.join("frames")).len(), 8);
    for words in ["y4m s.packets to_nothing", "frames s.packets to_nothing"] {
        let (status, _, err) = run(&folder, words);
        assert!(
            status == 2 && err.contains("to_nothing: is a link that leads"),
            "{err}"
        );
    }
}

#[test]
fn a_recording_is_never_its_own_output() {
    let folder = folder("own_output");
    good(&folder, "sample s.packets");
    let before = fs::read(folder.join("s.packets")).unwrap();
    for words in [
        "y4m s.packets s.packets --force",
        "y4m s.packets ./s.packets --force",
        "y4m s.packets f --index s.packets --force",
        "y4m s.packets f --index f --force",
        "packets s.packets s.packets --force",
    ] {
        let (status, _, err) = run(&folder, words);
        assert!(status == 2 && err.contains("named twice"), "{words}: {err}");
    }
    assert_eq!(fs::read(folder.join("s.packets")).unwrap(), before);
}

#[test]
fn folders_are_new_or_empty_and_none_is_made_above_an_output() {
    let folder = folder("folders");
    good(&folder, "sample s.packets");
    fs::create_dir(folder.join("empty")).unwrap();
    good(&folder, "frames s.packets empty");
    assert_eq!(names(&folder.join("empty")).len(), 8);
    let (status, _, err) = run(&folder, "frames s.packets empty");
    assert!(status == 2 && err.contains("empty: is not empty"), "{err}");
    for words in [
        "frames s.packets no/such",
        "y4m s.packets no/such",
        "y4m s.packets empty",
    ] {
        let (status, _, err) = run(&folder, words);
        assert!(
            status == 2 && (err.contains("no/such: No such") || err.contains("is a folder")),
            "{err}"
        );
    }
    assert_eq!(names(&folder), ["empty", "s.packets"]);
}

#[test]
fn refusals_are_said_and_passed_over() {
    let folder = folder("refusals");
    good(&folder, "sample s.packets");
    let file = fs::read(folder.join("s.packets")).unwrap();
    // Behind the recording a header, which is no frame, and an empty packet.
    let longer = [&file[..], &[1, 0, 0, 0, 0x80], &[0; 4]].concat();
    fs::write(folder.join("longer"), longer).unwrap();
    let (status, out, err) = run(&folder, "hashes longer h --index i");
    assert_eq!(status, 1);
    let meaning = "10, the first bit of a frame packet is 1";
    assert_eq!(
        err,
        format!("wedgepetal: longer: packet 10: refused by {meaning}, at bit 0 of 8\n")
    );
    assert_eq!(
        out,
        format!(
            "longer: 8 frames (1 intra, 5 inter, 2 repeat), packets refused: 1\n  1 by {meaning}; the first is packet 10\n"
        )
    );
    let hashes = fs::read_to_string(folder.join("h")).unwrap();
    assert!(hashes.contains("frame 10 refused 10 at 0\nframe 11 repeat - "));
    let index = fs::read_to_string(folder.join("i")).unwrap();
    let row = "1,10,,refused,,,,,10,0,\"the first bit of a frame packet is 1\",0.280000\n1,11,7,repeat,,0,1,7,,,,0.320000\n";
    assert!(index.ends_with(row), "{index}");
}

#[test]
fn a_cut_packet_is_refused_where_it_ends() {
    let folder = folder("cut_packet");
    let mut packets = sample_packets(&folder);
    packets[3].truncate(1113);
    let bits = 8 * packets[3].len();
    fs::write(folder.join("c"), recording::packet_file::write(&packets)).unwrap();
    let (status, _, err) = run(&folder, "hashes c h --index i");
    assert_eq!(status, 1);
    let first = err.lines().next().unwrap_or_default();
    let said =
        "wedgepetal: c: packet 3: refused by 4, a read passes the end of the packet, at bit ";
    let place = first.strip_prefix(said).unwrap_or_else(|| panic!("{err}"));
    let (place, all) = place.split_once(" of ").unwrap();
    let number = |text: &str| text.replace(',', "").parse::<usize>().unwrap();
    assert_eq!(number(all), bits);
    assert!((bits - 31..=bits).contains(&number(place)), "{err}");
    assert!(place.contains(','), "{err}");
    let hashes = fs::read_to_string(folder.join("h")).unwrap();
    let line = format!("stream 1\nframe 3 refused 4 at {}\n", number(place));
    assert!(hashes.starts_with(&line), "{hashes}");
    let index = fs::read_to_string(folder.join("i")).unwrap();
    let row = format!("\n1,3,,refused,,,,,4,{},\"a read passes", number(place));
    assert!(index.contains(&row), "{index}");
}

#[test]
fn too_many_packets_behind_a_key_frame() {
    let folder = folder("key_frames");
    let mut packets = sample_packets(&folder);
    // KFGSHIFT, the five bits in front of PF and the three last, becomes 2.
    packets[0][40] &= !3;
    packets[0][41] = packets[0][41] & 0b0001_1111 | 0b0100_0000;
    fs::write(folder.join("k"), recording::packet_file::write(&packets)).unwrap();
    let (status, out, err) = run(&folder, "hashes k h --index i");
    assert_eq!(status, 1);
    let meaning = "17, the key frames would pass 64 bits, or the packets since the last one would reach 2 to the power KFGSHIFT";
    assert!(
        err.starts_with(&format!("wedgepetal: k: packet 7: refused by {meaning}\n")),
        "{err}"
    );
    assert!(
        out.contains(&format!("  3 by {meaning}; the first is packet 7\n")),
        "{out}"
    );
    let index = fs::read_to_string(folder.join("i")).unwrap();
    let rows: Vec<&str> = index.lines().collect();
    assert!(rows[4].contains(",1,3,,,,0.12"), "{index}");
    assert!(rows[5].starts_with("1,7,,refused,,,,,17,0,\""), "{index}");
}

#[test]
fn many_refusals_are_counted() {
    let folder = folder("many_refusals");
    good(&folder, "sample s.packets");
    let file = fs::read(folder.join("s.packets")).unwrap();
    let longer = [&file[..], &[1, 0, 0, 0, 0x80].repeat(50)].concat();
    fs::write(folder.join("longer"), longer).unwrap();
    let (status, out, err) = run(&folder, "hashes longer h");
    assert_eq!((status, err.lines().count()), (1, 10), "{err}");
    assert!(
        err.ends_with("more are counted, --index lists them\n"),
        "{err}"
    );
    assert!(out.contains("packets refused: 50"), "{out}");
}

/// Runs the command in a folder, with a standard output that no one reads.
fn run_unread(folder: &Path, words: &str) -> common::Ended {
    let (reader, writer) = UnixStream::pair().unwrap();
    drop(reader);
    let mut command = command(folder, words);
    ended(&command.stdout(OwnedFd::from(writer)).output().unwrap())
}

#[test]
fn an_output_without_a_reader_is_no_failure() {
    let folder = folder("unread");
    good(&folder, "sample s.packets");
    for words in [
        "hashes s.packets -",
        "y4m s.packets -",
        "picture s.packets -",
        "packets s.packets -",
        "info s.packets",
        "help",
    ] {
        let (status, _, err) = run_unread(&folder, words);
        assert_eq!(status, 0, "{words}");
        assert!(!err.contains("ipe"), "{words}: {err}");
    }
    // The index is written to its end.
    let (status, _, err) = run_unread(&folder, "y4m s.packets - --index i");
    assert!(status == 0 && err.contains("7 frames"), "{err}");
    assert_eq!(
        fs::read_to_string(folder.join("i"))
            .unwrap()
            .lines()
            .count(),
        8
    );
}

#[test]
fn what_is_no_recording_is_named_and_leaves_no_files() {
    let folder = folder("no_recording");
    for (name, bytes, wanted) in [
        ("notes.txt", &b"shot 12: 25 frames"[..], "but a text"),
        (
            "sound.wav",
            b"RIFF\x24\x08\0\0WAVEfmt ",
            "but a RIFF file (AVI or WAV)",
        ),
        ("empty", b"", "but an empty file"),
        ("other", &[0; 100], "but something else"),
    ] {
        fs::write(folder.join(name), bytes).unwrap();
        for words in [format!("y4m {name} f --index i"), format!("info {name}")] {
            let (status, out, err) = run(&folder, &words);
            assert_eq!((status, &out[..]), (1, ""), "{words}");
            assert!(
                err.contains(&format!("{name}: no Ogg file and no packet file, {wanted}")),
                "{err}"
            );
        }
    }
    for (words, wanted) in [
        ("y4m missing f", "missing: No such file"),
        ("frames missing f", "missing: No such file"),
        ("info .", ".: is a folder"),
    ] {
        let (status, _, err) = run(&folder, words);
        assert!(status == 2 && err.contains(wanted), "{words}: {err}");
    }
    assert_eq!(names(&folder), ["empty", "notes.txt", "other", "sound.wav"]);
}

#[test]
fn memory_is_summed_up_before_it_is_asked_for() {
    let folder = folder("memory");
    let packets = sample_packets(&folder);
    // FMBW and FMBH of 65,535; PF 3, which is 4:4:4.
    let huge = common::changed_header(&packets, 10, &[0xFF; 4]);
    let huge = common::changed_header(&huge, 41, &[packets[0][41] | 3 << 3]);
    fs::write(folder.join("huge"), recording::packet_file::write(&huge)).unwrap();
    let (status, out, err) = run(&folder, "y4m huge f --index i");
    assert_eq!((status, &out[..]), (1, ""));
    assert!(
        err.contains("huge: its frames need 21.1 TB of memory, more than the "),
        "{err}"
    );
    assert!(
        err.contains("that are free here (--max-memory sets another limit)"),
        "{err}"
    );
    assert_eq!(names(&folder), ["huge"]);
    let text = good(&folder, "info huge");
    assert!(
        text.contains("Y' 1048560 x 1048560, Cb and Cr 1048560 x 1048560 (4:4:4)"),
        "{text}"
    );
    assert!(text.contains("memory    17.8 TB to decode it"), "{text}");
    good(&folder, "sample s.packets");
    let (status, _, err) = run(&folder, "y4m s.packets f --max-memory 600K");
    assert!(
        status == 1 && err.contains("more than the 614.4 kB that --max-memory allows"),
        "{err}"
    );
    good(&folder, "y4m s.packets f --max-memory 1M");
}

#[test]
fn devices_and_pipes_are_outputs() {
    let folder = folder("devices");
    good(&folder, "sample s.packets");
    good(&folder, "y4m s.packets s.y4m");
    let (status, _, err) = run(&folder, "y4m s.packets /dev/full");
    assert!(
        status == 2 && err.contains("/dev/full: No space left"),
        "{err}"
    );
    let (status, _, err) = run(&folder, "hashes s.packets h --index /dev/full");
    assert!(
        status == 2 && err.contains("/dev/full: No space left"),
        "{err}"
    );
    assert!(!folder.join("h").exists());
    good(&folder, "y4m s.packets /dev/null");
    let made = Command::new("mkfifo")
        .arg(folder.join("pipe"))
        .status()
        .unwrap();
    assert!(made.success());
    let read = fs::File::create(folder.join("read")).unwrap();
    let mut reader = Command::new("cat");
    let mut reader = reader
        .arg(folder.join("pipe"))
        .stdout(read)
        .spawn()
        .unwrap();
    good(&folder, "y4m s.packets pipe");
    assert!(reader.wait().unwrap().success());
    let bytes = |name: &str| fs::read(folder.join(name)).unwrap();
    assert_eq!(bytes("read"), bytes("s.y4m"));
}

#[test]
fn a_full_disk_leaves_nothing() {
    let folder = folder("full_disk");
    good(&folder, "sample s.packets");
    // No file may be longer than 100 blocks.
    let program = env!("CARGO_BIN_EXE_wedgepetal");
    for words in ["y4m s.packets f --index i", "frames s.packets f"] {
        let script = format!("trap '' XFSZ; ulimit -f 100; exec {program} {words}");
        let mut shell = Command::new("sh");
        let output = shell
            .args(["-c", &script])
            .current_dir(&folder)
            .output()
            .unwrap();
        let (status, _, err) = ended(&output);
        assert!(
            status == 2 && err.contains("File too large"),
            "{words}: {err}"
        );
        assert_eq!(names(&folder), ["s.packets"], "{words}");
    }
}
