//! Changed tiles, the check of another decoder's stream and the census, as the
//! command is run.
#![allow(missing_docs)]

mod common;

use common::{changed_header, command, ended, folder, good, names, pages, run, sample_packets};
use recording::packet_file;
use std::fs;
use std::path::Path;
use std::process::Command;

/// A folder with the sample as s.packets, its stream as s.y4m, settings as 16.txt.
fn sample(name: &str) -> std::path::PathBuf {
    let folder = folder(name);
    good(&folder, "sample s.packets --quiet");
    good(&folder, "y4m s.packets s.y4m --quiet");
    good(
        &folder,
        "settings write 16.txt --tile 16 --shot-first 0 --shot-last 9 --quiet",
    );
    folder
}

/// The sample with its packet 5 cut to ten bytes, as bad.packets.
fn damaged(folder: &Path) {
    let mut packets = sample_packets(folder);
    packets[5].truncate(10);
    fs::write(folder.join("bad.packets"), packet_file::write(&packets)).unwrap();
}

const CUT: &str = "refused by 4, a read passes the end of the packet, at bit 80 of 80";

#[test]
fn maps_tables_and_words_of_changed_tiles() {
    let folder = sample("tiles");
    let said = good(
        &folder,
        "tiles s.packets --settings 16.txt -o m.npy --csv t.csv",
    );
    assert_eq!(
        said,
        "s.packets: 7 frames (1 intra, 5 inter, 1 repeat), no packet refused\n  \
           20 x 15 tiles of 16 x 16 samples of Y': 51.4 % of them changed from frame to frame, 2 never\n"
    );
    let map = fs::read(folder.join("m.npy")).unwrap();
    let front = b"\x93NUMPY\x01\x00\x76\x00{'descr': '|u1', 'fortran_order': False, 'shape': (7, 15, 20), }";
    assert!(map.starts_with(front));
    assert_eq!(map.len(), 128 + 7 * 300);
    let ones: Vec<usize> = map[128..]
        .chunks(300)
        .map(|map| map.iter().map(|byte| usize::from(*byte)).sum())
        .collect();
    let table = fs::read_to_string(folder.join("t.csv")).unwrap();
    let rows: Vec<&str> = table.lines().collect();
    assert_eq!(rows[1], "1,3,0,intra,300,300,1.000000,,,,0.000000");
    assert_eq!(rows[5], "1,7,4,repeat,300,0,0.000000,,,,0.160000");
    for (row, ones) in rows[1..].iter().zip(&ones) {
        assert_eq!(row.split(',').nth(5), Some(&ones.to_string()[..]));
    }
    let json = good(&folder, "tiles s.packets --settings 16.txt --json");
    assert!(
        json.contains("\"tiles\": {\"tile\": 16, \"plane\": 0, \"columns\": 20, "),
        "{json}"
    );
}

#[test]
fn a_refused_packet_has_no_map() {
    let folder = sample("tiles_refused");
    damaged(&folder);
    let (status, out, err) = run(
        &folder,
        "tiles bad.packets --settings 16.txt -o m.npy --csv -",
    );
    assert_eq!(status, 1);
    assert!(err.contains(&format!("packet 5: {CUT}")), "{err}");
    let rows: Vec<&str> = out.lines().collect();
    assert_eq!(
        rows[3],
        "1,5,,refused,,,,4,80,\"a read passes the end of the packet\",0.080000"
    );
    assert_eq!(
        (rows[4], rows.len()),
        ("1,6,2,inter,300,32,0.106667,,,,0.120000", 8)
    );
    assert_eq!(fs::read(folder.join("m.npy")).unwrap().len(), 128 + 6 * 300);
}

#[test]
fn wrong_use_of_tiles() {
    let folder = sample("tiles_wrong");
    fs::write(folder.join("bad.txt"), "version=1\ntile=9\n").unwrap();
    fs::write(folder.join("m.npy"), "").unwrap();
    for (words, status, said) in [
        ("s.packets", 2, "--settings SETTINGS.txt is missing"),
        ("s.packets --settings none", 2, "none: No such file"),
        (
            "s.packets --settings bad.txt",
            1,
            "line 2: \"tile=9\" stands there",
        ),
        ("s.packets --settings 16.txt -o -", 2, "must be a file"),
        (
            "s.packets --settings 16.txt -o m.npy",
            2,
            "--force replaces it",
        ),
        ("s.packets --settings 16.txt -o x --csv x", 2, "named twice"),
        (
            "s.packets --settings 16.txt -o s.packets --force",
            2,
            "named twice",
        ),
        (
            "s.packets --settings 16.txt --picture x.gif",
            2,
            "FILE.svg or FILE.png",
        ),
    ] {
        let (code, _, err) = run(&folder, &format!("tiles {words}"));
        assert!(
            code == status && err.contains(said),
            "{words}: {code} {err}"
        );
    }
    assert_eq!(fs::read(folder.join("m.npy")).unwrap(), b"");
}

#[test]
fn pictures_are_drawn_where_matplotlib_is() {
    let folder = sample("tiles_drawn");
    for (name, begins) in [("p.svg", &b"<?xml"[..]), ("p.png", b"\x89PNG")] {
        let words = format!("tiles s.packets --settings 16.txt --picture {name}");
        match run(&folder, &words) {
            (0, _, _) => assert!(fs::read(folder.join(name)).unwrap().starts_with(begins)),
            (status, _, err) => {
                assert!(status == 2 && err.contains("python3-matplotlib"), "{err}");
                assert!(!folder.join(name).exists());
            }
        }
    }
    assert!(names(&folder).iter().all(|name| !name.ends_with(".part")));
}

#[test]
fn a_stream_is_checked() {
    let folder = sample("check");
    let film = fs::read(folder.join("s.y4m")).unwrap();
    let said = good(&folder, "check s.packets s.y4m");
    assert_eq!(
        said,
        "s.y4m: passes: 7 frames of s.packets, 806,485 bytes\n"
    );
    let line = film.iter().position(|byte| *byte == b'\n').unwrap() + 1;
    let frame = 6 + 115_200;
    let differs = |file: &[u8]| {
        fs::write(folder.join("f.y4m"), file).unwrap();
        let (status, out, err) = run(&folder, "check s.packets f.y4m");
        assert_eq!((status, &err[..]), (1, ""), "{out}");
        out
    };
    let changed = |place: usize| {
        let mut file = film.clone();
        file[place] ^= 2;
        differs(&file)
    };
    // Frame 3, row 40 of Cb, which has 160 columns.
    let said = changed(line + 3 * frame + 6 + 320 * 240 + 40 * 160 + 12);
    assert_eq!(
        said,
        "f.y4m: differs at byte 428,879: frame 3, Cb, column 12, row 40 from the top: 95 and not 93\n"
    );
    let said = changed(line + frame + 1);
    assert!(
        said.contains("before frame 1 stands \"FPAME\" and not \"FRAME\""),
        "{said}"
    );
    let said = differs(&film[..film.len() - 5]);
    assert_eq!(
        said,
        "f.y4m: differs at byte 806,480: the file ends there, in frame 6: bytes missing: 5\n"
    );
    let said = differs(&[&film[..], b"12"].concat());
    assert_eq!(
        said,
        "f.y4m: differs at byte 806,485: the file goes on behind the last frame: bytes more: 2\n"
    );
    assert!(differs(b"").starts_with("f.y4m: differs at byte 0: the first line is \"\" and not "));
    let ffmpeg = [&film[..line - 1], b" XYSCSS=420JPEG\n", &film[line..]].concat();
    let said = differs(&ffmpeg);
    assert!(
        said.starts_with("f.y4m: differs at byte 42: the first line is "),
        "{said}"
    );
    assert!(
        said.ends_with("C420jpeg\" (FFmpeg writes its first line so)\n"),
        "{said}"
    );
    fs::write(folder.join("f.y4m"), &film[..line]).unwrap();
    let json = run(&folder, "check s.packets f.y4m --json").1;
    assert!(
        json.ends_with("\"byte\": 43, \"frame\": 0, \"missing\": 806442}\n"),
        "{json}"
    );
}

#[test]
fn a_refused_packet_wins_over_any_difference() {
    let folder = sample("check_refused");
    damaged(&folder);
    for file in ["s.y4m", "16.txt", "bad.packets"] {
        let (status, out, err) = run(&folder, &format!("check bad.packets {file}"));
        match file {
            "bad.packets" => assert_eq!(status, 2, "{err}"),
            _ => assert_eq!(
                (status, out),
                (1, format!("bad.packets: packet 5: {CUT}\n"))
            ),
        }
    }
    let packets = changed_header(&sample_packets(&folder), 7, &[4]);
    fs::write(folder.join("new.packets"), packet_file::write(&packets)).unwrap();
    let (status, out, _) = run(&folder, "check new.packets s.y4m --json");
    assert_eq!(status, 1);
    assert!(
        out.contains("\"packet\": 0, \"refusal\": 3, \"bit\": 56"),
        "{out}"
    );
    let (status, _, err) = run(&folder, "check s.packets s.y4m --max-memory 1K");
    assert!(status == 1 && err.contains("bytes of memory"), "{err}");
}

#[test]
fn recordings_with_gaps_are_not_checked_ogg() {
    let folder = sample("check_gaps");
    let packets = sample_packets(&folder);
    let mut file = pages(1, &packets, 2);
    file.remove(8);
    fs::write(folder.join("gap.ogv"), file.concat()).unwrap();
    let (status, _, err) = run(&folder, "check gap.ogv s.y4m");
    assert!(
        status == 1 && err.contains("only a whole recording can be checked"),
        "{err}"
    );
    let twice = [pages(1, &packets, 1), pages(2, &packets, 1)]
        .concat()
        .concat();
    fs::write(folder.join("twice.ogv"), twice).unwrap();
    let (status, _, err) = run(&folder, "check twice.ogv s.y4m");
    assert!(
        status == 1 && err.contains("it has 2 Theora streams; --stream chooses one"),
        "{err}"
    );
    good(&folder, "check twice.ogv s.y4m --stream 2");
    let said = run(&folder, "census twice.ogv gap.ogv --csv -").1;
    let rows: Vec<&str> = said.lines().collect();
    assert!(rows[1].starts_with("\"twice.ogv\",1,1,5,1,0,"), "{said}");
    assert!(rows[2].starts_with("\"twice.ogv\",2,1,5,1,0,"), "{said}");
    assert!(rows[3].starts_with("\"gap.ogv\",1,1,3,1,0,"), "{said}");
    assert!(
        rows[3].contains("packets up to there were counted: 8\""),
        "{said}"
    );
}

#[test]
fn recordings_are_counted_and_reports_added_up() {
    let folder = sample("census");
    damaged(&folder);
    let said = good(&folder, "census s.packets");
    assert!(
        said.starts_with("recording  accepted     intra     inter    repeat   refused     coded\n"),
        "{said}"
    );
    assert!(said.contains(
        "macro blocks of inter frames: NOMV 40.0 %, MV 0.1 %, LAST 39.9 %, GOLDEN_NOMV 20.0 %"
    ));
    good(&folder, "census s.packets --csv 1.csv --quiet");
    let (status, _, err) = run(&folder, "census bad.packets --csv 2.csv --quiet");
    let refused = "bad.packets: refused: 1 by 4, a read passes the end of the packet\n";
    assert_eq!((status, &err[..]), (1, refused));
    let (_, both, _) = run(&folder, "census s.packets bad.packets --csv -");
    let (_, added, _) = run(&folder, "census --add 1.csv 2.csv --csv -");
    let (_, apart, _) = run(&folder, "census s.packets bad.packets --jobs 2 --csv -");
    assert_eq!((&added, &apart), (&both, &both));
    assert!(both.ends_with(",all,2,9,2,0,0,0,1,0,0,0,0,0,0,0,0,0,0,0,0,0,8528,2100,2100,4672,1200,1200,1200,0,3,897,0,600,0,0,\"\"\n"), "{both}");
    let (status, _, err) = run(&folder, "census --add 1.csv 1.csv --quiet");
    assert_eq!((status, &err[..]), (1, "s.packets: counted twice\n"));
    for words in [
        "s.packets --csv s.packets",
        ". --csv s.packets",
        "--add 1.csv --csv 1.csv",
    ] {
        let (status, _, err) = run(&folder, &format!("census {words} --force"));
        assert!(status == 2 && err.contains("named twice"), "{words}: {err}");
    }
    let (status, _, err) = run(&folder, "census --add s.y4m");
    assert_eq!(status, 2, "{err}");
    let large = fs::read_to_string(folder.join("1.csv")).unwrap();
    let large = large.replace("\"s.packets\",1,1,", &format!("\"t\",1,{},", u64::MAX));
    fs::write(folder.join("3.csv"), large).unwrap();
    let (status, _, err) = run(&folder, "census --add 1.csv 3.csv");
    assert!(
        status == 1 && err.contains("refused by 15, a sum of the census"),
        "{err}"
    );
}

#[test]
fn a_folder_is_counted_and_others_are_named() {
    let folder = sample("census_folder");
    fs::create_dir(folder.join("below")).unwrap();
    fs::copy(folder.join("s.packets"), folder.join("below/t.packets")).unwrap();
    fs::write(
        folder.join("cut.packets"),
        &fs::read(folder.join("s.packets")).unwrap()[..60],
    )
    .unwrap();
    let output = command(&folder, "census . --progress --json")
        .output()
        .unwrap();
    let (status, out, _) = ended(&output);
    assert_eq!(status, 1);
    assert!(
        out.contains("\"recording\": \"./below/t.packets\""),
        "{out}"
    );
    assert!(out.contains("cut short inside a packet"), "{out}");
    assert!(out.ends_with("\"passed_over\": 2}\n"), "{out}");
    let (status, out, _) = run(&folder, "census s.packets s.y4m");
    assert_eq!(status, 1);
    assert!(
        out.ends_with("s.y4m: no Ogg file and no packet file, but a Y4M film\n"),
        "{out}"
    );
    let (status, _, err) = run(&folder, "census nowhere");
    assert!(
        status == 2 && err.contains("nowhere: No such file"),
        "{err}"
    );
    let (status, out, _) = run(&folder, "census s.packets --max-memory 1K");
    assert!(
        status == 1 && out.contains("s.packets: its frames need"),
        "{out}"
    );
}

#[test]
fn memory_that_is_not_to_be_had_is_an_answer() {
    let folder = sample("no_memory");
    // 400 by 300 macro blocks need 249 MB; less may be had.
    let packets = changed_header(&sample_packets(&folder), 10, &[1, 0x90, 1, 0x2C]);
    fs::write(folder.join("big.packets"), packet_file::write(&packets)).unwrap();
    for words in [
        "hashes big.packets /dev/null",
        "check big.packets s.y4m",
        "census big.packets",
        "tiles big.packets --settings 16.txt",
    ] {
        let output = Command::new("sh")
            .args(["-c", "ulimit -v 150000 && exec \"$0\" \"$@\""])
            .arg(env!("CARGO_BIN_EXE_wedgepetal"))
            .args(words.split_whitespace())
            .current_dir(&folder)
            .output()
            .unwrap();
        let (status, out, err) = ended(&output);
        let said = out + &err;
        let wanted =
            "big.packets: its frames need 248638184 bytes of memory, which are not to be had";
        assert!(
            status == 1 && said.contains(wanted),
            "{words}: {status} {said}"
        );
    }
}
