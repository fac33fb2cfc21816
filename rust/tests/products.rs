//! Streams of frames and settings by the wrapper: examples of the requests,
//! there and back, refusals and what they leave.
#![allow(missing_docs)]

mod common;

use common::session;
use wedgepetal::{FILM_HEADER_BYTES, Film, FilmWriter, Refusal, Session, Settings, lists};

/// So many bytes that differ.
fn bytes(count: usize) -> Vec<u8> {
    (0..count).map(|i| (i * 7 + i / 251) as u8).collect()
}

fn header(session: &Session) -> String {
    let mut room = [0; FILM_HEADER_BYTES];
    let length = session.film_header(&mut room).unwrap() as usize;
    String::from_utf8(room[..length].to_vec()).unwrap()
}

#[test]
fn headers() {
    let one = session(1, 1, 0);
    assert_eq!(header(&one), "YUV4MPEG2 W16 H16 F25:1 Ip A0:0 C420jpeg\n");
    let other = Session {
        frn: 50,
        frd: 2,
        pard: 7,
        pf: 2,
        ..one.clone()
    };
    assert_eq!(header(&other), "YUV4MPEG2 W16 H16 F50:2 Ip A0:0 C422\n");
    let widest = Session {
        fmbw: 65535,
        fmbh: 65535,
        picw: 0,
        pich: 0,
        frn: u32::MAX.into(),
        frd: u32::MAX.into(),
        parn: 0xff_ffff,
        pard: 0xff_ffff,
        ..one
    };
    let text = header(&widest);
    assert_eq!(text.len(), FILM_HEADER_BYTES);
    assert_eq!(
        text,
        "YUV4MPEG2 W1048560 H1048560 F4294967295:4294967295 Ip A16777215:16777215 C420jpeg\n"
    );
    assert_eq!(
        widest.film_header(&mut [0; FILM_HEADER_BYTES - 1]),
        Err(Refusal::SHORT_OUTPUT)
    );
}

#[test]
fn streams_there_and_back() {
    for (pf, frames) in [(0, 0), (0, 1), (2, 3), (3, 2)] {
        let session = session(2, 3, pf);
        let buffer = session.sizes().unwrap().buffer as usize;
        let planes = bytes(frames * buffer);
        let mut stream = vec![9; 100 + frames * (6 + buffer)];
        let length = session.film(&planes, &mut stream).unwrap() as usize;
        assert!(stream[length..].iter().all(|byte| *byte == 9));
        stream.truncate(length);
        // The pieces are the whole.
        let mut writer = FilmWriter::new(&session).unwrap();
        let mut pieces = writer.header().to_vec();
        for planes in planes.chunks(buffer) {
            pieces.extend(writer.frame(planes).unwrap());
        }
        assert_eq!(pieces, stream);
        assert_eq!(
            writer.frame(&planes[..planes.len().min(5)]),
            Err(Refusal::WRONG_LENGTH)
        );
        let mut back = vec![9; planes.len() + 3];
        let film = Film::read(&stream, &mut back).unwrap();
        assert_eq!(back, [&planes[..], &[9; 3]].concat());
        let wanted = Film {
            width: 32,
            height: 48,
            frn: 25,
            frd: 1,
            parn: 0,
            pard: 0,
            pf,
            frames: frames as u64,
        };
        assert_eq!((film, film.buffer()), (wanted, buffer as u64));
        assert_eq!(Film::of(&stream), Ok(wanted));
        if frames > 0 {
            let mut short = vec![9; planes.len() - 1];
            assert_eq!(Film::read(&stream, &mut short), Err(Refusal::SHORT_OUTPUT));
            assert!(short.iter().all(|byte| *byte == 9));
            stream.pop();
            assert_eq!(Film::read(&stream, &mut short), Err(Refusal::OTHER_STREAM));
            assert_eq!(Film::of(&stream), Err(Refusal::OTHER_STREAM));
        }
    }
}

#[test]
fn refusals_of_streams_in_their_order() {
    let sound = session(1, 1, 0).to_list();
    let broken = session(0, 1, 0).to_list();
    let mut late = sound;
    late[18] = 64;
    let planes = bytes(384);
    for (number, session, frames, room, list) in [
        (1, &sound[..18], 384, 431, 1),
        (1, &broken[..18], 383, 0, 0),
        (8, &broken[..], 384, 431, 1),
        (8, &late[..], 383, 0, 0),
        (1, &sound[..], 384, 431, 2),
        (1, &sound[..], 384, 431, 0),
        (1, &sound[..], 383, 0, 1),
        (14, &sound[..], 384, 430, 1),
        (0, &sound[..], 384, 431, 1),
    ] {
        let (mut out, mut written) = (vec![9; room], vec![77; list]);
        let frames = &planes[..frames];
        let answer = lists::y4m_write(session, frames, &mut out, &mut written);
        assert_eq!(answer, number);
        if number != 0 {
            assert!(out.iter().all(|byte| *byte == 9) && written.iter().all(|n| *n == 77));
        }
        let room = room.saturating_sub(41);
        let (mut out, mut written) = (vec![9; room], vec![77; list]);
        let answer = lists::y4m_frame(session, frames, &mut out, &mut written);
        assert_eq!(answer, number);
        let (mut out, mut written) = (vec![9; 41], vec![77; list]);
        let answer = lists::y4m_header(session, &mut out, &mut written);
        let one = list == 1 && session.len() == 19;
        assert!(answer == number || (one && answer == 0 && matches!(number, 1 | 14)));
    }
    let (mut film, mut none) = ([7; 8], []);
    assert_eq!(lists::y4m_read(b"", &mut none, &mut film[..7]), 1);
    assert_eq!(lists::y4m_read(b"", &mut none, &mut film), 21);
    assert_eq!(film, [7; 8]);
}

#[test]
fn settings_there_and_back() {
    let mut in_use = Settings {
        tile: 32,
        shot_first: 5,
        shot_last: 999_999,
        plane: 2,
    };
    let text = in_use.text(2).unwrap();
    assert_eq!(
        text,
        "version=2\ntile=32\nshot_first=5\nshot_last=999999\nplane=2\n"
    );
    assert_eq!(in_use.text(1), Err(Refusal::BAD_SETTINGS));
    assert_eq!(in_use.write(2, &mut [0; 55]), Err(Refusal::SHORT_OUTPUT));
    assert_eq!(Settings::read(2, text.as_bytes()), Ok(in_use));
    let before = in_use;
    for (version, text, number) in [
        (1, &text[..], 19),
        (1, "version=20\n", 20),
        (2, "version=2\n", 20),
        (3, &text[..], 20),
        (2, &text[..text.len() - 1], 20),
    ] {
        let refusal = in_use.load(version, text.as_bytes()).unwrap_err();
        assert_eq!((refusal.number, in_use), (number, before));
    }
    // As plane 0, and not as the plane that was in use.
    let old = "version=1\ntile=8\nshot_first=0\nshot_last=9\n";
    assert_eq!(in_use.load(2, old.as_bytes()), Ok(()));
    assert_eq!((in_use.plane, in_use.text(1).unwrap()), (0, old.into()));
    assert_eq!(lists::settings_read(2, old.as_bytes(), &mut [0; 5]), 1);
    assert_eq!(lists::settings_write(2, &[8, 0, 9], &mut [], &mut [0]), 1);
    assert_eq!(lists::settings_write(2, &[8, 0, 9, 0], &mut [], &mut []), 1);
}
