//! Whole recordings of frames of one macro block in 4:2:0: changed tiles, the
//! check of a stream, the census, frames one by one, pictures, memory.
#![allow(missing_docs)]

mod common;

use common::{header, inter, inter_without_blocks, intra, packet, session, setup_header, table};
use std::error::Error;
use wedgepetal::lists::{self, Headers, REPORT_NUMBERS, TABLE_BYTES};
use wedgepetal::{
    Checked, Kind, Packets, Player, Refusal, Refused, Report, Settings, Unplayable, Work, check,
    check_within, identification,
};

/// A recording all of whose packets are accepted.
fn recording() -> Vec<Vec<u8>> {
    vec![
        header([16, 16, 0, 0]),
        b"\x81theora, and anything else".to_vec(),
        setup_header(),
        intra(9, 10),
        inter(0, 9, 0),
        Vec::new(),
        inter_without_blocks(),
        intra(10, 9),
        inter(5, 0, 9),
    ]
}

fn player() -> Player {
    Player::new(session(1, 1, 0), table()).unwrap()
}

const SETTINGS: Settings = Settings {
    tile: 8,
    shot_first: 0,
    shot_last: 9,
    plane: 0,
};

/// The stream that the writer makes of a recording.
fn film(packets: &[Vec<u8>]) -> Vec<u8> {
    let session = identification(&packets[0]).unwrap();
    let mut writer = wedgepetal::FilmWriter::new(&session).unwrap();
    let mut film = writer.header().to_vec();
    for frame in player().frames(&packets[3..]) {
        film.extend(writer.frame(frame.unwrap().frame().bytes()).unwrap());
    }
    film
}

#[test]
fn the_header_is_sound() {
    let session = identification(&header([16, 16, 0, 0])).unwrap();
    assert_eq!(session, common::session(1, 1, 0));
}

#[test]
fn tiles_are_those_that_differ() {
    let mut packets = recording().split_off(3);
    packets.insert(2, packet("1"));
    let (mut player, mut plain) = (player(), player());
    let maps = player.tiles(&SETTINGS, &packets).unwrap();
    let mut before: Option<Vec<u8>> = None;
    for (number, packet) in packets.iter().enumerate() {
        let answer = plain.decode(packet);
        assert_eq!(maps.answers()[number], answer);
        let Some(map) = maps.map(number) else {
            assert!(answer.is_err());
            continue;
        };
        let frame = plain.frame().unwrap();
        let luma = frame.planes()[0];
        assert_eq!((map.columns, map.rows), (2, 2));
        for (x, y) in [(0, 0), (1, 0), (0, 1), (1, 1)] {
            let differs = before.as_ref().is_none_or(|before| {
                (8 * y..8 * y + 8).any(|row| {
                    let place = 16 * row + 8 * x;
                    luma.bytes[place..place + 8] != before[place..place + 8]
                })
            });
            assert_eq!(
                map.row(y)[x],
                u8::from(differs),
                "packet {number}, {x}, {y}"
            );
        }
        before = Some(luma.bytes.to_vec());
    }
    assert_eq!(maps.maps().count(), packets.len() - 1);
    assert_eq!(maps.map(0).unwrap().changed(), 4);
    let wide = Settings {
        tile: 9,
        ..SETTINGS
    };
    let refused = player.tiles(&wide, &packets).unwrap_err();
    assert_eq!(refused, Refusal::BAD_SETTINGS);
}

#[test]
fn a_stream_is_checked_to_the_byte() {
    let packets = recording();
    let film = film(&packets);
    assert_eq!(check(&packets, &film), Ok(Checked::Passes));
    for place in 0..film.len() {
        let mut changed = film.clone();
        changed[place] ^= 1 << (place % 8);
        let differs = Ok(Checked::Differs(place as u64));
        assert_eq!(check(&packets, &changed), differs);
        assert_eq!(check(&packets, &film[..place]), differs);
    }
    let longer = [&film[..], b"F"].concat();
    let end = film.len() as u64;
    assert_eq!(check(&packets, &longer), Ok(Checked::Differs(end)));
    let line = film.iter().position(|byte| *byte == b'\n').unwrap() + 1;
    assert_eq!(check(&packets[..3], &film[..line]), Ok(Checked::Passes));
}

#[test]
fn a_refusal_wins_over_any_difference() {
    let sound = recording();
    let film = film(&sound);
    let refused = |packets: &[Vec<u8>], file: &[u8]| match check(packets, file) {
        Err(Unplayable::Packet(refused)) => refused,
        other => panic!("{other:?}"),
    };
    let mut packets = sound.clone();
    packets[7] = packet("0 0 000011 0 001");
    let wanted = Refused::new(7, 2, Refusal::RESERVED_BITS.at(9));
    assert_eq!(refused(&packets, &film), wanted);
    assert_eq!(refused(&packets, b""), wanted);
    packets[4] = packet("1");
    assert_eq!(
        refused(&packets, &film),
        Refused::new(4, 1, Refusal::NO_FRAME)
    );
    packets[2].truncate(9);
    let wanted = Refused::new(2, 9, Refusal::PACKET_ENDS.at(72));
    assert_eq!(refused(&packets, &film), wanted);
    packets[0][7] = 4;
    let wanted = Refused::new(0, 42, Refusal::OTHER_VERSION.at(56));
    assert_eq!(refused(&packets, &film), wanted);
    assert_eq!(
        refused(&[], &film),
        Refused::new(0, 0, Refusal::PACKET_ENDS)
    );
    assert_eq!(
        refused(&sound[..2], &film),
        Refused::new(2, 0, Refusal::PACKET_ENDS)
    );
}

#[test]
fn a_census_counts_what_is_there() {
    let mut packets = recording();
    packets.push(packet("1"));
    let mut report = Report::default();
    report.count(&packets).unwrap();
    assert_eq!(report.kinds(), [2, 3, 1]);
    assert_eq!((report.refused_by(10), report.refused()), (1, 1));
    // Two intra frames, two inter frames with all blocks, one with none.
    assert_eq!(report.coded(), [16, 4, 4]);
    assert_eq!(report.uncoded(), [4, 1, 1]);
    assert_eq!(report.modes(), [2, 0, 0, 0, 0, 1, 0, 0]);
    let once = report;
    report.count(&packets).unwrap();
    let mut twice = once;
    twice.add(&once).unwrap();
    assert_eq!(report, twice);
}

#[test]
fn headers_that_are_missing_or_refused_are_counted() {
    let packets = recording();
    let refused = |packets: &[Vec<u8>]| {
        let mut report = Report::default();
        report.count(packets).unwrap();
        assert_eq!(report.packets(), 0);
        let numbers = (1..18).filter(|number| report.refused_by(*number) == 1);
        numbers.collect::<Vec<_>>()
    };
    for length in 0..3 {
        assert_eq!(refused(&packets[..length]), [4]);
    }
    assert_eq!(refused(&packets[..3]), []);
    assert_eq!(refused(&packets[1..]), [2]);
    let mut other = packets.clone();
    other[0][7] = 2;
    assert_eq!(refused(&other), [3]);
    let mut other = packets;
    other[2][6] = 0;
    assert_eq!(refused(&other), [2]);
}

#[test]
fn reports_at_their_end_and_lists_of_wrong_lengths() {
    let packets = recording();
    let lengths: Vec<u64> = packets.iter().map(|packet| packet.len() as u64).collect();
    let bytes = packets.concat();
    let session = session(1, 1, 0);
    let call = |lengths: &[u64], report: &mut [u64], buffers: [usize; 3]| {
        let mut work = Work::new(&session.work_lengths().unwrap()).unwrap();
        let mut planes = buffers.map(|length| vec![7; length]);
        let mut table = vec![7; TABLE_BYTES];
        let packets = Packets {
            lengths,
            bytes: &bytes,
        };
        let [golden, previous, new] = &mut planes;
        let number = lists::census(
            packets,
            report,
            &mut table,
            work.slices(),
            [golden, previous, new],
        );
        let touched = if number == 16 { 7 } else { 0 };
        assert!(planes.iter().flatten().all(|byte| *byte == touched));
        assert!(table.iter().all(|byte| *byte == touched));
        number
    };
    let mut report = [0; REPORT_NUMBERS];
    assert_eq!(call(&lengths, &mut report, [384; 3]), 0);
    for place in 0..REPORT_NUMBERS {
        let mut full = [0; REPORT_NUMBERS];
        full[place] = u64::MAX - report[place];
        let mut sum = full;
        assert_eq!(call(&lengths, &mut sum, [384; 3]), 0);
        assert_eq!(sum[place], u64::MAX);
        if report[place] > 0 {
            full[place] += 1;
            let before = full;
            assert_eq!(call(&lengths, &mut full, [384; 3]), 15);
            assert_eq!(full, before);
        }
    }
    for length in [0, 33, 35] {
        assert_eq!(call(&lengths, &mut vec![0; length], [384; 3]), 1);
    }
    for wrong in [[383, 384, 384], [384, 385, 384], [384, 384, 0]] {
        let mut report = [0; REPORT_NUMBERS];
        assert_eq!(call(&lengths, &mut report, wrong), 0);
        assert_eq!((report[3], report.iter().sum::<u64>()), (6, 6));
    }
    for lengths in [
        &[u64::MAX, 2][..],
        &[1 << 63, 1 << 63],
        &[0, 0, 0, bytes.len() as u64 + 1],
    ] {
        assert_eq!(call(lengths, &mut report, [384; 3]), 16);
    }
}

#[test]
fn frames_one_by_one() {
    let mut packets = recording();
    packets.insert(5, packet("1"));
    let (mut player, mut plain) = (player(), player());
    let frames: Vec<_> = player.frames(&packets[3..]).collect();
    assert_eq!(frames.len(), packets.len() - 3);
    let refused = frames[2].as_ref().unwrap_err();
    assert_eq!(*refused, Refused::new(5, 1, Refusal::NO_FRAME));
    assert!(refused.source().unwrap().is::<Refusal>());
    let mut number = 0;
    for (packet, frame) in packets[3..].iter().zip(&frames) {
        let (Ok(answer), Ok(frame)) = (plain.decode(packet), frame) else {
            continue;
        };
        assert_eq!((frame.number(), *frame.answer()), (number, answer));
        assert_eq!(frame.frame().bytes(), plain.frame().unwrap().bytes());
        assert_eq!(frame.session(), plain.session());
        number += 1;
    }
    let last = frames.last().unwrap().as_ref().unwrap();
    assert_eq!((last.packet(), last.kind()), (9, Kind::Inter));
}

#[test]
fn a_picture_is_cut_out_of_the_frame() {
    let session = identification(&header([7, 5, 3, 2])).unwrap();
    let mut player = Player::new(session, table()).unwrap();
    assert!(player.picture().is_none());
    player.decode(&intra(9, 10)).unwrap();
    let frame = player.frame().unwrap();
    let [luma, cb, _] = player.picture().unwrap();
    assert_eq!((luma.width, luma.height), (7, 5));
    // Rows 2 to 6 from below, the highest first.
    let rows: Vec<&[u8]> = luma.rows().collect();
    for (row, y) in rows.iter().zip([6, 5, 4, 3, 2]) {
        assert_eq!(*row, &frame.planes()[0].row(y)[3..10]);
    }
    assert_eq!(luma.to_vec(), rows.concat());
    // Chroma sample 1 covers luma columns 2 and 3; above the picture are 9 rows.
    assert_eq!((cb.width, cb.height), (4, 3));
    assert_eq!(cb.row(0), &frame.planes()[1].row(3)[1..5]);
}

#[test]
fn memory_is_held_to_a_limit_before_it_is_asked_for() {
    let largest = common::session(65_535, 65_535, 3);
    let bytes = Player::memory(&largest).unwrap();
    let refused = Player::new(largest.clone(), table()).unwrap_err();
    assert_eq!(refused, Unplayable::Memory(bytes));
    let small = session(1, 1, 0);
    let bytes = Player::memory(&small).unwrap();
    assert!(Player::within(small.clone(), table(), bytes).is_ok());
    let limit = bytes - 1;
    let wanted = Unplayable::Limit { bytes, limit };
    assert_eq!(Player::within(small, table(), limit).unwrap_err(), wanted);
    let packets = recording();
    assert_eq!(check_within(&packets, b"", limit), Err(wanted.clone()));
    let mut report = Report::default();
    assert_eq!(report.count_within(&packets, limit), Err(wanted));
    assert_eq!(report, Report::default());
}

#[test]
fn headers_of_a_check_are_lists_too() {
    let packets = recording();
    let headers = Headers {
        identification: &packets[0],
        setup: &packets[2],
    };
    let mut work = Work::new(&session(1, 1, 0).work_lengths().unwrap()).unwrap();
    let [mut first, mut second, mut third] = [(); 3].map(|()| vec![0; 384]);
    let (mut table, mut found) = (vec![0; TABLE_BYTES], [7; 3]);
    let packets = Packets {
        lengths: &[],
        bytes: &[],
    };
    let buffers = [&mut first[..], &mut second, &mut third];
    let number = lists::check(
        headers,
        packets,
        b"",
        &mut table,
        work.slices(),
        buffers,
        &mut [],
        &mut found,
    );
    assert_eq!((number, found), (1, [7; 3]));
}
