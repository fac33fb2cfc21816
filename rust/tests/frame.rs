//! Frames of one macro block in 4:2:0, and how they are handed on.
#![allow(missing_docs)]

mod common;

use common::{BYTES, inter, inter_without_blocks, intra, packet, session, setup_packet, table};
use wedgepetal::{Buffers, Frame, Kind, Player, Refusal, Sizes, Unplayable, Work, lists, setup};

/// A frame whose blocks are flat: the four of luma in raster order, then
/// those of chroma.
fn flat(luma: [u8; 4], cb: u8, cr: u8) -> Vec<u8> {
    let mut bytes = vec![cb; BYTES];
    for (i, byte) in bytes[..256].iter_mut().enumerate() {
        *byte = luma[i / 128 * 2 + i / 8 % 2];
    }
    bytes[320..].fill(cr);
    bytes
}

/// What the loop filter (its limit is 1) leaves as it was: the samples that
/// are at no edge between blocks.
fn inner(frame: &[u8]) -> Vec<u8> {
    let at_edge = |i: usize| i < 256 && (matches!(i % 16, 7 | 8) || matches!(i / 16, 7 | 8));
    let kept = frame.iter().enumerate().filter(|(i, _)| !at_edge(*i));
    kept.map(|(_, sample)| *sample).collect()
}

fn player() -> Player {
    Player::new(session(1, 1, 0), table()).unwrap()
}

/// The last frame of a player that has one.
fn shown(player: &Player) -> Vec<u8> {
    player.frame().unwrap().bytes().to_vec()
}

#[test]
fn work_lengths() {
    let lengths = session(1, 1, 0).work_lengths().unwrap();
    assert_eq!(lengths.coefs, 384);
    assert_eq!(lengths.supers, 6);
    assert_eq!(lengths.modes, 1);
    assert_eq!(lengths.bytes, 153 * 6 + 6 + 1);
    let huge = session(65535, 65535, 3).work_lengths().unwrap();
    assert_eq!(huge.coefs, 64 * 51_538_034_700);
    assert_eq!(session(1, 1, 1).work_lengths(), Err(Refusal::NOT_GENUINE));
    let mut list = [7; lists::LENGTH_NUMBERS];
    assert_eq!(lists::work_lengths(&[0; 18], &mut list), 1);
    assert_eq!(lists::work_lengths(&[0; 19], &mut list[1..]), 8);
    let sound = session(1, 1, 0).to_list();
    assert_eq!(lists::work_lengths(&sound, &mut list[1..]), 1);
    assert_eq!(list, [7; lists::LENGTH_NUMBERS]);
}

#[test]
fn an_intra_frame() {
    let mut player = player();
    assert!(player.frame().is_none());
    let answer = player.decode(&intra(9, 10)).unwrap();
    assert_eq!(answer.kind, Kind::Intra);
    assert_eq!(answer.qis(), [3]);
    // A DC for each of the six blocks, then the end of each.
    assert_eq!(answer.tokens, 12);
    assert!(player.session().references);
    // DC 1, 2, 2, 3 and −1, times 16: residuals 0, 1, 1, 1 and −1.
    let wanted = flat([128, 129, 129, 129], 127, 127);
    assert_eq!(inner(&shown(&player)), inner(&wanted));
    let [luma, cb, _] = player.frame().unwrap().planes();
    assert_eq!((luma.width, luma.height), (16, 16));
    assert_eq!((cb.width, cb.height), (8, 8));
    assert_eq!(luma.row(15)[15], 129);
    assert_eq!(cb.row(7), [127; 8]);
}

#[test]
fn frames_are_handed_on() {
    let mut player = player();
    player.decode(&intra(9, 10)).unwrap();
    let golden = shown(&player);
    // DC 1, 2, 2, 3 times 32, added to the previous frame.
    let answer = player.decode(&inter(0, 9, 0)).unwrap();
    assert_eq!(answer.kind, Kind::Inter);
    assert_eq!(answer.qis(), [4, 5, 6]);
    let second = shown(&player);
    let wanted = flat([129, 131, 131, 132], 127, 127);
    assert_eq!(inner(&second), inner(&wanted));
    let answer = player.decode(&inter_without_blocks()).unwrap();
    assert_eq!((answer.kind, answer.qis()), (Kind::Inter, &[4][..]));
    assert_eq!(shown(&player), second);
    let answer = player.decode(&[]).unwrap();
    assert_eq!((answer.kind, answer.qis()), (Kind::Repeat, &[][..]));
    assert_eq!(answer.tokens, 0);
    assert_eq!(shown(&player), second);
    // Predicted from golden without a vector, and no residual. The loop
    // filter goes over it once more.
    player.decode(&inter(5, 0, 0)).unwrap();
    assert_eq!(inner(&shown(&player)), inner(&golden));
    player.decode(&inter(0, 9, 0)).unwrap();
    assert_eq!(inner(&shown(&player)), inner(&wanted));
    // Another intra frame is golden from then on.
    player.decode(&intra(10, 9)).unwrap();
    let golden = shown(&player);
    assert_ne!(golden, second);
    player.decode(&inter(0, 9, 0)).unwrap();
    player.decode(&inter(5, 0, 0)).unwrap();
    assert_eq!(inner(&shown(&player)), inner(&golden));
}

#[test]
fn refused_packets_leave_all_as_it_was() {
    let mut player = player();
    assert_eq!(player.decode(&[]), Err(Refusal::NO_REFERENCES));
    assert_eq!(
        player.decode(&inter_without_blocks()),
        Err(Refusal::NO_REFERENCES.at(1))
    );
    assert!(!player.session().references);
    assert!(player.frame().is_none());
    player.decode(&intra(9, 10)).unwrap();
    let before = shown(&player);
    for (bits, refusal) in [
        ("1", Refusal::NO_FRAME),
        ("0 0 000011 0 001", Refusal::RESERVED_BITS.at(9)),
        ("0 0 000011 0 000 1001", Refusal::PACKET_ENDS.at(16)),
        ("0 1 000100 0 0 110 0", Refusal::LONG_RUN.at(10)),
    ] {
        assert_eq!(player.decode(&packet(bits)), Err(refusal), "{bits}");
        assert_eq!(shown(&player), before);
    }
    let answer = player.decode(&[]).unwrap();
    assert_eq!(answer.kind, Kind::Repeat);
    assert_eq!(shown(&player), before);
}

#[test]
fn a_token_past_position_64_is_refused() {
    // Every token is 8, a run of zeros: one for each block, then 64.
    let table = setup(&setup_packet(|_| 8)).unwrap();
    let mut player = Player::new(session(1, 1, 0), table).unwrap();
    let ones = "000000".repeat(6);
    let bits = format!("0 0 000011 0 000 0000 0000 {ones} 0000 0000");
    let past = packet(&format!("{bits} 111111"));
    // The code of a lone leaf has no bits: the token begins at its extra ones.
    assert_eq!(player.decode(&past), Err(Refusal::PAST_BLOCK.at(64)));
    let to_the_end = packet(&format!("{bits} {}", "111110".repeat(6)));
    let answer = player.decode(&to_the_end).unwrap();
    assert_eq!((answer.kind, answer.tokens), (Kind::Intra, 12));
    assert_eq!(shown(&player), [128; BYTES]);
}

#[test]
fn four_bytes_may_have_64_tokens_for_each_block() {
    // Every token is 9, a value of 1 without extra bits, and its code is empty.
    let table = setup(&setup_packet(|_| 9)).unwrap();
    let mut player = Player::new(session(3, 2, 0), table).unwrap();
    let ones = packet("0 0 000011 0 000 0000 0000 0000 0000");
    assert_eq!(ones.len(), 4);
    assert_eq!(
        player.decode(&ones).unwrap().tokens,
        64 * player.sizes().blocks
    );
}

/// Where the last frame of a player has its place.
fn place(player: &Player) -> (u64, u64) {
    (player.session().key_frames, player.session().others)
}

#[test]
fn frames_have_a_place_among_key_frames() {
    let mut player = player();
    assert_eq!(place(&player), (0, 0));
    player.decode(&intra(9, 10)).unwrap();
    assert_eq!(place(&player), (1, 0));
    player.decode(&inter(0, 9, 0)).unwrap();
    player.decode(&[]).unwrap();
    assert_eq!(place(&player), (1, 2));
    assert!(player.decode(&[0x80]).is_err());
    assert_eq!(place(&player), (1, 2));
    player.decode(&intra(9, 10)).unwrap();
    assert_eq!(place(&player), (2, 0));
    player.restart();
    player.decode(&intra(9, 10)).unwrap();
    assert_eq!(place(&player), (3, 0));
}

#[test]
fn packets_since_a_key_frame_stay_below_the_bound() {
    for shift in 0..4 {
        let shifted = wedgepetal::Session {
            kfgshift: shift,
            ..session(1, 1, 0)
        };
        let mut player = Player::new(shifted, table()).unwrap();
        assert_eq!(player.decode(&[]), Err(Refusal::NO_REFERENCES));
        for _ in 0..2 {
            player.decode(&intra(9, 10)).unwrap();
            for _ in 1..1 << shift {
                player.decode(&[]).unwrap();
            }
            let (before, at) = (shown(&player), place(&player));
            assert_eq!(at.1, (1 << shift) - 1);
            for packet in [Vec::new(), inter(0, 9, 0)] {
                assert_eq!(player.decode(&packet), Err(Refusal::UNCOUNTED));
            }
            // A fault of the packet comes first.
            let cut = inter(0, 9, 0)[..2].to_vec();
            let refusal = player.decode(&cut).unwrap_err();
            assert_eq!(refusal.number, Refusal::PACKET_ENDS.number);
            assert_eq!((shown(&player), place(&player)), (before, at));
        }
    }
}

#[test]
fn key_frames_stay_within_64_bits() {
    let table = table();
    let mut work = Work::new(&session(1, 1, 0).work_lengths().unwrap()).unwrap();
    let (old, mut new) = (vec![5; BYTES], vec![6; BYTES]);
    let mut counted = session(1, 1, 0);
    counted.key_frames = u64::MAX - 1;
    counted.others = 63;
    let mut call = |session: &mut wedgepetal::Session| {
        let buffers = Buffers {
            golden: &old,
            previous: &old,
            new: &mut new,
        };
        let answer = session.frame(&intra(9, 10), &table, &mut work, buffers);
        answer.map(|answer| answer.kind)
    };
    assert_eq!(call(&mut counted), Ok(Kind::Intra));
    assert_eq!((counted.key_frames, counted.others), (u64::MAX, 0));
    assert_eq!(call(&mut counted), Err(Refusal::UNCOUNTED));
    assert_eq!((counted.key_frames, counted.others), (u64::MAX, 0));
    counted.others = 64;
    assert_eq!(call(&mut counted), Err(Refusal::NOT_GENUINE));
}

#[test]
fn memory_of_other_lengths_is_refused() {
    let mut session = session(1, 1, 0);
    let sizes: Sizes = session.sizes().unwrap();
    let table = table();
    let mut small = Work::new(&session.work_lengths().unwrap()).unwrap();
    let mut large = Work::new(&common::session(2, 1, 0).work_lengths().unwrap()).unwrap();
    let (old, mut new) = (vec![5; BYTES], vec![6; BYTES]);
    let mut call = |work: &mut Work, golden: &[u8], previous: &[u8], new: &mut [u8]| {
        let buffers = Buffers {
            golden,
            previous,
            new,
        };
        session.frame(&intra(9, 10), &table, work, buffers).err()
    };
    let length = Some(Refusal::WRONG_LENGTH);
    assert_eq!(call(&mut large, &old, &old, &mut new), length);
    assert_eq!(call(&mut small, &old[1..], &old, &mut new), length);
    assert_eq!(call(&mut small, &old, &old[1..], &mut new), length);
    assert_eq!(call(&mut small, &old, &old, &mut new[1..]), length);
    assert_eq!(new, [6; BYTES]);
    assert_eq!(call(&mut small, &old, &old, &mut new), None);
    assert_ne!(new, [6; BYTES]);
    assert!(session.references);
    assert!(Frame::new(&sizes, &new).is_ok());
    assert_eq!(Frame::new(&sizes, &new[1..]).err(), length);
}

/// The work memory of a frame of one macro block, each slice full of a value.
fn full_work(slices: &mut lists::WorkSlices<'_>) {
    slices.records.fill(u32::MAX);
    slices.coded.fill(u64::MAX);
    slices.coefs.fill(-1);
    slices.dc.fill(-1);
    slices.active.fill(u64::MAX);
    let lists::WorkSlices {
        lasts,
        flags,
        bits,
        supers,
        modes,
        ..
    } = slices;
    for list in [lasts, flags, bits, supers, modes] {
        list.fill(u8::MAX);
    }
}

/// Whether work memory is all zero.
fn is_zero(slices: &lists::WorkSlices<'_>) -> bool {
    let bytes = [
        &slices.lasts,
        &slices.flags,
        &slices.bits,
        &slices.supers,
        &slices.modes,
    ];
    slices.records.iter().all(|x| *x == 0)
        && slices.coded.iter().chain(&*slices.active).all(|x| *x == 0)
        && slices.coefs.iter().chain(&*slices.dc).all(|x| *x == 0)
        && bytes.iter().all(|list| list.iter().all(|x| *x == 0))
}

/// A frame call on lists: the number that it returns, the session and the
/// answer afterwards, and whether work memory, full before, is all zero.
fn call(
    references: u64,
    table: &[u8],
    packet: &[u8],
    answer_numbers: usize,
) -> (u32, u64, Vec<u64>, bool) {
    let mut list = session(1, 1, 0).to_list();
    list[16] = references;
    let mut answer = vec![77; answer_numbers];
    let mut work = Work::new(&session(1, 1, 0).work_lengths().unwrap()).unwrap();
    full_work(&mut work.slices());
    let (old, mut new) = (vec![5; BYTES], vec![6; BYTES]);
    let buffers = Buffers {
        golden: &old,
        previous: &old,
        new: &mut new,
    };
    let number = lists::frame(
        &mut list,
        packet,
        table,
        work.slices(),
        buffers,
        &mut answer,
    );
    assert_eq!(new == [6; BYTES], number != 0);
    (number, list[16], answer, is_zero(&work.slices()))
}

#[test]
fn calls_on_lists() {
    let table = table();
    let table = table.bytes();
    let refused = |number: u64, place: u64| vec![number, place, 0, 0, 0, 0, 0, 0];
    let accepted = |numbers: [u64; 6]| [&[0, 0], &numbers[..]].concat();
    assert_eq!(
        call(0, table, &intra(9, 9), 8),
        (0, 1, accepted([0, 1, 3, 0, 0, 12]), true)
    );
    assert_eq!(
        call(9, table, &inter_without_blocks(), 8),
        (0, 9, accepted([1, 1, 4, 0, 0, 0]), true)
    );
    assert_eq!(
        call(9, table, &inter(0, 0, 0), 8),
        (0, 9, accepted([1, 3, 4, 5, 6, 6]), true)
    );
    assert_eq!(
        call(7, table, &[], 8),
        (0, 7, accepted([2, 0, 0, 0, 0, 0]), true)
    );
    assert_eq!(call(0, table, &[], 8), (9, 0, refused(9, 0), true));
    assert_eq!(call(0, table, &[0x40], 8), (9, 0, refused(9, 1), true));
    assert_eq!(call(3, table, &[0x80], 8), (10, 3, refused(10, 0), true));
    assert_eq!(call(3, table, &[0], 8), (4, 3, refused(4, 8), true));
    assert_eq!(call(0, &[0; 28_184], &[], 8), (8, 0, refused(8, 0), true));
    assert_eq!(call(0, &table[1..], &[], 8), (1, 0, refused(1, 0), false));
    assert_eq!(call(0, table, &intra(9, 9), 7), (1, 0, vec![77; 7], false));
}

#[test]
fn what_cannot_be_played() {
    let refused = Player::new(session(1, 1, 1), table()).unwrap_err();
    assert_eq!(refused, Unplayable::Refused(Refusal::NOT_GENUINE));
    let memory = Unplayable::Memory(1 << 43).to_string();
    assert!(memory.contains("8796093022208 bytes of memory"));
}

#[test]
fn after_a_restart_only_an_intra_frame_is_accepted() {
    let mut player = player();
    player.decode(&intra(9, 9)).unwrap();
    let first = shown(&player);
    player.restart();
    assert!(player.frame().is_none());
    for (packet, place) in [(inter(0, 0, 0), 1), (Vec::new(), 0)] {
        let refusal = Refusal::NO_REFERENCES.at(place);
        assert_eq!(player.decode(&packet), Err(refusal));
    }
    player.decode(&intra(9, 9)).unwrap();
    assert_eq!(shown(&player), first);
}

#[test]
fn the_memory_of_a_player_is_known_before() {
    let session = session(20, 15, 0);
    let (sizes, lengths) = (session.sizes().unwrap(), session.work_lengths().unwrap());
    let table = lists::TABLE_BYTES as u64;
    assert_eq!(
        Player::memory(&session),
        Ok(3 * sizes.buffer + lengths.bytes + table)
    );
    // 345·NBS + 2·NSBS + NMBS + 28,184.
    let largest = common::session(65_535, 65_535, 3);
    assert_eq!(Player::memory(&largest), Ok(17_791_359_286_853));
}
