//! Shots of frames of one macro block in 4:2:0: many packets in one call.
#![allow(missing_docs)]

mod common;

use common::{BYTES, inter, inter_without_blocks, intra, packet, session, table};
use wedgepetal::{
    Buffers, FrameAnswer, Kind, Names, Packets, Player, Refusal, Session, Work, lists,
};

type Answers = Vec<Result<FrameAnswer, Refusal>>;

/// Packets of every kind, refused and empty ones among them: the first two have
/// no references.
fn packets() -> Vec<Vec<u8>> {
    vec![
        Vec::new(),
        inter(0, 9, 0),
        intra(9, 10),
        inter(0, 9, 0),
        packet("0 0 000011 0 001"),
        Vec::new(),
        inter(5, 9, 9),
        packet("1"),
        inter_without_blocks(),
        intra(10, 9),
        inter(5, 0, 9),
        packet("0 1 000100 0 0 110 0"),
        inter(0, 10, 9),
        Vec::new(),
    ]
}

/// All that a shot is lent and leaves.
struct Shot {
    session: Session,
    names: Names,
    work: Work,
    buffers: [Vec<u8>; 3],
}

impl Shot {
    /// Without references; the buffers and the names are not looked at then.
    fn fresh() -> Shot {
        let session = session(1, 1, 0);
        Shot {
            work: Work::new(&session.work_lengths().unwrap()).unwrap(),
            session,
            names: Names {
                golden: 7,
                previous: u64::MAX,
            },
            buffers: [11, 22, 33].map(|byte| vec![byte; BYTES]),
        }
    }

    fn play(&mut self, packets: &[Vec<u8>]) -> Result<Answers, Refusal> {
        let lengths: Vec<u64> = packets.iter().map(|packet| packet.len() as u64).collect();
        self.joined(&lengths, &packets.concat())
    }

    fn joined(&mut self, lengths: &[u64], bytes: &[u8]) -> Result<Answers, Refusal> {
        let packets = Packets { lengths, bytes };
        let buffers = self.buffers.each_mut().map(Vec::as_mut_slice);
        let names = &mut self.names;
        self.session
            .shot(names, packets, &table(), &mut self.work, buffers)
    }

    /// Session, names and buffers.
    fn left(&self) -> (Session, Names, [Vec<u8>; 3]) {
        (self.session.clone(), self.names, self.buffers.clone())
    }
}

/// The answers and the last frame by one frame call for each packet, with the
/// frames handed on here.
fn by_frame_calls(packets: &[Vec<u8>]) -> (Answers, Session, Vec<u8>) {
    let mut session = session(1, 1, 0);
    let mut work = Work::new(&session.work_lengths().unwrap()).unwrap();
    let [mut golden, mut previous, mut new] = [1, 2, 3].map(|byte| vec![byte; BYTES]);
    let answers = packets.iter().map(|packet| {
        let buffers = Buffers {
            golden: &golden,
            previous: &previous,
            new: &mut new,
        };
        let answer = session.frame(packet, &table(), &mut work, buffers);
        if let Ok(FrameAnswer { kind, .. }) = answer {
            previous.clone_from(&new);
            if kind == Kind::Intra {
                golden.clone_from(&new);
            }
        }
        answer
    });
    let answers = answers.collect();
    (answers, session, previous)
}

#[test]
fn a_shot_is_one_frame_call_for_each_packet() {
    let packets = packets();
    let (answers, session, previous) = by_frame_calls(&packets);
    let refused = answers.iter().filter(|answer| answer.is_err()).count();
    assert_eq!((refused, answers.len()), (5, 14));
    let mut shot = Shot::fresh();
    assert_eq!(shot.play(&packets), Ok(answers.clone()));
    assert_eq!(shot.session, session);
    assert_eq!(shot.buffers[shot.names.previous as usize], previous);
    let mut player = Player::new(common::session(1, 1, 0), table()).unwrap();
    assert_eq!(player.decode_all(&packets), answers);
    assert_eq!(*player.session(), session);
    assert_eq!(player.frame().unwrap().bytes(), previous);
}

#[test]
fn a_player_gives_each_frame_as_it_comes() {
    let packets = packets();
    let mut player = Player::new(session(1, 1, 0), table()).unwrap();
    for (i, packet) in packets.iter().enumerate() {
        let (answers, session, previous) = by_frame_calls(&packets[..=i]);
        assert_eq!(player.decode(packet), answers[i]);
        assert_eq!(*player.session(), session);
        let frame = player.frame().map(|frame| frame.bytes().to_vec());
        assert_eq!(frame, session.references.then_some(previous));
    }
}

#[test]
fn a_shot_cut_at_each_packet_is_the_whole() {
    let packets = packets();
    let mut whole = Shot::fresh();
    let answers = whole.play(&packets).unwrap();
    for cut in 0..=packets.len() {
        let mut shot = Shot::fresh();
        let mut parts = shot.play(&packets[..cut]).unwrap();
        parts.extend(shot.play(&packets[cut..]).unwrap());
        assert_eq!(parts, answers, "{cut}");
        assert_eq!(shot.left(), whole.left(), "{cut}");
        let mut player = Player::new(session(1, 1, 0), table()).unwrap();
        let mut parts = player.decode_all(&packets[..cut]);
        parts.extend(packets[cut..].iter().map(|packet| player.decode(packet)));
        assert_eq!(parts, answers, "{cut}");
        let last = &whole.buffers[whole.names.previous as usize];
        assert_eq!(player.frame().unwrap().bytes(), last);
    }
}

#[test]
fn names_go_round() {
    let mut shot = Shot::fresh();
    let names = packets().into_iter().map(|packet| {
        shot.play(&[packet]).unwrap();
        (shot.names.golden, shot.names.previous)
    });
    let none = (lists::NO_BUFFER, lists::NO_BUFFER);
    // Each new frame is in the first buffer that is neither.
    let (first, second) = ([(0, 0), (0, 1), (0, 1)], [(0, 2), (0, 1), (0, 1), (0, 2)]);
    let third = [(1, 1), (1, 0), (1, 0), (1, 2), (1, 0)];
    let wanted = [&[none, none], &first[..], &second, &third].concat();
    assert_eq!(names.collect::<Vec<_>>(), wanted);
}

#[test]
fn every_pair_of_names() {
    for golden in 0..3 {
        for previous in 0..3 {
            let mut shot = Shot::fresh();
            shot.session.references = true;
            shot.names = Names { golden, previous };
            let before = shot.buffers.clone();
            let new = (0..3).find(|name| ![golden, previous].contains(name));
            let new = new.unwrap() as usize;
            assert_eq!(shot.play(&[Vec::new()]).unwrap().len(), 1);
            assert_eq!(shot.names.golden, golden);
            assert_eq!(shot.names.previous, new as u64);
            let mut after = before.clone();
            after[new].clone_from(&before[previous as usize]);
            assert_eq!(shot.buffers, after);
        }
    }
}

#[test]
fn a_shot_that_is_refused_changes_nothing() {
    let refused = |spoil: fn(&mut Shot), lengths: &[u64], bytes: &[u8]| {
        let mut shot = Shot::fresh();
        shot.session.references = true;
        shot.names = Names {
            golden: 2,
            previous: 1,
        };
        spoil(&mut shot);
        let before = shot.left();
        let refusal = shot.joined(lengths, bytes).unwrap_err();
        assert_eq!(shot.left(), before);
        refusal
    };
    let sound = |_: &mut Shot| {};
    assert_eq!(refused(sound, &[2], &[0]), Refusal::PAST_PACKETS);
    assert_eq!(refused(sound, &[1, 1], &[0]), Refusal::PAST_PACKETS);
    let past_64_bits = [u64::MAX, u64::MAX, 2];
    assert_eq!(refused(sound, &past_64_bits, &[0]), Refusal::PAST_PACKETS);
    let golden = |shot: &mut Shot| shot.names.golden = 3;
    assert_eq!(refused(golden, &[], &[]), Refusal::NOT_GENUINE);
    let previous = |shot: &mut Shot| shot.names.previous = u64::MAX;
    assert_eq!(refused(previous, &[9], &[]), Refusal::NOT_GENUINE);
    let short = |shot: &mut Shot| {
        shot.names.golden = 3;
        shot.buffers[2].pop();
    };
    assert_eq!(refused(short, &[9], &[]), Refusal::WRONG_LENGTH);
    let format = |shot: &mut Shot| {
        shot.buffers[0].push(0);
        shot.session.pf = 1;
    };
    assert_eq!(refused(format, &[9], &[]), Refusal::NOT_GENUINE);
    let work = |shot: &mut Shot| {
        let lengths = session(1, 2, 0).work_lengths().unwrap();
        shot.work = Work::new(&lengths).unwrap();
    };
    assert_eq!(refused(work, &[], &[]), Refusal::WRONG_LENGTH);
}

#[test]
fn a_shot_of_no_packets() {
    let mut shot = Shot::fresh();
    let before = shot.left();
    assert_eq!(shot.joined(&[], &[1, 2, 3]), Ok(Vec::new()));
    assert_eq!(shot.left(), (before.0, Names::NONE, before.2));
    let mut player = Player::new(session(1, 1, 0), table()).unwrap();
    let none: [&[u8]; 0] = [];
    assert_eq!(player.decode_all(&none), []);
    assert!(player.frame().is_none());
    player.decode(&intra(9, 10)).unwrap();
    let frame = player.frame().unwrap().bytes().to_vec();
    assert_eq!(player.decode_all(&none), []);
    assert_eq!(player.frame().unwrap().bytes(), frame);
    player.restart();
    assert_eq!(player.decode_all(&none), []);
    assert!(player.frame().is_none());
}

#[test]
fn lists_of_wrong_lengths() {
    let mut shot = Shot::fresh();
    let list = shot.session.to_list();
    let table = table();
    let mut call = |session: usize, names: usize, table: &[u8], answers: usize| {
        let mut session = list[..session].to_vec();
        let (mut names, mut answers) = (vec![0; names], vec![77; answers]);
        let buffers = shot.buffers.each_mut().map(Vec::as_mut_slice);
        let number = lists::shot(
            &mut session,
            &mut names,
            &[0],
            &[],
            table,
            shot.work.slices(),
            buffers,
            &mut answers,
        );
        (number, names, answers)
    };
    let refused = vec![9, 0, 0, 0, 0, 0, 0, 0];
    assert_eq!(call(19, 2, table.bytes(), 8), (0, vec![3, 3], refused));
    assert_eq!(call(18, 2, table.bytes(), 8), (1, vec![0, 0], vec![77; 8]));
    for names in [1, 3] {
        let left = (1, vec![0; names], vec![77; 8]);
        assert_eq!(call(19, names, table.bytes(), 8), left);
    }
    for answers in [0, 7, 9, 16] {
        let left = (1, vec![0, 0], vec![77; answers]);
        assert_eq!(call(19, 2, table.bytes(), answers), left);
    }
    let short = &table.bytes()[1..];
    assert_eq!(call(19, 2, short, 8), (1, vec![0, 0], vec![77; 8]));
    let zeros = vec![0; lists::TABLE_BYTES];
    assert_eq!(call(19, 2, &zeros, 8), (8, vec![0, 0], vec![77; 8]));
}
