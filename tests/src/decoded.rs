//! Recordings decoded by the independent implementation, in both ways, and by
//! the library: every frame must be what libtheora and FFmpeg make of it.

use crate::call_lists::{self, Brought, State};
use crate::census;
use crate::four_cases::FourCases;
use crate::frame_calls::{Caller, answer};
use crate::frames::{self, Frame};
use crate::generate::cases::buffer;
use crate::library;
use crate::padding;
use crate::random::Random;
use crate::reference::decode::{Accepted, Decoder};
use crate::reference::frame::{FramePacket, Kind};
use crate::reference::identification::identification;
use crate::reference::samples::ways::Way;
use crate::reference::session::{Fields, SESSION_NUMBERS, Session};
use crate::reference::setup::setup;
use crate::said;
use crate::shots::{self, ByFrames};
use crate::tiles;
use std::collections::BTreeMap;
use std::fmt;
use std::fs::{self, File};
use std::io::BufReader;
use std::ops::AddAssign;
use std::path::Path;
use std::vec::IntoIter;

/// About how many blocks the damaged variants of a packet have together, at most.
const BLOCKS_OF_VARIANTS: u64 = 1_000;

/// Of how many frame packets of a recording every cut is tried, and about how
/// many bits the cuts of a packet have together, at most: of a longer one not
/// every cut is tried.
const CUT_PACKETS: u64 = 2;
const BITS_OF_CUTS: u64 = 2_000_000;

/// With fewer recordings it is no fault if some case of four vectors was not
/// met.
const ENOUGH_RECORDINGS: usize = 10;

/// What was compared.
#[derive(Clone, Copy, Default)]
struct Counts {
    intra: u64,
    inter: u64,
    repeats: u64,
    tokens: u64,
    /// Frames that were compared with FFmpeg's.
    ffmpegs: u64,
    /// Recordings in which as many packets follow a key frame as may.
    reached: u64,
}

impl AddAssign for Counts {
    fn add_assign(&mut self, other: Counts) {
        self.intra += other.intra;
        self.inter += other.inter;
        self.repeats += other.repeats;
        self.tokens += other.tokens;
        self.ffmpegs += other.ffmpegs;
        self.reached += other.reached;
    }
}

impl fmt::Display for Counts {
    fn fmt(&self, f: &mut fmt::Formatter<'_>) -> fmt::Result {
        write!(
            f,
            "{} frames ({} intra, {} inter, {} repeats), {} tokens; all are libtheora's, {} compared with FFmpeg's too",
            self.intra + self.inter + self.repeats,
            self.intra,
            self.inter,
            self.repeats,
            self.tokens,
            self.ffmpegs
        )
    }
}

/// Compares recordings and prints what was compared.
pub fn compare(files: &[String]) -> Result<(), String> {
    let mut total = Counts::default();
    let mut run = Run {
        random: Random::new(1),
        four: FourCases::default(),
        damaged: frames::Report::default(),
        lists: call_lists::Report::default(),
        shots: shots::Report::default(),
        census: census::Counts::default(),
        tiles: tiles::Counts::default(),
        headers: padding::Counts::default(),
    };
    for file in files {
        let counts = run.recording(Path::new(file));
        let counts = counts.map_err(|text| format!("{file}\n{text}"))?;
        println!("{file}: {counts}");
        total += counts;
    }
    println!("recordings: {}: {total}", files.len());
    println!(
        "as many packets behind a key frame as KFGSHIFT allows: {}",
        total.reached
    );
    println!("{}", run.four);
    println!("headers:\n{}", run.headers);
    println!("damaged packets, and all packets padded:\n{}", run.damaged);
    println!("lists with other calls among the packets:\n{}", run.lists);
    println!(
        "whole in one call, as by one call a packet: {}",
        run.shots.recordings
    );
    println!("{}", run.census);
    println!("{}", run.tiles);
    let padded = run.damaged.padded.missed_of_frames(padding::OF_FRAME);
    let missed = [run.four.missed(), padded, run.headers.missed(&[])].concat();
    crate::all_tried(&missed, files.len() >= ENOUGH_RECORDINGS)
}

/// What is compared beside the frames.
struct Run {
    random: Random,
    /// Cases of four vectors in the packets as they are.
    four: FourCases,
    /// Damaged packets, and all packets with bytes behind them.
    damaged: frames::Report,
    /// Lists of calls.
    lists: call_lists::Report,
    /// Whole recordings as shots.
    shots: shots::Report,
    /// What they hold, counted.
    census: census::Counts,
    /// Which tiles changed.
    tiles: tiles::Counts,
    /// The headers, with bytes behind them.
    headers: padding::Counts,
}

impl Run {
    /// Decodes a recording.
    fn recording(&mut self, path: &Path) -> Result<Counts, String> {
        let file = File::open(path).map_err(|error| error.to_string())?;
        let packets =
            recording::packets(BufReader::new(file)).map_err(|fault| fault.to_string())?;
        let mut said = Said::beside(path)?;
        let [first, _, third, frames @ ..] = &packets[..] else {
            return Err(format!("{} packets only", packets.len()));
        };
        let fields = identification(first).map_err(|fault| format!("{fault:?}"))?;
        let setup = setup(third).map_err(|fault| format!("{fault:?}"))?;
        self.headers.identification(&mut self.random, first)?;
        self.headers.setup(&mut self.random, third)?;
        let decoder = Decoder::new(&fields, &setup);
        let caller = Caller::new(&fields, third)?;
        let session = library::session(first)?;
        let mut players = Players::new(&mut self.random, &decoder, &session);
        let mut counts = Counts::default();
        let cut: Vec<u64> = self.cut_packets(frames.len() as u64);
        for (number, packet) in (3..).zip(frames) {
            let libtheoras = said.libtheora.remove(&number);
            let libtheoras = libtheoras.ok_or("libtheora has fewer frames")?;
            let cut = cut.contains(&(number as u64));
            let frame = self
                .damaged(&players.reference, &caller, packet, cut)
                .and_then(|()| {
                    players.feed(&mut self.random, &mut self.damaged.padded, &caller, packet)
                })
                .and_then(|frame| counts.compare(frame, &libtheoras, &mut said.ffmpeg))
                .map_err(|text| format!("frame {number}: {text}"))?;
            self.four.count(&decoder.layout, &frame);
        }
        counts.reached = u64::from(players.reference.reached);
        self.lists.of_recording(&mut self.random, &caller, frames)?;
        let by_frames = players.by_frames();
        // Numbers of its own, so that all else is tried as without it.
        let random = &mut Random::new(1);
        self.shots
            .of_recording(random, &caller, frames, &by_frames)?;
        self.census.of_recording(random, &packets)?;
        self.tiles.of_recording(&decoder, &fields, &packets)?;
        Ok(counts)
    }

    /// The numbers of the packets of which every cut is tried, of a recording
    /// with so many frames: the first, and any others.
    fn cut_packets(&mut self, frames: u64) -> Vec<u64> {
        let others = (1..CUT_PACKETS).map(|_| 3 + self.random.below(frames.max(1)));
        [3].into_iter().chain(others).collect()
    }

    /// Tries variants of a packet, the fewer the larger the frame, and its cuts
    /// if they are wanted.
    fn damaged(
        &mut self,
        player: &Player,
        caller: &Caller,
        packet: &[u8],
        cut: bool,
    ) -> Result<(), String> {
        let blocks = player.decoder.layout.sizes.nbs;
        let variants = self.random.below(2 + BLOCKS_OF_VARIANTS / blocks);
        let frame = Frame {
            decoder: player.decoder,
            references: player.session.references,
            golden: &player.golden,
            previous: &player.previous,
        };
        let (random, damaged) = (&mut self.random, &mut self.damaged);
        if cut {
            // The cuts of n bytes have 4n² bits.
            let step = 1 + 4 * (packet.len() as u64).pow(2) / BITS_OF_CUTS;
            damaged.cuts(random, &frame, caller, packet, step as usize)?;
        }
        damaged.of_recording(random, &frame, caller, packet, variants)
    }
}

/// What is said of a recording's frames in the texts beside it.
struct Said {
    /// By libtheora, of each packet.
    libtheora: BTreeMap<usize, String>,
    /// FFmpeg's hashes of the frames that are no repeats, if there are any.
    ffmpeg: Option<IntoIter<String>>,
}

impl Said {
    fn beside(path: &Path) -> Result<Said, String> {
        let text = fs::read_to_string(path.with_extension("txt"));
        let text = text.map_err(|error| error.to_string())?;
        let frames = text.lines().filter_map(|line| line.strip_prefix("frame "));
        let hashes = fs::read_to_string(path.with_extension("ffmpeg.txt")).ok();
        Ok(Said {
            libtheora: frames
                .filter_map(|frame| frame.split_once(' '))
                .filter_map(|(number, said)| Some((number.parse().ok()?, said.to_string())))
                .collect(),
            ffmpeg: hashes.map(|text| {
                let hashes: Vec<String> = text.lines().map(String::from).collect();
                hashes.into_iter()
            }),
        })
    }
}

/// A frame of the library, which is the independent implementation's.
struct Decoded {
    packet: FramePacket,
    /// In libtheora's words.
    line: String,
}

impl Counts {
    /// Compares a frame with what libtheora and FFmpeg say of it; gives what
    /// its packet says.
    fn compare(
        &mut self,
        frame: Decoded,
        said: &str,
        ffmpeg: &mut Option<IntoIter<String>>,
    ) -> Result<FramePacket, String> {
        match frame.packet.kind {
            Kind::Intra => self.intra += 1,
            Kind::Inter => self.inter += 1,
            Kind::Repeat => self.repeats += 1,
        }
        self.tokens += frame.packet.tokens;
        if frame.line != said {
            return Err(format!("{}; libtheora's is {said}", frame.line));
        }
        if let (Some(hashes), true) = (ffmpeg, frame.packet.kind != Kind::Repeat) {
            let hash = hashes.next().ok_or("FFmpeg has fewer frames")?;
            if !frame.line.ends_with(&hash) {
                return Err(format!("{}; FFmpeg's is {hash}", frame.line));
            }
            self.ffmpegs += 1;
        }
        Ok(frame.packet)
    }
}

/// Both who decode a recording.
struct Players<'a> {
    reference: Player<'a>,
    library: State,
    /// The library's answers, one after the other.
    answers: Vec<u64>,
}

impl<'a> Players<'a> {
    fn new(
        random: &mut Random,
        decoder: &'a Decoder<'a>,
        session: &[u64; SESSION_NUMBERS],
    ) -> Players<'a> {
        let length = decoder.layout.sizes.buffer as usize;
        Players {
            reference: Player::new(decoder, &Fields::of_session(session)),
            library: State::fresh(random, session, length),
            answers: Vec::new(),
        }
    }

    /// What the library's frame calls answered and left.
    fn by_frames(&self) -> ByFrames<'_> {
        ByFrames {
            answers: &self.answers,
            session: &self.library.session,
            golden: &self.library.golden,
            previous: &self.library.previous,
        }
    }

    /// Decodes a packet. The library must make the independent
    /// implementation's frame.
    fn feed(
        &mut self,
        random: &mut Random,
        padded: &mut padding::Counts,
        caller: &Caller,
        packet: &[u8],
    ) -> Result<Decoded, String> {
        let read = self.reference.feed(packet)?;
        let brought = Brought {
            packet,
            table: &caller.table,
            new: &buffer(random, self.reference.previous.len()),
            answer: &answer(random),
        };
        let lists = self.library.lists(caller, &brought);
        let expected = lists.accepted(&Accepted::of(&read), self.reference.previous.clone());
        let left = library::hold(random, &lists, &expected)?;
        padded.frame(random, self.reference.decoder, &lists, &left)?;
        let frame = Decoded {
            line: said::frame(read.kind, &read.qis, &left.new),
            packet: read,
        };
        self.answers.extend(&left.answer);
        self.library.hand_on(left);
        Ok(frame)
    }
}

/// Decodes packet after packet by the independent implementation.
struct Player<'a> {
    decoder: &'a Decoder<'a>,
    session: Session,
    /// Whether as many packets followed a key frame as may.
    reached: bool,
    golden: Vec<u8>,
    previous: Vec<u8>,
    /// What the two ways make.
    made: [Vec<u8>; 2],
}

impl<'a> Player<'a> {
    fn new(decoder: &'a Decoder<'a>, fields: &Fields) -> Player<'a> {
        let buffer = vec![0; decoder.layout.sizes.buffer as usize];
        Player {
            decoder,
            session: Session::fresh(fields.clone()),
            reached: false,
            golden: buffer.clone(),
            previous: buffer.clone(),
            made: [buffer.clone(), buffer],
        }
    }

    /// Decodes a packet in both ways and hands the frame on.
    fn feed(&mut self, packet: &[u8]) -> Result<FramePacket, String> {
        let read = self.decoder.read(self.session.references, packet);
        let read = read.map_err(|fault| format!("refused: {fault:?}"))?;
        self.session = self.session.after(read.kind).ok_or("refused by 17")?;
        self.reached |= self.session.others + 1 == self.session.bound();
        let (golden, previous) = (&self.golden, &self.previous);
        for (way, made) in [Way::First, Way::Second].into_iter().zip(&mut self.made) {
            self.decoder.make(way, &read, golden, previous, made);
        }
        if self.made[0] != self.made[1] {
            return Err("the two ways differ".to_string());
        }
        self.previous.copy_from_slice(&self.made[0]);
        if read.kind == Kind::Intra {
            self.golden.copy_from_slice(&self.made[0]);
        }
        Ok(read)
    }
}
