//! Compares the proved library with an independent implementation.
//!
//! It ends with status 1 at the first difference and prints the call that
//! shows it, and with status 2 if it is used wrongly.

mod call_lists;
mod census;
mod check;
mod damage;
mod decoded;
mod fields;
mod four_cases;
mod four_streams;
mod frame_calls;
mod frames;
mod generate;
mod lent;
mod library;
mod orders;
mod packets;
mod padding;
mod parts;
mod random;
mod reference;
mod said;
mod sessions;
mod setup_header;
mod setups;
mod shot_calls;
mod shots;
mod streams;
mod tables;
mod tiles;
mod wild;
mod worst;
mod written;
mod wrong_calls;

use check::Difference;
use random::Random;
use std::process::ExitCode;
use std::time::Instant;

const USAGE: &str = "\
usage: compare [--packets N] [--sessions N] [--orders MAX] [--setups N]
               [--tables N] [--matrices N] [--frames N] [--calls N]
               [--lists N] [--shots N] [--parts N] [--seed S]
               [--stream FILE.. | --decode FILE.. | --say FILE.. | --four FILE..
                | --wild FILE.. | --time]

  --packets N   identification headers: valid, faulty, damaged, cut, extended (1000000)
  --sessions N  sessions, sound and not, each with every call on a session (500000)
  --orders MAX  block orders of every frame up to MAX by MAX macro blocks (20)
  --setups N    setup headers: valid, damaged, cut, extended (20000)
  --tables N    table memories: genuine, changed, random (12000)
  --matrices N  table memories of which every limit and matrix is compared (10)
  --frames N    frame packets of small frames: valid, damaged, cut, extended (20000)
  --calls N     frame calls with any session, table memory and lengths (20000)
  --lists N     lists of frame calls, each of which gets what the one before
                handed on (500)
  --shots N     whole shots in one call, and as many with one to five faults (2000)
  --parts N     frames made of random block data, and the parts of making one
                on their extremes and on random values (2000)
  --seed S      where the random numbers start (1)
  --stream FILE..
                nothing but recordings: their headers, and what the texts beside
                them (tests/streams/README.md) say; comes last
  --decode FILE..
                nothing but recordings, decoded by the independent implementation
                and the library: every frame must be libtheora's; damaged packets;
                lists of calls; the whole recording as one shot; comes last
  --say FILE..  compares nothing: prints what the independent implementation says of
                each packet of recordings; comes last
  --four FILE.. compares nothing: writes Ogg files with every case of four vectors,
                in the formats 4:2:0, 4:2:2 and 4:4:4 in turn; comes last
  --wild FILE.. compares nothing: writes packet files of random frames, for
                libtheora to decode; comes last
  --time        compares nothing: prints how long each part of making a frame takes, and
                the packets that cause the most work
";

/// With fewer packets or calls, fewer lists of calls or shots, or fewer table
/// memories of which every matrix is compared, it is no fault if something was not
/// met.
const ENOUGH_PACKETS: u64 = 20_000;
const ENOUGH_LISTS: u64 = 500;
const ENOUGH_SHOTS: u64 = 2_000;
const ENOUGH_TABLES: u64 = 10;

/// How much is compared.
struct Options {
    packets: u64,
    sessions: u64,
    orders: u64,
    setups: u64,
    tables: u64,
    matrices: u64,
    frames: u64,
    calls: u64,
    lists: u64,
    shots: u64,
    parts: u64,
    seed: u64,
    /// What is done in place of all else.
    instead: Option<Instead>,
}

/// What is done with recordings, or without.
#[derive(Debug, PartialEq, Eq)]
enum Instead {
    /// Their headers are compared.
    Headers(Vec<String>),
    /// They are decoded.
    Decode(Vec<String>),
    /// What the independent implementation says of them is printed.
    Say(Vec<String>),
    /// They are written, with every case of four vectors.
    Four(Vec<String>),
    /// They are written, of random frames.
    Wild(Vec<String>),
    /// The parts of making a frame are timed, and the worst packets.
    Time,
}

impl Default for Options {
    fn default() -> Options {
        Options {
            packets: 1_000_000,
            sessions: 500_000,
            orders: 20,
            setups: 20_000,
            tables: 12_000,
            matrices: 10,
            frames: 20_000,
            calls: 20_000,
            lists: 500,
            shots: 2_000,
            parts: 2_000,
            seed: 1,
            instead: None,
        }
    }
}

fn main() -> ExitCode {
    let words: Vec<String> = std::env::args().skip(1).collect();
    let options = match options(&words) {
        Ok(options) => options,
        Err(fault) => {
            eprint!("{fault}\n\n{USAGE}");
            return ExitCode::from(2);
        }
    };
    match compare(&options) {
        Ok(()) => {
            if !matches!(options.instead, Some(Instead::Say(_))) {
                println!("no difference");
            }
            ExitCode::SUCCESS
        }
        Err(text) => {
            println!("DIFFERENCE (seed {})\n{text}", options.seed);
            ExitCode::from(1)
        }
    }
}

/// Reads the command's words.
fn options(words: &[String]) -> Result<Options, String> {
    let mut options = Options::default();
    let mut words = words.iter();
    while let Some(name) = words.next() {
        let instead = match name.as_str() {
            "--stream" => Some(Instead::Headers as fn(_) -> _),
            "--decode" => Some(Instead::Decode as fn(_) -> _),
            "--say" => Some(Instead::Say as fn(_) -> _),
            "--four" => Some(Instead::Four as fn(_) -> _),
            "--wild" => Some(Instead::Wild as fn(_) -> _),
            _ => None,
        };
        if let Some(instead) = instead {
            let files: Vec<String> = words.cloned().collect();
            if files.is_empty() {
                return Err(format!("{name}: recordings must follow"));
            }
            options.instead = Some(instead(files));
            break;
        }
        if name == "--time" {
            options.instead = Some(Instead::Time);
            continue;
        }
        let value = words.next().and_then(|word| word.parse().ok());
        let value = value.ok_or_else(|| format!("{name}: a number must follow"))?;
        match name.as_str() {
            "--packets" => options.packets = value,
            "--sessions" => options.sessions = value,
            "--orders" if value <= 65535 => options.orders = value,
            "--orders" => return Err("--orders: at most 65535".to_string()),
            "--setups" => options.setups = value,
            "--tables" => options.tables = value,
            "--matrices" => options.matrices = value,
            "--frames" => options.frames = value,
            "--calls" => options.calls = value,
            "--lists" => options.lists = value,
            "--shots" => options.shots = value,
            "--parts" => options.parts = value,
            "--seed" => options.seed = value,
            _ => return Err(format!("{name}: no such option")),
        }
    }
    Ok(options)
}

/// Compares all and prints what was compared.
fn compare(options: &Options) -> Result<(), String> {
    match &options.instead {
        Some(Instead::Headers(files)) => return streams::compare(files),
        Some(Instead::Decode(files)) => return decoded::compare(files),
        Some(Instead::Say(files)) => return said::say(files),
        Some(Instead::Four(files)) => return four_streams::write(files, options.seed),
        Some(Instead::Wild(files)) => return wild::write(files, options.seed),
        Some(Instead::Time) => {
            parts::time::time(&mut Random::new(options.seed));
            worst::time();
            return Ok(());
        }
        None => {}
    }
    println!("seed {}", options.seed);
    let mut random = Random::new(options.seed);
    compare_packets(&mut random, options)?;
    compare_sessions(&mut random, options)?;
    compare_setups(&mut random, options)?;
    compare_frames(&mut random, options)?;
    compare_parts(&mut random, options)
}

/// Prints a heading with the time that was taken.
fn heading(name: &str, start: Instant) {
    println!("{name} ({:.1} s)", start.elapsed().as_secs_f64());
}

/// A difference as text.
fn text(difference: Difference) -> String {
    difference.to_string()
}

/// Fails if something was not tried, though there were enough packets or calls.
fn all_tried(missed: &[String], enough: bool) -> Result<(), String> {
    if enough && !missed.is_empty() {
        return Err(format!("not all was tried: {}", missed.join(", ")));
    }
    Ok(())
}

/// Identification headers.
fn compare_packets(random: &mut Random, options: &Options) -> Result<(), String> {
    let start = Instant::now();
    let report = packets::compare(random, options.packets).map_err(text)?;
    heading("packets", start);
    println!("{report}");
    all_tried(&report.missed(), options.packets >= ENOUGH_PACKETS)
}

/// Sessions and block orders.
fn compare_sessions(random: &mut Random, options: &Options) -> Result<(), String> {
    let start = Instant::now();
    let tally = sessions::compare(random, options.sessions).map_err(text)?;
    heading("sessions", start);
    println!("{tally}");

    let start = Instant::now();
    let tally = orders::compare_all(options.orders).map_err(text)?;
    let most = options.orders;
    let name = format!("orders of all frames up to {most} by {most} macro blocks");
    heading(&name, start);
    println!("{tally}");

    let start = Instant::now();
    let tally = orders::compare_large(random, 16 * options.orders).map_err(text)?;
    heading("orders of large frames", start);
    println!("{tally}");
    Ok(())
}

/// Setup headers and table memories.
fn compare_setups(random: &mut Random, options: &Options) -> Result<(), String> {
    let start = Instant::now();
    let report = setups::compare(random, options.setups).map_err(text)?;
    heading("setup packets", start);
    println!("{report}");
    all_tried(&report.missed(), options.setups >= ENOUGH_PACKETS)?;

    let start = Instant::now();
    let compared = tables::compare(random, options.tables, options.matrices);
    let (tally, borders) = compared.map_err(text)?;
    heading("table memories", start);
    println!("{tally}  borders of quant ranges {borders}\n");
    let missed = match borders {
        0 => vec!["no border of quant ranges".to_string()],
        _ => Vec::new(),
    };
    all_tried(&missed, options.matrices >= ENOUGH_TABLES)
}

/// Frame packets, frame calls and shots.
fn compare_frames(random: &mut Random, options: &Options) -> Result<(), String> {
    let start = Instant::now();
    let report = frames::compare(random, options.frames)?;
    heading("frame packets", start);
    println!("{report}");
    all_tried(&report.missed(), options.frames >= ENOUGH_PACKETS)?;

    let start = Instant::now();
    let report = wrong_calls::compare(random, options.calls)?;
    heading("frame calls with wrong or arbitrary lists", start);
    println!("{report}");
    all_tried(&report.missed(), options.calls >= ENOUGH_PACKETS)?;

    let start = Instant::now();
    let report = call_lists::compare(random, options.lists)?;
    heading("lists of frame calls", start);
    println!("{report}");
    all_tried(&report.missed(), options.lists >= ENOUGH_LISTS)?;

    let start = Instant::now();
    let report = shots::compare(random, options.shots)?;
    heading("whole shots", start);
    println!("{report}");
    all_tried(&report.missed(), options.shots >= ENOUGH_SHOTS)
}

/// The parts of making a frame.
fn compare_parts(random: &mut Random, options: &Options) -> Result<(), String> {
    let start = Instant::now();
    let report = parts::compare(random, options.parts).map_err(text)?;
    heading("parts of making a frame", start);
    println!("{report}");
    all_tried(&report.missed(), 50 * options.parts >= ENOUGH_PACKETS)
}

#[cfg(test)]
mod tests {
    use super::*;

    fn words(text: &str) -> Vec<String> {
        text.split_whitespace().map(String::from).collect()
    }

    #[test]
    fn options_are_read() {
        let read = options(&words("--packets 7 --seed 9")).ok();
        assert_eq!(
            read.map(|o| (o.packets, o.seed, o.orders)),
            Some((7, 9, 20))
        );
        assert!(options(&words("--packets")).is_err());
        assert!(options(&words("--packets x")).is_err());
        assert!(options(&words("--orders 65536")).is_err());
        assert!(options(&words("--what 1")).is_err());
        assert!(options(&words("--stream")).is_err());
        assert!(options(&words("--decode")).is_err());
        let instead = |text| options(&words(text)).ok().and_then(|o| o.instead);
        let headers = Instead::Headers(words("a b"));
        assert_eq!(instead("--seed 2 --stream a b"), Some(headers));
        assert_eq!(instead("--decode a"), Some(Instead::Decode(words("a"))));
        assert_eq!(instead("--say a"), Some(Instead::Say(words("a"))));
        assert_eq!(instead("--four a"), Some(Instead::Four(words("a"))));
        assert_eq!(instead("--wild a"), Some(Instead::Wild(words("a"))));
        assert_eq!(instead("--time --seed 3"), Some(Instead::Time));
    }

    #[test]
    fn a_small_comparison() {
        let options = Options {
            packets: 2_000,
            sessions: 2_000,
            orders: 2,
            setups: 800,
            tables: 800,
            matrices: 1,
            frames: 500,
            calls: 500,
            lists: 20,
            shots: 40,
            parts: 20,
            seed: 11,
            ..Options::default()
        };
        assert_eq!(compare(&options), Ok(()));
    }
}
