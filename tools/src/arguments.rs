//! The words of the command line: the table of verbs and options, from which
//! parsing, help and hints are made.

use crate::python;
use std::collections::BTreeMap;
use std::ffi::{OsStr, OsString};
use std::fmt::Write;

/// A verb: a job of the command.
pub struct Verb {
    /// Its name.
    pub name: &'static str,
    /// The words that follow it, and what they are. Where the last one's name
    /// ends in two dots, there may be more of it.
    words: &'static [(&'static str, &'static str)],
    /// What it does, in a line.
    about: &'static str,
    /// What more there is to know.
    more: &'static str,
    /// The names of the options that it takes, beside `--help`.
    options: &'static [&'static str],
}

/// An option, with the name of its value if it has one.
struct Flag {
    name: &'static str,
    value: Option<&'static str>,
    about: &'static str,
}

const fn flag(name: &'static str, value: Option<&'static str>, about: &'static str) -> Flag {
    Flag { name, value, about }
}

const FLAGS: [Flag; 25] = [
    flag(
        "--stream",
        Some("N"),
        "the Theora stream with this number alone, as `info` numbers them from 1",
    ),
    flag(
        "--after-gap",
        Some("stop|key-frame"),
        "behind a damaged, lost or repeated page: stop there (as without this word), or go on at the next key frame; never on frames that are out of date",
    ),
    flag(
        "--index",
        Some("FILE.csv"),
        "writes a line for each packet: stream, packet, frame, kind, qi, tokens, key frame, packets since it, the refusal's number, bit place and meaning, time",
    ),
    flag(
        "--frame",
        Some("N"),
        "the number of the frame, from 0 (as without this word)",
    ),
    flag(
        "--colour-space",
        Some("N"),
        "1 or 2: the colour space of a recording that names none (CS 0)",
    ),
    flag("--grey", None, "its luma alone, cut to the picture (PNG)"),
    flag("--tile", Some("N"), "the size of a tile: 8, 16 or 32"),
    flag(
        "--shot-first",
        Some("N"),
        "the first shot, from 0 to the last",
    ),
    flag("--shot-last", Some("N"), "the last shot, from 0 to 999999"),
    flag(
        "--plane",
        Some("N"),
        "the plane: 0 (Y', as without this word), 1 (Cb) or 2 (Cr)",
    ),
    flag(
        "--version",
        Some("N"),
        "the version of the text, or of its reader: 1, or 2 (as without this word)",
    ),
    flag(
        "--settings",
        Some("SETTINGS.txt"),
        "the settings: side of a tile, and plane; of the texts that `settings write` writes",
    ),
    flag(
        "-o",
        Some("MAP.npy"),
        "writes the maps as an array for numpy: frames, rows, columns of bytes; row 0 is the lowest, as in the planes, so that map[:, ::-1] has the top row first",
    ),
    flag(
        "--csv",
        Some("FILE.csv"),
        "writes a table, or - for the standard output",
    ),
    flag(
        "--picture",
        Some("FILE.svg|png"),
        "draws how often each tile changed, beside the share of changed tiles over time (Debian package python3-matplotlib)",
    ),
    flag(
        "--add",
        None,
        "adds up reports of other runs (--csv) instead of reading recordings",
    ),
    flag(
        "--jobs",
        Some("N"),
        "so many recordings at a time, each in a process of its own",
    ),
    flag(
        "--progress",
        None,
        "says how far it is, and how much time is left, also where the standard error is no terminal",
    ),
    flag(
        "--fields",
        None,
        "the fields of the headers by their names in the specification, and all sizes",
    ),
    flag(
        "--places",
        None,
        "the place of each frame: its key frame's number, how many packets came since, its time; all frames are decoded",
    ),
    flag(
        "--max-memory",
        Some("BYTES"),
        "the most memory that frames may take (K, M, G, T: powers of 1024); without this word what is free",
    ),
    flag("--force", None, "replaces files that are there"),
    flag("--json", None, "says what there is to say as JSON"),
    flag("--quiet", None, "says faults alone"),
    flag("--help", None, "this text"),
];

const RECORDING: (&str, &str) = (
    "RECORDING",
    "an Ogg file, a packet file, or - for the standard input",
);

/// All verbs.
pub const VERBS: [Verb; 15] = [
    Verb {
        name: "info",
        words: &[RECORDING],
        about: "says what a recording is, and whether it is whole",
        more: "All pages are looked at, and the headers are read. Without --places no frame is decoded.",
        options: &["--fields", "--places", "--max-memory", "--json", "--quiet"],
    },
    Verb {
        name: "y4m",
        words: &[
            RECORDING,
            ("FILM.y4m", "the film, or - for the standard output"),
        ],
        about: "writes all frames as a stream (YUV4MPEG2): the whole coded frames",
        more: "One frame for each accepted packet, repeats too, written by the library's proved call. Joined\n\
               recordings with the same first line give one stream. Memory does not grow with its length.",
        options: &[
            "--stream",
            "--after-gap",
            "--index",
            "--max-memory",
            "--force",
            "--json",
            "--quiet",
        ],
    },
    Verb {
        name: "y4m check",
        words: &[("FILM.y4m", "a stream, or - for the standard input")],
        about: "says what a stream holds, or what is wrong with it",
        more: "The library's proved reader accepts exactly the streams that `y4m` writes; where it refuses, it is\n\
               said at which byte, what stands there and what may. FFmpeg's own streams have more on their first\n\
               line, so that they are refused. A file may have any length: it is mapped, and no planes are stored.",
        options: &["--max-memory", "--json", "--quiet"],
    },
    Verb {
        name: "cut",
        words: &[
            RECORDING,
            ("FILM.y4m", "the film, or - for the standard output"),
        ],
        about: "writes all frames as a film for players, cut to the picture",
        more: "What should be shown of each frame and no more, by this command and not by a proved call. Where the\n\
               picture is the whole frame, it is what `y4m` writes.",
        options: &[
            "--stream",
            "--after-gap",
            "--index",
            "--max-memory",
            "--force",
            "--json",
            "--quiet",
        ],
    },
    Verb {
        name: "frames",
        words: &[RECORDING, ("FOLDER", "a new or empty folder")],
        about: "writes the three planes of each frame into a file of its own",
        more: "FOLDER/000000.planes and so on, by the number of the frame. FOLDER/layout.txt says how\n\
               the planes lie, and how numpy reads them. Of joined recordings the second goes to\n\
               FOLDER/stream-2 and so on.",
        options: &[
            "--stream",
            "--after-gap",
            "--index",
            "--max-memory",
            "--json",
            "--quiet",
        ],
    },
    Verb {
        name: "picture",
        words: &[
            RECORDING,
            (
                "PICTURE.png",
                "the picture, or - for the standard output; PPM if the name ends in .ppm",
            ),
        ],
        about: "writes one frame in colour (PNG or PPM)",
        more: "The whole coded frame in red, green and blue by Rec. 470M. Where the recording names no colour\n\
               space (CS 0), --colour-space names it.",
        options: &[
            "--frame",
            "--colour-space",
            "--grey",
            "--stream",
            "--after-gap",
            "--max-memory",
            "--force",
            "--json",
            "--quiet",
        ],
    },
    Verb {
        name: "tiles",
        words: &[RECORDING],
        about: "says which tiles changed from frame to frame",
        more: "For each frame one byte for each tile of the settings' plane, by the library's proved call: 1 if some\n\
               sample differs from the frame before it, else 0; all 1 where there is none before it. Tiles at the\n\
               right and at the top may be partial. A refused packet gives no frame, and so no map; --csv has a\n\
               line for it. The whole coded frame is compared, not the picture alone.",
        options: &[
            "--settings",
            "-o",
            "--csv",
            "--picture",
            "--stream",
            "--after-gap",
            "--index",
            "--max-memory",
            "--force",
            "--json",
            "--quiet",
        ],
    },
    Verb {
        name: "check",
        words: &[
            RECORDING,
            (
                "FILM.y4m",
                "a stream that somebody else made of it; it is mapped, and may have any length",
            ),
        ],
        about: "checks another decoder's stream of frames, to the byte",
        more: "It passes if every packet is accepted and the file is what `y4m` writes, by the library's proved call.\n\
               Else the first byte that differs is named, by frame, plane, column and row, or the first refused\n\
               packet, which wins over any difference. The recording must be whole.",
        options: &["--stream", "--max-memory", "--json", "--quiet"],
    },
    Verb {
        name: "census",
        words: &[(
            "RECORDING..",
            "Ogg files, packet files, folders with such files; with --add reports",
        )],
        about: "counts what recordings hold: packets, refusals, coded blocks, modes",
        more: "The packets are read by the library's proved call, and no frame is made. --csv writes a report, with a\n\
               line for each stream and one for all; --add adds up reports of several runs. Files in a folder that\n\
               are no recordings are passed over and counted. A damaged stream is counted up to the damage, and named.",
        options: &[
            "--csv",
            "--add",
            "--jobs",
            "--progress",
            "--max-memory",
            "--force",
            "--json",
            "--quiet",
        ],
    },
    Verb {
        name: "hashes",
        words: &[
            RECORDING,
            ("OUT.txt", "the lines, or - for the standard output"),
        ],
        about: "writes a line for each packet: number, kind, qi list, hash of the planes",
        more: "The hash is FNV-1a with 64 bits over the three planes.",
        options: &[
            "--stream",
            "--after-gap",
            "--index",
            "--max-memory",
            "--force",
            "--json",
            "--quiet",
        ],
    },
    Verb {
        name: "packets",
        words: &[
            RECORDING,
            (
                "OUT.packets",
                "the packet file, or - for the standard output",
            ),
        ],
        about: "writes the packets of a Theora stream, without Ogg around them",
        more: "Each packet is 4 bytes of length (least significant first) and its bytes. It stops at a\n\
               damaged, lost or repeated page.",
        options: &["--stream", "--force", "--json", "--quiet"],
    },
    Verb {
        name: "work",
        words: &[RECORDING],
        about: "says how much work a recording's packets cause: tokens, and time on this machine",
        more: "The first Theora stream of a whole recording is decoded five times; the least time of each\n\
               packet counts. A frame has at most 64 tokens for each of its blocks, whatever its packet\n\
               holds. --json has a line for each frame.",
        options: &["--max-memory", "--json", "--quiet"],
    },
    Verb {
        name: "settings check",
        words: &[(
            "SETTINGS.txt",
            "a text of settings, or - for the standard input",
        )],
        about: "says what settings hold, or which line is wrong",
        more: "The library's proved reader for the version decides; that for version 2 takes texts of version 1\n\
               too. Where it refuses, it is said which line, what stands there and what may.",
        options: &["--version", "--json", "--quiet"],
    },
    Verb {
        name: "settings write",
        words: &[("SETTINGS.txt", "the text, or - for the standard output")],
        about: "writes settings of the scoring scripts",
        more: "--tile, --shot-first and --shot-last must be given.",
        options: &[
            "--tile",
            "--shot-first",
            "--shot-last",
            "--plane",
            "--version",
            "--force",
            "--quiet",
        ],
    },
    Verb {
        name: "sample",
        words: &[(
            "OUT.ogv",
            "the recording; OUT.packets for a packet file, OUT.header for its first header alone",
        )],
        about: "writes a small recording to try this with",
        more: "",
        options: &["--force", "--quiet"],
    },
];

/// What the command line says.
pub enum Wanted {
    /// A verb with its words and options.
    Job(Job),
    /// This text.
    Text(String),
}

/// A verb with its words and options.
pub struct Job {
    /// The name of the verb.
    pub verb: &'static str,
    /// As many words as the verb has.
    pub words: Vec<OsString>,
    options: BTreeMap<&'static str, OsString>,
}

impl Job {
    /// Whether an option is given.
    pub fn has(&self, name: &str) -> bool {
        self.options.contains_key(name)
    }

    /// The value of an option as text.
    pub fn value(&self, name: &str) -> Option<&OsStr> {
        self.options.get(name).map(OsString::as_os_str)
    }

    /// The value of an option, made of its text.
    ///
    /// # Errors
    ///
    /// What is wrong with it.
    pub fn parsed<T>(
        &self,
        name: &str,
        parse: impl FnOnce(&str) -> Option<T>,
    ) -> Result<Option<T>, String> {
        let Some(text) = self.value(name) else {
            return Ok(None);
        };
        let form = FLAGS
            .iter()
            .find(|flag| flag.name == name)
            .and_then(|flag| flag.value)
            .unwrap_or_default();
        match text.to_str().and_then(parse) {
            Some(value) => Ok(Some(value)),
            None => Err(format!(
                "{name} {}: expected {name} {form}",
                text.to_string_lossy()
            )),
        }
    }
}

/// Reads the command line.
///
/// # Errors
///
/// What is wrong, and what would be right.
pub fn parse(words: &[OsString]) -> Result<Wanted, String> {
    let names: Vec<&str> = words
        .iter()
        .map(|word| word.to_str().unwrap_or(""))
        .collect();
    match names[..] {
        [] => Err(format!("a verb is missing\n\n{}", overview())),
        ["help" | "--help" | "-h"] => Ok(Wanted::Text(overview())),
        ["help", ref name @ ..] => Ok(Wanted::Text(help(verb(name)?.0))),
        ["version" | "--version" | "-V"] => Ok(Wanted::Text(version())),
        ref names => {
            let (verb, rest) = verb(names)?;
            parse_verb(verb, &words[words.len() - rest..])
        }
    }
}

/// The verb that these words begin with, which has one or two words, and how many
/// words are behind it. A recording named `check` is `./check`.
fn verb(names: &[&str]) -> Result<(&'static Verb, usize), String> {
    let named = |count: usize| {
        let name = names.get(..count)?.join(" ");
        let verb = VERBS.iter().find(|verb| verb.name == name)?;
        Some((verb, names.len() - count))
    };
    named(2).or_else(|| named(1)).ok_or_else(|| {
        let name = match VERBS.iter().any(|verb| begins(verb, names[0])) {
            true => names[..names.len().min(2)].join(" "),
            false => names[0].to_string(),
        };
        let name = name.as_str();
        let names = VERBS.iter().map(|verb| verb.name);
        let hint = hint(name, names.chain(["help", "version"]));
        format!("{name}: no such verb{hint}; wedgepetal help names all")
    })
}

/// Whether a verb of two words begins with this one.
fn begins(verb: &Verb, word: &str) -> bool {
    verb.name
        .split_once(' ')
        .is_some_and(|(first, _)| first == word)
}

/// Reads the words behind a verb.
fn parse_verb(verb: &'static Verb, rest: &[OsString]) -> Result<Wanted, String> {
    let mut job = Job {
        verb: verb.name,
        words: Vec::new(),
        options: BTreeMap::new(),
    };
    let mut rest = rest.iter();
    let mut only_words = false;
    while let Some(word) = rest.next() {
        match word.to_str() {
            Some("--") if !only_words => only_words = true,
            Some("--help" | "-h") if !only_words => return Ok(Wanted::Text(help(verb))),
            Some(text) if text.len() > 1 && text.starts_with('-') && !only_words => {
                let (name, value) = option(verb, text, &mut rest)?;
                job.options.insert(name, value);
            }
            _ => job.words.push(word.clone()),
        }
    }
    let enough = job.words.len() == verb.words.len();
    match enough || takes_more(verb) && job.words.len() > verb.words.len() {
        true => Ok(Wanted::Job(job)),
        false => Err(wrong_words(verb, &job.words)),
    }
}

/// Whether the last word of a verb may come again.
fn takes_more(verb: &Verb) -> bool {
    verb.words
        .last()
        .is_some_and(|(name, _)| name.ends_with(".."))
}

/// Reads an option: `--name`, `--name VALUE` or `--name=VALUE`.
fn option<'a>(
    verb: &Verb,
    text: &str,
    rest: &mut impl Iterator<Item = &'a OsString>,
) -> Result<(&'static str, OsString), String> {
    let (name, joined) = match text.split_once('=') {
        Some((name, value)) => (name, Some(OsString::from(value))),
        None => (text, None),
    };
    let known = FLAGS
        .iter()
        .find(|flag| flag.name == name && verb.options.contains(&name));
    let Some(flag) = known else {
        return Err(no_such_option(verb, name));
    };
    let value = match (flag.value, joined) {
        (None, None) => OsString::new(),
        (None, Some(_)) => return Err(format!("{name} takes no value")),
        (Some(_), Some(value)) => value,
        (Some(form), None) => {
            let next = rest.next().filter(|word| !is_option(word));
            next.ok_or_else(|| format!("{name}: {form} is missing behind it"))?
                .clone()
        }
    };
    Ok((flag.name, value))
}

/// Whether a word is meant as an option, not as the value of one.
fn is_option(word: &OsStr) -> bool {
    word.to_str().is_some_and(|text| text.starts_with("--"))
}

/// The verb has no such option.
fn no_such_option(verb: &Verb, name: &str) -> String {
    let hint = hint(name, verb.options.iter().copied().chain(["--help"]));
    format!(
        "{} {name}: no such option{hint}; wedgepetal {} --help names all",
        verb.name, verb.name
    )
}

/// The verb has another number of words.
fn wrong_words(verb: &Verb, words: &[OsString]) -> String {
    let usage = usage(verb);
    match verb.words.get(words.len()) {
        Some((name, about)) => format!("{name} is missing: {about}\nusage: {usage}"),
        None => {
            let word = words[verb.words.len()].to_string_lossy();
            format!("{word}: one word too many\nusage: {usage}")
        }
    }
}

/// What a word may have been meant to be.
fn hint<'a>(word: &str, names: impl Iterator<Item = &'a str>) -> String {
    let near = names
        .map(|name| (distance(word, name), name))
        .filter(|(distance, name)| *distance <= name.len().div_ceil(3))
        .min();
    near.map_or(String::new(), |(_, name)| {
        format!(" (did you mean {name}?)")
    })
}

/// How many letters are put in, left out or changed to get from a word to
/// another; two that changed places count as one.
fn distance(from: &str, to: &str) -> usize {
    let (from, to): (Vec<char>, Vec<char>) = (from.chars().collect(), to.chars().collect());
    // rows[i][j]: from the first i letters to the first j.
    let mut rows = vec![(0..=to.len()).collect::<Vec<usize>>()];
    for i in 1..=from.len() {
        let mut row = vec![i];
        for j in 1..=to.len() {
            let changed = usize::from(from[i - 1] != to[j - 1]);
            let swapped = i > 1 && j > 1 && from[i - 1] == to[j - 2] && from[i - 2] == to[j - 1];
            let swap = if swapped {
                rows[i - 2][j - 2] + 1
            } else {
                usize::MAX
            };
            let step = [
                rows[i - 1][j] + 1,
                row[j - 1] + 1,
                rows[i - 1][j - 1] + changed,
                swap,
            ];
            row.push(step.into_iter().min().expect("there are four"));
        }
        rows.push(row);
    }
    rows[from.len()][to.len()]
}

/// The version of the command, and what its library was made of.
fn version() -> String {
    format!(
        "wedgepetal {}\nproved library of crates/ {}\n",
        wedgepetal::VERSION,
        wedgepetal::CRATES
    )
}

/// How a verb is called.
fn usage(verb: &Verb) -> String {
    let words: Vec<&str> = verb.words.iter().map(|(name, _)| *name).collect();
    format!("wedgepetal {} {} [options]", verb.name, words.join(" "))
}

/// All verbs, and what holds for all.
fn overview() -> String {
    let mut text =
        "Wedgepetal decodes Theora recordings; every function of its decoder is proved.\n\n"
            .to_string();
    for verb in &VERBS {
        let words: Vec<&str> = verb.words.iter().map(|(name, _)| *name).collect();
        let call = format!("{} {}", verb.name, words.join(" "));
        // Writing to a string does not fail.
        let _ = writeln!(text, "  {call:30} {}", verb.about);
    }
    for (call, about) in &python::VERBS {
        let _ = writeln!(text, "  {call:30} {about} (by the Python module)");
    }
    text.push_str(
        "\n  wedgepetal VERB --help           its words and options\n  \
           wedgepetal --version             the version, and which proved sources are in it\n\n\
         Ogg files are read through libogg (Debian package libogg0). An output has a temporary name\n\
         until it is whole, and a file that is there is not replaced without --force.\n\n\
         Status: 0 all is well; 1 something was refused, damaged or left; 2 wrong use, or a file\n\
         cannot be read or written.\n",
    );
    text
}

/// The help of a verb.
fn help(verb: &Verb) -> String {
    let mut text = format!("{}\n  {}\n\n", usage(verb), verb.about);
    if !verb.more.is_empty() {
        let _ = writeln!(text, "{}\n", verb.more);
    }
    for (name, about) in verb.words {
        let _ = writeln!(text, "  {name:28} {}", folded(about));
    }
    for name in verb.options.iter().chain(&["--help"]) {
        let flag = FLAGS.iter().find(|flag| flag.name == *name);
        let flag = flag.expect("the table has every option of a verb");
        let form = format!("{} {}", flag.name, flag.value.unwrap_or_default());
        let _ = writeln!(text, "  {form:28} {}", folded(flag.about));
    }
    text
}

/// A text in lines of some 80 letters, all but the first moved in.
fn folded(text: &str) -> String {
    const WIDTH: usize = 70;
    let mut lines = vec![String::new()];
    for word in text.split(' ') {
        let line = lines.last_mut().expect("there is a line");
        match line.is_empty() || line.len() + word.len() < WIDTH {
            true if line.is_empty() => line.push_str(word),
            true => {
                line.push(' ');
                line.push_str(word);
            }
            false => lines.push(word.to_string()),
        }
    }
    lines.join(&format!("\n{:31}", ""))
}

#[cfg(test)]
mod tests {
    use super::*;

    fn read(words: &str) -> Result<Wanted, String> {
        let words: Vec<OsString> = words.split_whitespace().map(OsString::from).collect();
        parse(&words)
    }

    fn job(words: &str) -> Job {
        match read(words) {
            Ok(Wanted::Job(job)) => job,
            Ok(Wanted::Text(text)) => panic!("{text}"),
            Err(text) => panic!("{text}"),
        }
    }

    fn wrong(words: &str) -> String {
        read(words).err().expect("these words are wrong")
    }

    #[test]
    fn right_words() {
        let job = job("y4m --stream 2 a.ogv --index=i.csv - --force");
        assert_eq!(
            (job.verb, &job.words[..]),
            ("y4m", &["a.ogv".into(), "-".into()][..])
        );
        let stream = job.parsed("--stream", |text| text.parse::<u64>().ok());
        assert_eq!(stream, Ok(Some(2)));
        assert_eq!(job.value("--index"), Some(OsStr::new("i.csv")));
        assert!(job.has("--force") && !job.has("--quiet"));
        assert_eq!(self::job("info -- --help").words, ["--help"]);
        let check = self::job("y4m check f --json");
        assert_eq!(
            (check.verb, &check.words[..]),
            ("y4m check", &["f".into()][..])
        );
        assert_eq!(self::job("y4m ./check f").verb, "y4m");
        assert_eq!(self::job("census a b c --jobs 2").words.len(), 3);
        assert_eq!(
            self::job("tiles a -o m.npy").value("-o"),
            Some(OsStr::new("m.npy"))
        );
    }

    #[test]
    fn wrong_words_are_named_with_the_nearest_right_one() {
        assert!(wrong("inof a").contains("inof: no such verb (did you mean info?)"));
        assert!(wrong("decode a").starts_with("decode: no such verb; "));
        assert!(
            wrong("y4m a b --indx c").contains("--indx: no such option (did you mean --index?)")
        );
        assert!(wrong("info a --force").contains("--force: no such option"));
        assert!(wrong("y4m a").contains("FILM.y4m is missing"));
        assert!(wrong("info a b").starts_with("b: one word too many"));
        assert!(wrong("y4m a b --stream").contains("N is missing"));
        assert!(wrong("y4m a b --index --force").contains("FILE.csv is missing"));
        assert!(wrong("y4m a b --force=1").contains("--force takes no value"));
        assert!(wrong("").starts_with("a verb is missing"));
        assert!(wrong("settings a").starts_with("settings a: no such verb"));
        assert!(wrong("settings chek a").contains("(did you mean settings check?)"));
        assert!(wrong("help settings").starts_with("settings: no such verb"));
        assert!(wrong("settings check").contains("SETTINGS.txt is missing"));
        assert!(wrong("census").contains("RECORDING.. is missing"));
        assert!(wrong("check a").contains("FILM.y4m is missing"));
        assert!(wrong("tiles a -o").contains("MAP.npy is missing"));
        let job = job("picture a b --frame x");
        let frame = job.parsed("--frame", |text| text.parse::<u64>().ok());
        assert_eq!(frame, Err("--frame x: expected --frame N".to_string()));
    }

    #[test]
    fn every_verb_has_its_help() {
        for verb in &VERBS {
            for words in [
                format!("{} --help", verb.name),
                format!("help {}", verb.name),
            ] {
                let Ok(Wanted::Text(text)) = read(&words) else {
                    panic!("{words}");
                };
                assert!(text.starts_with(&format!("wedgepetal {} ", verb.name)));
                assert!(verb.options.iter().all(|name| text.contains(name)));
                assert!(text.lines().all(|line| line.len() <= 110), "{text}");
            }
        }
        assert!(matches!(read("--version"), Ok(Wanted::Text(_))));
    }

    #[test]
    fn distances() {
        assert_eq!(distance("inof", "info"), 1);
        assert_eq!(distance("", "abc"), 3);
        assert_eq!(distance("frames", "frame"), 1);
        assert_eq!(distance("y4m", "y4m"), 0);
        assert_eq!(distance("hash", "hashes"), 2);
    }
}
