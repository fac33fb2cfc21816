//! The `wedgepetal` command.

mod arguments;
mod census;
mod check;
mod clock;
mod cut;
mod decode;
mod fields;
mod film;
mod index;
mod info;
mod input;
mod interrupt;
mod json;
mod layout;
mod left;
mod look;
mod mapped;
mod memory;
mod output;
mod packets;
mod places;
mod png;
mod progress;
mod python;
mod sample;
mod settings;
mod summary;
mod target;
mod tiles;
mod whole;
mod work;

use arguments::{Job, Wanted};
use decode::{AfterGap, Request};
use index::Index;
use input::{Input, is_same_file};
use look::Look;
use mapped::Mapped;
use memory::Limit;
use output::{Folder, Output, Trouble};
use recording::{Choice, Fault, packet_file};
use std::ffi::OsString;
use std::fmt::{self, Display};
use std::io::{self, ErrorKind, Write};
use std::path::Path;
use std::process::ExitCode;
use target::{Target, is_standard};
use tiles::Tiles;
use wedgepetal::Settings;

/// Why the command fails.
enum Failure {
    /// The recording is refused.
    Refused(String),
    /// A file cannot be read or written.
    File(String),
    /// The words make no command.
    Usage(String),
    /// No one reads what is written any more. This is the reader's choice.
    Unread,
}

impl Display for Failure {
    fn fmt(&self, f: &mut fmt::Formatter<'_>) -> fmt::Result {
        match self {
            Failure::Refused(text) | Failure::File(text) | Failure::Usage(text) => {
                write!(f, "{text}")
            }
            Failure::Unread => Ok(()),
        }
    }
}

impl Failure {
    /// A file cannot be read.
    fn file(path: &Path, why: impl Display) -> Failure {
        Failure::File(format!("{}: {why}", path.display()))
    }

    /// A recording of this name gives nothing more.
    fn of_fault(name: &str, fault: &Fault) -> Failure {
        let text = format!("{name}: {fault}");
        match fault.is_read_error() {
            true => Failure::File(text),
            false => Failure::Refused(text),
        }
    }

    /// An output takes no more.
    fn of_trouble(trouble: Trouble) -> Failure {
        match trouble {
            Trouble::Failed(text) => Failure::File(text),
            Trouble::Unfit(text) => Failure::Refused(text),
        }
    }
}

/// What a command has to say at its end.
struct Said {
    text: String,
    /// Whether the standard output is taken or nothing but faults is wanted, so
    /// that this goes to the standard error.
    output_taken: bool,
    /// Whether all was read and accepted.
    clean: bool,
}

impl From<String> for Said {
    fn from(text: String) -> Said {
        Said {
            text,
            output_taken: false,
            clean: true,
        }
    }
}

fn main() -> ExitCode {
    let words: Vec<OsString> = std::env::args_os().skip(1).collect();
    if python::takes(&words) {
        return fail(&python::run(&words), 2);
    }
    interrupt::watch();
    let done = arguments::parse(&words)
        .map_err(Failure::Usage)
        .and_then(|wanted| match wanted {
            Wanted::Text(text) => Ok(Said::from(text)),
            Wanted::Job(job) => perform(&job),
        });
    match done {
        Ok(said) => print(&said),
        Err(Failure::Unread) => ExitCode::SUCCESS,
        Err(Failure::Refused(text)) => fail(&text, 1),
        Err(Failure::File(text) | Failure::Usage(text)) => fail(&text, 2),
    }
}

/// Says why the command fails.
fn fail(text: &str, status: u8) -> ExitCode {
    // Whoever closed the standard error does not want to know.
    let _ = writeln!(io::stderr(), "wedgepetal: {}", text.trim_end());
    ExitCode::from(status)
}

/// Says what a command has to say. A reader that closes the standard output
/// early is no failure.
fn print(said: &Said) -> ExitCode {
    let text = said.text.as_bytes();
    let written = match said.output_taken {
        true => io::stderr().write_all(text),
        false => io::stdout()
            .write_all(text)
            .and_then(|()| io::stdout().flush()),
    };
    match written {
        Err(error) if error.kind() != ErrorKind::BrokenPipe => {
            fail(&format!("standard output: {error}"), 2)
        }
        _ => ExitCode::from(u8::from(!said.clean)),
    }
}

/// Does a job.
fn perform(job: &Job) -> Result<Said, Failure> {
    match job.verb {
        "info" => describe(job),
        "packets" => write_packets(job),
        "work" => measure(job),
        "sample" => write_sample(job),
        "y4m check" => check_film(job),
        "check" => check_recording(job),
        "census" => census::run(job),
        "settings check" => check_settings(job),
        "settings write" => write_settings(job),
        _ => decode_recording(job),
    }
}

/// Says what a recording is.
fn describe(job: &Job) -> Result<Said, Failure> {
    let input = Input::open(Path::new(&job.words[0]), job.has("--quiet"))?;
    let name = input.name.clone();
    let limit = Limit::new(parsed(job, "--max-memory", memory::parse)?);
    let info = info::read(input, job.has("--places").then_some(limit))?;
    Ok(Said {
        text: match form(job) {
            Form::Json => format!("{}\n", info.json(&name)),
            Form::Faults => info.faults(&name),
            Form::Text => info.text(&name, job.has("--fields")),
        },
        output_taken: job.has("--quiet"),
        clean: info.is_clean(),
    })
}

/// In which form a job's answer is wanted.
enum Form {
    Json,
    Faults,
    Text,
}

fn form(job: &Job) -> Form {
    match (job.has("--json"), job.has("--quiet")) {
        (true, _) => Form::Json,
        (false, true) => Form::Faults,
        (false, false) => Form::Text,
    }
}

/// Says how much work a recording's packets cause.
fn measure(job: &Job) -> Result<Said, Failure> {
    let limit = Limit::new(parsed(job, "--max-memory", memory::parse)?);
    let input = Input::open(Path::new(&job.words[0]), job.has("--quiet"))?;
    let name = input.name.clone();
    let work = work::measure(input, &limit)?;
    let text = match form(job) {
        Form::Json => format!("{}\n", work.json(&name)),
        Form::Faults => work.faults(&name),
        Form::Text => work.text(&name),
    };
    Ok(Said {
        text,
        output_taken: job.has("--quiet"),
        clean: work.is_clean(),
    })
}

/// Decodes a recording into what the verb makes.
fn decode_recording(job: &Job) -> Result<Said, Failure> {
    let path = Path::new(&job.words[0]);
    // What a verb makes has no name of its own if several things may be made.
    let out = job.words.get(1).map_or(Path::new(""), Path::new);
    check_paths(job)?;
    let request = request(job, out)?;
    let taken = |name: &&str| job.value(name).is_some_and(|path| path == "-");
    let index_taken = OUTPUTS.iter().any(taken);
    let output_taken = request.output.is_standard() || index_taken || job.has("--quiet");
    let input = Input::open(path, job.has("--quiet"))?;
    let name = input.name.clone();
    let summary = decode::decode(input, request)?;
    let text = match form(job) {
        Form::Json => format!("{}\n", summary.json(&name)),
        Form::Faults => summary.faults(&name),
        Form::Text if job.verb == "picture" && summary.is_clean() => {
            let frame = parsed(job, "--frame", |text| text.parse::<u64>().ok())?;
            let frame = frame.unwrap_or(0);
            target::said(out, format!("frame {frame} of {name}\n"))
        }
        Form::Text => summary.text(&name),
    };
    Ok(Said {
        text,
        output_taken,
        clean: summary.is_clean(),
    })
}

/// How a job wants its recording decoded.
fn request(job: &Job, out: &Path) -> Result<Request, Failure> {
    let force = job.has("--force");
    let output = match job.verb {
        "frames" => Output::Frames(Folder::plan(out).map_err(Failure::File)?),
        "tiles" => Output::Tiles(Box::new(tiles(job)?)),
        verb => {
            let target = Target::plan(out, force).map_err(Failure::File)?;
            match verb {
                "y4m" => Output::Film(target, None),
                "cut" => Output::Cut(target, None),
                "picture" => {
                    let frame = parsed(job, "--frame", |text| text.parse().ok())?;
                    let space = parsed(job, "--colour-space", |text| text.parse().ok())?;
                    let look = Look::new(out, job.has("--grey"), space);
                    Output::Picture(target, Some(frame.unwrap_or(0)), look)
                }
                _ => Output::Hashes(target),
            }
        }
    };
    let index = job
        .value("--index")
        .map(|path| Index::plan(Path::new(path), force).map_err(Failure::File));
    let after_gap = parsed(job, "--after-gap", AfterGap::parse)?;
    Ok(Request {
        choice: choice(job)?,
        after_gap: after_gap.unwrap_or(AfterGap::Stop),
        limit: Limit::new(parsed(job, "--max-memory", memory::parse)?),
        output,
        index: index.transpose()?,
    })
}

/// Which streams a job wants.
fn choice(job: &Job) -> Result<Choice, Failure> {
    let number = |text: &str| text.parse().ok().filter(|number| *number > 0);
    Ok(parsed(job, "--stream", number)?.map_or(Choice::Joined, Choice::One))
}

/// The value of an option.
fn parsed<T>(
    job: &Job,
    name: &str,
    parse: impl FnOnce(&str) -> Option<T>,
) -> Result<Option<T>, Failure> {
    job.parsed(name, parse).map_err(Failure::Usage)
}

/// The options that name files which are written.
const OUTPUTS: [&str; 4] = ["--index", "-o", "--csv", "--picture"];

/// All files that a job names are different ones.
fn check_paths(job: &Job) -> Result<(), Failure> {
    let options = OUTPUTS.iter().filter_map(|name| job.value(name));
    let words = job.words.iter().map(OsString::as_os_str);
    let paths: Vec<&Path> = words.chain(options).map(Path::new).collect();
    let read = |path: &Path| path == Path::new(&job.words[0]);
    for (i, path) in paths.iter().enumerate().skip(1) {
        // The recording and an output may both be "-", which is not one file.
        let same = |other: &&&Path| {
            is_same_file(other, path) || **other == *path && !(is_standard(path) && read(other))
        };
        if paths[..i].iter().find(same).is_some() {
            let text = format!("{}: named twice, as two different files", path.display());
            return Err(Failure::Usage(text));
        }
    }
    Ok(())
}

/// The maps that a job wants.
fn tiles(job: &Job) -> Result<Tiles, Failure> {
    let missing = || Failure::Usage("tiles: --settings SETTINGS.txt is missing".to_string());
    let path = Path::new(job.value("--settings").ok_or_else(missing)?);
    let text = Mapped::open(path, &Limit::new(None))?;
    let checked = settings::check(2, &text);
    let settings = checked
        .settings()
        .map_err(|_| Failure::Refused(checked.faults(&name(path))))?;
    let file = |name: &str| job.value(name).map(Path::new);
    Tiles::plan(
        settings,
        file("-o"),
        file("--csv"),
        file("--picture"),
        job.has("--force"),
    )
    .map_err(Failure::File)
}

/// Checks another decoder's stream of a recording's frames.
fn check_recording(job: &Job) -> Result<Said, Failure> {
    let (path, film) = (Path::new(&job.words[0]), Path::new(&job.words[1]));
    check_paths(job)?;
    let limit = Limit::new(parsed(job, "--max-memory", memory::parse)?);
    let file = Mapped::open(film, &limit)?;
    let input = Input::open(path, job.has("--quiet"))?;
    let checked = check::check(input, choice(job)?, &file, &limit)?;
    let name = name(film);
    Ok(Said {
        text: match form(job) {
            Form::Json => format!("{}\n", checked.json(&name)),
            Form::Faults => checked.faults(&name),
            Form::Text => checked.text(&name),
        },
        output_taken: job.has("--quiet"),
        clean: checked.is_clean(),
    })
}

/// Writes the packets of a recording's Theora stream as a packet file.
fn write_packets(job: &Job) -> Result<Said, Failure> {
    let (path, out) = (Path::new(&job.words[0]), Path::new(&job.words[1]));
    check_paths(job)?;
    let target = Target::plan(out, job.has("--force")).map_err(Failure::File)?;
    let input = Input::open(path, job.has("--quiet"))?;
    let name = input.name.clone();
    let written = packets::write(input, choice(job)?, target)?;
    let text = match form(job) {
        Form::Json => format!("{}\n", written.json(&name)),
        Form::Faults => written.faults(&name),
        Form::Text => written.text(&name),
    };
    Ok(Said {
        text,
        output_taken: is_standard(out) || job.has("--quiet"),
        clean: written.is_clean(),
    })
}

/// What is said of a file that is read.
fn name(path: &Path) -> String {
    match is_standard(path) {
        true => "standard input".to_string(),
        false => path.display().to_string(),
    }
}

/// Says what a stream of frames holds.
fn check_film(job: &Job) -> Result<Said, Failure> {
    let path = Path::new(&job.words[0]);
    let limit = Limit::new(parsed(job, "--max-memory", memory::parse)?);
    let checked = film::check(&Mapped::open(path, &limit)?);
    let name = name(path);
    let text = match form(job) {
        Form::Json => format!("{}\n", checked.json(&name)),
        Form::Faults => checked.faults(&name),
        Form::Text => checked.text(&name),
    };
    Ok(Said {
        text,
        output_taken: job.has("--quiet"),
        clean: checked.is_clean(),
    })
}

/// Says what settings hold.
fn check_settings(job: &Job) -> Result<Said, Failure> {
    let path = Path::new(&job.words[0]);
    let version = number(job, "--version")?.unwrap_or(2);
    let text = Mapped::open(path, &Limit::new(None))?;
    let checked = settings::check(version, &text);
    let name = name(path);
    let text = match form(job) {
        Form::Json => format!("{}\n", checked.json(&name)),
        Form::Faults => checked.faults(&name),
        Form::Text => checked.text(&name),
    };
    Ok(Said {
        text,
        output_taken: job.has("--quiet"),
        clean: checked.is_clean(),
    })
}

/// Writes settings.
fn write_settings(job: &Job) -> Result<Said, Failure> {
    let out = Path::new(&job.words[0]);
    let wanted = |name: &str| {
        let text = format!("settings write: {name} N is missing");
        number(job, name)?.ok_or(Failure::Usage(text))
    };
    let settings = Settings {
        tile: wanted("--tile")?,
        shot_first: wanted("--shot-first")?,
        shot_last: wanted("--shot-last")?,
        plane: number(job, "--plane")?.unwrap_or(0),
    };
    let version = number(job, "--version")?.unwrap_or(2);
    let text = settings::text(version, &settings).map_err(Failure::Refused)?;
    target::write_file(out, job.has("--force"), text.as_bytes()).map_err(Failure::File)?;
    Ok(Said {
        text: match job.has("--quiet") {
            true => String::new(),
            false => target::said(out, format!("{} bytes written\n", text.len())),
        },
        output_taken: is_standard(out),
        clean: true,
    })
}

/// The value of an option that is a whole number.
fn number(job: &Job, name: &str) -> Result<Option<u64>, Failure> {
    parsed(job, name, |text| text.parse().ok())
}

/// Writes the sample in the form that its name asks for.
fn write_sample(job: &Job) -> Result<Said, Failure> {
    let out = Path::new(&job.words[0]);
    let bytes = match out.extension().and_then(|name| name.to_str()) {
        Some("packets") => packet_file::write(&sample::packets()),
        Some("header") => sample::identification_header(),
        _ => sample::ogg_file().map_err(|fault| Failure::file(out, fault))?,
    };
    target::write_file(out, job.has("--force"), &bytes).map_err(Failure::File)?;
    let text = match job.has("--quiet") {
        true => String::new(),
        false => target::said(out, format!("{} bytes written\n", bytes.len())),
    };
    Ok(Said {
        text,
        output_taken: is_standard(out),
        clean: true,
    })
}
