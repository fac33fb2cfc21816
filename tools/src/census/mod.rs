//! `wedgepetal census`: what recordings hold, counted by the library's proved
//! call, one recording at a time or several in processes of their own.

mod files;
mod report;

use crate::arguments::Job;
use crate::input::{Input, is_same_file};
use crate::json::Json;
use crate::memory::{self, Limit};
use crate::progress::clock;
use crate::target::{self, Target};
use crate::whole;
use crate::{Failure, Form, Said, form, parsed};
use files::Files;
use recording::Choice;
use report::Line;
use std::collections::BTreeSet;
use std::io::{self, IsTerminal, Write};
use std::path::Path;
use std::process::Command;
use std::sync::Mutex;
use std::sync::atomic::{AtomicUsize, Ordering};
use std::time::{Duration, Instant};
use wedgepetal::Report;

/// What a census has found.
#[derive(Default)]
struct Census {
    lines: Vec<Line>,
    /// What was not counted, and why.
    faults: Vec<String>,
    passed_over: u64,
}

/// Counts recordings, or adds up reports.
pub fn run(job: &Job) -> Result<Said, Failure> {
    let path = job.value("--csv").map(Path::new);
    let table = path.map(|path| Target::plan(path, job.has("--force")));
    let table = table.transpose().map_err(Failure::File)?;
    let census = match job.has("--add") {
        true => add(job)?,
        false => count(job)?,
    };
    let all = report::sum(&census.lines).map_err(|why| Failure::Refused(why.to_string()))?;
    if let Some(mut target) = table {
        let text = report::csv(&census.lines, &all);
        target.open().map_err(Failure::File)?;
        let written = target.write(|out| out.write_all(text.as_bytes()));
        written
            .and_then(|()| target.finish())
            .map_err(Failure::File)?;
    }
    Ok(Said {
        text: match form(job) {
            Form::Json => format!("{}\n", census.json(&all)),
            Form::Faults => census.faults(),
            Form::Text => census.text(&all),
        },
        output_taken: path.is_some_and(target::is_standard) || job.has("--quiet"),
        clean: census.is_clean(),
    })
}

/// A report is none of the files that are read.
fn check_report<'a>(job: &Job, mut read: impl Iterator<Item = &'a Path>) -> Result<(), Failure> {
    match job.value("--csv").map(Path::new) {
        Some(path) if read.any(|read| is_same_file(read, path)) => {
            let text = format!("{}: named twice, as two different files", path.display());
            Err(Failure::Usage(text))
        }
        _ => Ok(()),
    }
}

/// Adds up reports.
fn add(job: &Job) -> Result<Census, Failure> {
    check_report(job, job.words.iter().map(Path::new))?;
    let mut census = Census::default();
    for word in &job.words {
        let path = Path::new(word);
        let text = std::fs::read_to_string(path).map_err(|error| Failure::file(path, error))?;
        let lines = report::read(&text);
        census
            .lines
            .extend(lines.map_err(|why| Failure::file(path, why))?);
    }
    let mut seen = BTreeSet::new();
    let twice = census.lines.iter().filter(|line| !seen.insert(line.name()));
    census.faults = twice
        .map(|line| format!("{}: counted twice", line.name()))
        .collect();
    Ok(census)
}

/// Counts recordings.
fn count(job: &Job) -> Result<Census, Failure> {
    let Files {
        files,
        passed_over,
        unread,
    } = files::find(job.words.iter().map(Path::new))?;
    check_report(job, files.iter().map(|(path, _)| path.as_path()))?;
    let limit = Limit::new(parsed(job, "--max-memory", memory::parse)?);
    let jobs = parsed(job, "--jobs", |text| {
        text.parse().ok().filter(|jobs| *jobs > 0)
    })?;
    let jobs: usize = jobs.unwrap_or(1);
    let total = files
        .iter()
        .map(|(_, bytes)| *bytes)
        .fold(0, u64::saturating_add);
    let far = Far::new(
        files.len(),
        total,
        job.has("--progress"),
        job.has("--quiet"),
    );
    let counted: Vec<Mutex<Option<Counted>>> = files.iter().map(|_| Mutex::default()).collect();
    let next = AtomicUsize::new(0);
    let work = || {
        while let Some(number) =
            Some(next.fetch_add(1, Ordering::Relaxed)).filter(|n| *n < files.len())
        {
            let (path, bytes) = &files[number];
            let done = match jobs {
                1 => count_file(path, limit.bytes()),
                jobs => count_apart(path, limit.bytes() / jobs as u64),
            };
            *counted[number].lock().expect("nobody panics with it") = Some(done);
            far.done(*bytes);
        }
    };
    std::thread::scope(|scope| {
        for _ in 1..jobs.min(files.len()) {
            scope.spawn(work);
        }
        work();
    });
    far.clear();
    let mut census = Census {
        passed_over,
        faults: unread,
        ..Census::default()
    };
    for done in counted {
        let done = done.into_inner().expect("nobody panics with it");
        match done.expect("all are done") {
            Ok(lines) => census.lines.extend(lines),
            Err(fault) => census.faults.push(fault),
        }
    }
    Ok(census)
}

/// The lines of a recording, or why there are none.
type Counted = Result<Vec<Line>, String>;

/// Counts the streams of a recording with at most so much memory.
fn count_file(path: &Path, limit: u64) -> Counted {
    let said = |failure: Failure| failure.to_string();
    let input = Input::open(path, true).map_err(said)?;
    let name = input.name.clone();
    let all = whole::read(input, Choice::All).map_err(said)?;
    if all.streams.is_empty() {
        return Err(format!("{name}: {}", all.none()));
    }
    let mut lines = Vec::new();
    for (number, stream) in all.streams {
        let mut report = Report::default();
        let packets = stream.packets.len();
        let counted = report.count_within(&stream.packets, limit);
        counted.map_err(|why| format!("{name}: {why}"))?;
        let note = match (stream.fault, stream.lost) {
            (Some(fault), true) => format!("{fault}; packets up to there were counted: {packets}"),
            (Some(fault), false) => fault,
            (None, _) => String::new(),
        };
        lines.push(Line {
            recording: name.clone(),
            stream: number,
            report,
            note,
        });
    }
    if let (Some(line), [_, ..]) = (lines.last_mut(), &all.left[..]) {
        let left = all.left.join("; ");
        line.note = match line.note.is_empty() {
            true => left,
            false => format!("{}; {left}", line.note),
        };
    }
    Ok(lines)
}

/// Does the same in a process of its own.
fn count_apart(path: &Path, limit: u64) -> Counted {
    let failed = |what: String| format!("{}: {what}", path.display());
    let this = std::env::current_exe().map_err(|error| failed(error.to_string()))?;
    let output = Command::new(this)
        .args(["census", "--quiet", "--csv", "-", "--max-memory"])
        .arg(limit.to_string())
        .arg("--")
        .arg(path)
        .output()
        .map_err(|error| failed(error.to_string()))?;
    let text = String::from_utf8_lossy(&output.stdout);
    match report::read(&text) {
        Ok(lines) if !lines.is_empty() => Ok(lines),
        _ => {
            let said = String::from_utf8_lossy(&output.stderr);
            let said = said.lines().next_back().map(str::to_string);
            Err(said.unwrap_or_else(|| failed(format!("its process ended: {}", output.status))))
        }
    }
}

impl Census {
    fn is_clean(&self) -> bool {
        self.faults.is_empty() && self.lines.iter().all(|line| line.fault().is_none())
    }

    /// What is wrong, a line each.
    fn faults(&self) -> String {
        let lines = self.lines.iter().filter_map(Line::fault);
        let all = lines.chain(self.faults.iter().cloned());
        all.map(|fault| fault + "\n").collect()
    }

    fn text(&self, all: &Report) -> String {
        let mut text = report::table(&self.lines, all);
        if self.passed_over > 0 {
            text += &format!("files that are no recordings: {}\n", self.passed_over);
        }
        text + &self.faults()
    }

    fn json(&self, all: &Report) -> Json {
        let mut fields = vec![("clean", Json::Bool(self.is_clean()))];
        fields.extend(report::json(&self.lines, all));
        fields.push(("not_counted", Json::texts(&self.faults)));
        fields.push(("passed_over", Json::Number(self.passed_over)));
        Json::Object(fields)
    }
}

/// How far a census is.
struct Far {
    files: usize,
    bytes: u64,
    terminal: bool,
    said: bool,
    began: Instant,
    /// How many files and bytes are done, and when that was said.
    done: Mutex<(usize, u64, Instant)>,
}

/// How often it is said.
const OFTEN: Duration = Duration::from_millis(200);

impl Far {
    fn new(files: usize, bytes: u64, wanted: bool, quiet: bool) -> Far {
        let (terminal, now) = (io::stderr().is_terminal(), Instant::now());
        Far {
            files,
            bytes,
            terminal,
            said: wanted || terminal && !quiet,
            began: now,
            done: Mutex::new((0, 0, now)),
        }
    }

    /// A file of so many bytes is done.
    fn done(&self, bytes: u64) {
        let mut done = self.done.lock().expect("nobody panics with it");
        done.0 += 1;
        done.1 = done.1.saturating_add(bytes);
        if !self.said || done.2.elapsed() < OFTEN {
            return;
        }
        done.2 = Instant::now();
        let text = far(done.0, self.files, done.1, self.bytes, self.began.elapsed());
        let text = match self.terminal {
            true => format!("\r{text}\x1b[K"),
            false => format!("{text}\n"),
        };
        // Whoever closed the standard error does not want to know.
        let _ = io::stderr().write_all(text.as_bytes());
    }

    /// Takes the line away.
    fn clear(&self) {
        if self.said && self.terminal {
            let _ = io::stderr().write_all(b"\r\x1b[K");
        }
    }
}

/// How far it is, in words; the time left goes by bytes.
fn far(files: usize, of: usize, bytes: u64, total: u64, time: Duration) -> String {
    let part = bytes as f64 / total.max(1) as f64;
    let left = match part > 0.0 {
        true => time.as_secs_f64() * (1.0 - part).max(0.0) / part,
        false => 0.0,
    };
    let left = clock(Duration::from_secs_f64(left));
    format!(
        "{files} of {of} recordings, {:.0} %, {left} left",
        100.0 * part
    )
}

#[cfg(test)]
mod tests {
    use super::*;

    #[test]
    fn how_far_it_is() {
        assert_eq!(
            far(3, 12, 250, 1000, Duration::from_secs(30)),
            "3 of 12 recordings, 25 %, 1 min 30 s left"
        );
        assert!(far(1, 1, 0, 0, Duration::from_secs(1)).ends_with("0 min 00 s left"));
    }
}
