//! The report of a census: a line for each stream of each recording, as a table
//! for people, as CSV, which can be read back, and as JSON.

use crate::index::quoted;
use crate::json::Json;
use std::fmt::Write;
use wedgepetal::lists::REPORT_NUMBERS;
use wedgepetal::{Refusal, Report};

/// What was counted in one stream.
#[derive(Clone, Debug, PartialEq, Eq)]
pub struct Line {
    /// The name of the recording.
    pub recording: String,
    /// The number of the stream.
    pub stream: u64,
    /// What was counted.
    pub report: Report,
    /// What is not as it should be.
    pub note: String,
}

/// The names of the modes, by their numbers.
const MODES: [&str; 8] = [
    "NOMV",
    "INTRA",
    "MV",
    "LAST",
    "LAST2",
    "GOLDEN_NOMV",
    "GOLDEN_MV",
    "FOUR",
];

/// The names of the planes in the columns.
const PLANES: [&str; 3] = ["y", "cb", "cr"];

/// The names of the 34 numbers.
fn names() -> Vec<String> {
    let mut names: Vec<String> = ["intra", "inter", "repeat"].map(String::from).to_vec();
    names.extend((1..=17).map(|number| format!("refused_{number}")));
    names.extend(PLANES.map(|plane| format!("coded_{plane}")));
    names.extend(PLANES.map(|plane| format!("uncoded_{plane}")));
    names.extend(MODES.map(|mode| format!("mode_{}", mode.to_lowercase())));
    names
}

/// The first line of a report.
pub fn columns() -> String {
    format!("recording,stream,{},note", names().join(","))
}

/// What the last line of a report has in place of a stream's number: the sum.
const ALL: &str = "all";

impl Line {
    /// As CSV.
    pub fn csv(&self) -> String {
        row(
            &self.recording,
            &self.stream.to_string(),
            &self.report,
            &self.note,
        )
    }

    /// Reads a line back, that of the sum as none.
    fn read(text: &str) -> Option<Option<Line>> {
        let fields = split(text)?;
        let [recording, stream, numbers @ .., note] = &fields[..] else {
            return None;
        };
        let numbers: Option<Vec<u64>> = numbers.iter().map(|number| number.parse().ok()).collect();
        let numbers: [u64; REPORT_NUMBERS] = numbers?.try_into().ok()?;
        if stream == ALL {
            return Some(None);
        }
        Some(Some(Line {
            recording: recording.clone(),
            stream: stream.parse().ok()?,
            report: Report::from_list(numbers),
            note: note.clone(),
        }))
    }

    /// The name in words: with the number of a stream that is not the first.
    pub fn name(&self) -> String {
        match self.stream {
            1 => self.recording.clone(),
            number => format!("{}, stream {number}", self.recording),
        }
    }

    /// What is wrong with it, a line.
    pub fn fault(&self) -> Option<String> {
        let refused = self.report.refused();
        let text = match (refused, self.note.is_empty()) {
            (0, true) => return None,
            (0, false) => self.note.clone(),
            (_, true) => refusals(&self.report),
            (_, false) => format!("{}; {}", refusals(&self.report), self.note),
        };
        Some(format!("{}: {text}", self.name()))
    }
}

/// A line of a report.
fn row(recording: &str, stream: &str, report: &Report, note: &str) -> String {
    let numbers = report.to_list().map(|number| number.to_string()).join(",");
    let (recording, note) = (quoted(recording), quoted(note));
    format!("{recording},{stream},{numbers},{note}\n")
}

/// The fields of a line of CSV, which may be quoted.
fn split(text: &str) -> Option<Vec<String>> {
    let mut fields = vec![String::new()];
    let (mut inside, mut letters) = (false, text.chars().peekable());
    while let Some(letter) = letters.next() {
        let field = fields.last_mut()?;
        match (letter, inside) {
            ('"', true) if letters.peek() == Some(&'"') => field.extend(letters.next()),
            ('"', _) => inside = !inside,
            (',', false) => fields.push(String::new()),
            (letter, _) => field.push(letter),
        }
    }
    (!inside).then_some(fields)
}

/// Reads a report that [`csv`] wrote.
///
/// # Errors
///
/// Which line is none of a report.
pub fn read(text: &str) -> Result<Vec<Line>, String> {
    let mut rows = text.lines();
    if rows.next() != Some(&columns()) {
        return Err("line 1 is not that of a report (census --csv writes one)".to_string());
    }
    let mut lines = Vec::new();
    for (number, row) in (2..).zip(rows) {
        let line = Line::read(row).ok_or_else(|| format!("line {number} is none of a report"))?;
        lines.extend(line);
    }
    Ok(lines)
}

/// What was counted in all.
///
/// # Errors
///
/// Number 15 if a sum passes 64 bits.
pub fn sum(lines: &[Line]) -> Result<Report, Refusal> {
    let mut all = Report::default();
    lines.iter().try_for_each(|line| all.add(&line.report))?;
    Ok(all)
}

/// A report as CSV.
pub fn csv(lines: &[Line], all: &Report) -> String {
    let mut text = columns() + "\n";
    text.extend(lines.iter().map(Line::csv));
    text + &row("", ALL, all, "")
}

/// What was refused, in words.
fn refusals(report: &Report) -> String {
    let counts = (1..).zip(report.refusals()).filter(|(_, count)| *count > 0);
    let texts: Vec<String> = counts
        .map(|(number, count)| format!("{count} by {number}, {}", Refusal::by(number).meaning()))
        .collect();
    format!("refused: {}", texts.join("; "))
}

/// A share in per cent.
fn percent(part: u64, rest: u64) -> String {
    let whole = part as f64 + rest as f64;
    match whole > 0.0 {
        true => format!("{:.1} %", 100.0 * part as f64 / whole),
        false => "-".to_string(),
    }
}

/// The numbers of a line of the table.
fn cells(report: &Report) -> [String; 6] {
    let [intra, inter, repeat] = report.kinds();
    let total = |numbers: [u64; 3]| numbers.into_iter().fold(0, u64::saturating_add);
    [
        report.packets().to_string(),
        intra.to_string(),
        inter.to_string(),
        repeat.to_string(),
        report.refused().to_string(),
        percent(total(report.coded()), total(report.uncoded())),
    ]
}

/// The table for people, and what is to say of all.
pub fn table(lines: &[Line], all: &Report) -> String {
    let head = ["accepted", "intra", "inter", "repeat", "refused", "coded"].map(String::from);
    let mut rows = vec![("recording".to_string(), head)];
    rows.extend(lines.iter().map(|line| (line.name(), cells(&line.report))));
    if lines.len() != 1 {
        rows.push((format!("all {}", lines.len()), cells(all)));
    }
    let width = |cell: fn(&(String, [String; 6])) -> usize| rows.iter().map(cell).max();
    let name = width(|row| row.0.chars().count()).unwrap_or(0);
    let number = width(|row| row.1.iter().map(String::len).max().unwrap_or(0)).unwrap_or(0);
    let mut text = String::new();
    for (recording, cells) in &rows {
        let _ = write!(text, "{recording:name$}");
        for cell in cells {
            let _ = write!(text, "  {cell:>number$}");
        }
        text.push('\n');
    }
    text + &said(all)
}

/// What is to say of all in words.
fn said(all: &Report) -> String {
    let mut text = String::new();
    if all.refused() > 0 {
        let _ = writeln!(text, "{}", refusals(all));
    }
    let blocks = ["Y'", "Cb", "Cr"]
        .iter()
        .zip(all.coded())
        .zip(all.uncoded());
    let blocks: Vec<String> = blocks
        .map(|((plane, coded), uncoded)| format!("{plane} {}", percent(coded, uncoded)))
        .collect();
    let modes = all.modes();
    let sum = modes.iter().copied().fold(0, u64::saturating_add);
    let modes: Vec<String> = MODES
        .iter()
        .zip(modes)
        .filter(|(_, count)| *count > 0)
        .map(|(name, count)| format!("{name} {}", percent(count, sum - count)))
        .collect();
    let _ = writeln!(
        text,
        "blocks coded in intra and inter frames: {}",
        blocks.join(", ")
    );
    if !modes.is_empty() {
        let _ = writeln!(text, "macro blocks of inter frames: {}", modes.join(", "));
    }
    text
}

/// The numbers of a report as JSON.
fn numbers(report: &Report) -> Vec<(&'static str, Json)> {
    let list = |numbers: &[u64]| Json::List(numbers.iter().copied().map(Json::Number).collect());
    let [intra, inter, repeat] = report.kinds();
    vec![
        ("intra", Json::Number(intra)),
        ("inter", Json::Number(inter)),
        ("repeat", Json::Number(repeat)),
        ("refused", list(&report.refusals())),
        ("coded", list(&report.coded())),
        ("uncoded", list(&report.uncoded())),
        ("modes", list(&report.modes())),
    ]
}

/// A report as JSON. Lists are by number from 1 (refused), by plane and by mode.
pub fn json(lines: &[Line], all: &Report) -> Vec<(&'static str, Json)> {
    let recordings = lines.iter().map(|line| {
        let mut fields = vec![
            ("recording", Json::text(&line.recording)),
            ("stream", Json::Number(line.stream)),
        ];
        fields.extend(numbers(&line.report));
        fields.push(("note", Json::text(&line.note)));
        Json::Object(fields)
    });
    vec![
        ("recordings", Json::List(recordings.collect())),
        ("all", Json::Object(numbers(all))),
    ]
}

#[cfg(test)]
mod tests {
    use super::*;

    fn line(recording: &str, first: u64, note: &str) -> Line {
        Line {
            recording: recording.to_string(),
            stream: 1,
            report: Report::from_list(std::array::from_fn(|i| first + i as u64)),
            note: note.to_string(),
        }
    }

    #[test]
    fn reports_are_read_back() {
        let lines = vec![
            line("a.ogv", 0, ""),
            line("b, \"c\".ogv", 1 << 40, "page 3 is damaged"),
        ];
        let all = sum(&lines).unwrap();
        assert_eq!(all.to_list()[33], 33 + (1 << 40) + 33);
        let text = csv(&lines, &all);
        assert_eq!(text.lines().count(), 4);
        assert!(text.lines().all(|line| split(line).unwrap().len() == 37));
        assert_eq!(read(&text), Ok(lines));
        assert!(read("recording\n").unwrap_err().starts_with("line 1 "));
        let cut = &text[..text.len() - 4];
        assert_eq!(read(cut), Err("line 4 is none of a report".to_string()));
    }

    #[test]
    fn sums_past_64_bits_are_refused() {
        let lines = [line("a", u64::MAX - 33, ""), line("b", 0, "")];
        assert_eq!(sum(&lines), Err(Refusal::PAST_COUNT));
    }

    #[test]
    fn faults_in_words() {
        let mut numbers = [0; REPORT_NUMBERS];
        numbers[0] = 5;
        let mut line = Line {
            report: Report::from_list(numbers),
            ..line("a.ogv", 0, "")
        };
        assert_eq!(line.fault(), None);
        numbers[3 + 11] = 2;
        line.report = Report::from_list(numbers);
        line.stream = 2;
        assert_eq!(
            line.fault().unwrap(),
            "a.ogv, stream 2: refused: 2 by 12, a run exceeds the bits still wanted"
        );
    }
}
