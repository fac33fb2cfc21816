//! `wedgepetal settings`: the settings of the scoring scripts, written and read
//! by the library's proved calls; and in words what is wrong where these refuse.

use crate::json::Json;
use std::fmt;
use wedgepetal::{Refusal, Settings};

/// What the proved reader says of a text, with words where it refuses.
pub struct Checked {
    answer: Result<Settings, Refusal>,
    /// The version of an accepted text.
    version: u64,
    fault: Option<Fault>,
}

/// What is wrong with a text.
#[derive(Debug, PartialEq, Eq)]
pub struct Fault {
    /// The number that goes with it.
    number: u32,
    /// The line, from 1; 0 if no line is at fault.
    line: u64,
    what: String,
}

impl fmt::Display for Fault {
    fn fmt(&self, f: &mut fmt::Formatter<'_>) -> fmt::Result {
        match self.line {
            0 => write!(f, "{}", self.what),
            line => write!(f, "line {line}: {}", self.what),
        }
    }
}

/// Checks a text as the reader for a version does. The proved reader decides;
/// words are looked for if it refuses.
pub fn check(version: u64, text: &[u8]) -> Checked {
    let answer = Settings::read(version, text);
    Checked {
        answer,
        version: 1 + u64::from(text.starts_with(b"version=2")),
        fault: answer.err().and_then(|_| fault(version, text)),
    }
}

impl Checked {
    /// Whether the text is accepted.
    pub fn is_clean(&self) -> bool {
        self.answer.is_ok()
    }

    /// The settings.
    ///
    /// # Errors
    ///
    /// They are refused; [`Checked::faults`] has the words.
    pub fn settings(&self) -> Result<Settings, Refusal> {
        self.answer
    }

    /// In words, of a file of this name.
    pub fn text(&self, name: &str) -> String {
        match self.answer {
            Ok(s) => format!(
                "{name}: version {}, tile {}, shots {} to {}, plane {}\n",
                self.version, s.tile, s.shot_first, s.shot_last, s.plane
            ),
            Err(_) => self.faults(name),
        }
    }

    /// What is wrong.
    pub fn faults(&self, name: &str) -> String {
        match (self.answer, &self.fault) {
            (Ok(_), _) => String::new(),
            (Err(refusal), Some(fault)) => format!("{name}: {}: {fault}\n", by(refusal)),
            (Err(refusal), None) => format!("{name}: {refusal}\n"),
        }
    }

    /// As JSON.
    pub fn json(&self, name: &str) -> Json {
        let mut fields = vec![
            ("file", Json::text(name)),
            ("clean", Json::Bool(self.is_clean())),
        ];
        match self.answer {
            Ok(settings) => fields.extend([
                ("version", Json::Number(self.version)),
                ("tile", Json::Number(settings.tile)),
                ("shot_first", Json::Number(settings.shot_first)),
                ("shot_last", Json::Number(settings.shot_last)),
                ("plane", Json::Number(settings.plane)),
            ]),
            Err(refusal) => {
                fields.push(("refusal", Json::Number(refusal.number.into())));
                fields.push(("meaning", Json::text(refusal.meaning())));
                if let Some(fault) = &self.fault {
                    fields.push(("line", Json::Number(fault.line)));
                    fields.push(("fault", Json::text(&fault.what)));
                }
            }
        }
        Json::Object(fields)
    }
}

/// A refusal by its number alone, where words follow.
fn by(refusal: Refusal) -> String {
    format!("refused by {}", refusal.number)
}

/// The text of settings in a version, or why there is none, in words.
pub fn text(version: u64, settings: &Settings) -> Result<String, String> {
    settings.text(version).map_err(|refusal| {
        let why = unfit(version, settings).unwrap_or_else(|| refusal.meaning().to_string());
        format!("{}: {why}", by(refusal))
    })
}

/// The last shot that there may be.
const LAST_SHOT: u64 = 999_999;

/// Why settings have no text in a version, if they have none.
fn unfit(version: u64, settings: &Settings) -> Option<String> {
    let Settings {
        tile,
        shot_first,
        shot_last,
        plane,
    } = *settings;
    match (version, plane) {
        _ if ![8, 16, 32].contains(&tile) => Some(format!("tile {tile}; 8, 16 or 32 may be")),
        _ if shot_last > LAST_SHOT => {
            Some(format!("shot_last {shot_last}; 0 to {LAST_SHOT} may be"))
        }
        _ if shot_first > shot_last => Some(format!(
            "shot_first {shot_first}; 0 to shot_last, {shot_last}, may be"
        )),
        (_, 3..) => Some(format!("plane {plane}; 0 to 2 may be")),
        (1, 1..) => Some(format!("plane {plane}; version 1 holds plane 0 alone")),
        (1 | 2, _) => None,
        _ => Some(no_version(version)),
    }
}

fn no_version(version: u64) -> String {
    format!("there is no version {version}; 1 and 2 are")
}

/// What is wrong with a text for the reader of a version, if something is. It
/// goes line by line; what the proved reader says does not depend on it.
pub fn fault(version: u64, text: &[u8]) -> Option<Fault> {
    let fault = |number, line, what| Some(Fault { number, line, what });
    if version != 1 && version != 2 {
        return fault(20, 0, no_version(version));
    }
    if version == 1 && text.starts_with(b"version=2\n") {
        let what = "\"version=2\" stands there; a reader for version 1 takes version=1 alone";
        return fault(19, 1, what.to_string());
    }
    lines(version, text).err().map(|(line, what)| Fault {
        number: 20,
        line,
        what,
    })
}

/// A line at fault, and what is wrong.
type Wrong = (u64, String);

/// What may stand behind a key.
enum May {
    /// One of these numbers.
    OneOf(&'static [u64]),
    /// A number up to this one.
    UpTo(u64),
}

/// Goes through the lines.
fn lines(version: u64, text: &[u8]) -> Result<(), Wrong> {
    let mut lines = (1..).zip(text.split_inclusive(|byte| *byte == b'\n'));
    let versions: &[u64] = if version == 1 { &[1] } else { &[1, 2] };
    let mut next = |number, key, may| value(number, lines.next(), key, &may);
    let said = next(1, "version=", May::OneOf(versions))?;
    next(2, "tile=", May::OneOf(&[8, 16, 32]))?;
    let first = next(3, "shot_first=", May::UpTo(LAST_SHOT))?;
    let last = next(4, "shot_last=", May::UpTo(LAST_SHOT))?;
    if first > last {
        let what = format!("shot_first={first} is behind shot_last={last}; 0 to {last} may be");
        return Err((3, what));
    }
    if said == 2 {
        next(5, "plane=", May::UpTo(2))?;
    }
    match lines.next() {
        Some((number, line)) => Err((number, format!("{} stands there; nothing may", shown(line)))),
        None => Ok(()),
    }
}

/// The number on a line, if it is the line that should stand here.
fn value(number: u64, line: Option<(u64, &[u8])>, key: &str, may: &May) -> Result<u64, Wrong> {
    let wrong = |what: &str| Err((number, format!("{what}; {} may", may.said(key))));
    let Some((_, line)) = line else {
        return wrong("the end stands there");
    };
    let content = line.strip_suffix(b"\n").unwrap_or(line);
    let found = content
        .strip_prefix(key.as_bytes())
        .and_then(plain)
        .filter(|found| may.holds(*found));
    match found {
        None => wrong(&format!("{} stands there", shown(line))),
        Some(_) if content.len() == line.len() => Err((
            number,
            format!("{} stands there; a line feed must follow it", shown(line)),
        )),
        Some(found) => Ok(found),
    }
}

/// A number without leading zeros.
fn plain(digits: &[u8]) -> Option<u64> {
    let text = std::str::from_utf8(digits).ok()?;
    let number: u64 = text.parse().ok()?;
    (number.to_string() == text).then_some(number)
}

impl May {
    fn holds(&self, number: u64) -> bool {
        match self {
            May::OneOf(numbers) => numbers.contains(&number),
            May::UpTo(most) => number <= *most,
        }
    }

    /// In words, behind a key.
    fn said(&self, key: &str) -> String {
        match self {
            May::OneOf(numbers) => {
                let texts: Vec<String> = numbers.iter().map(|n| format!("{key}{n}")).collect();
                texts.join(" or ")
            }
            May::UpTo(most) => format!("{key}0 to {key}{most}, without leading zeros,"),
        }
    }
}

/// A line as it stands there, cut to some letters.
fn shown(line: &[u8]) -> String {
    const MOST: usize = 32;
    let line = match line.strip_suffix(b"\n") {
        Some(b"") | None => line,
        Some(content) => content,
    };
    match line.len() {
        0..=MOST => format!("\"{}\"", line.escape_ascii()),
        _ => format!("\"{}\" ..", line[..MOST].escape_ascii()),
    }
}

#[cfg(test)]
mod tests {
    use super::*;

    const SETTINGS: [[u64; 4]; 7] = [
        [8, 0, 9, 0],
        [16, 3, 3, 1],
        [32, 999_999, 999_999, 2],
        [8, 10, 100, 0],
        [16, 0, 0, 0],
        [32, 5, 40_000, 1],
        [32, 7, 7, 0],
    ];

    fn settings([tile, shot_first, shot_last, plane]: [u64; 4]) -> Settings {
        Settings {
            tile,
            shot_first,
            shot_last,
            plane,
        }
    }

    /// Thirteen texts: all above in each version that holds them, and two that
    /// are wrong.
    fn texts() -> Vec<Vec<u8>> {
        let mut texts: Vec<Vec<u8>> = [1, 2]
            .iter()
            .flat_map(|version| SETTINGS.map(|numbers| settings(numbers).text(*version)))
            .filter_map(|text| Some(text.ok()?.into_bytes()))
            .collect();
        texts.push(b"version=2\n".to_vec());
        texts.push(b"version=1\ntile=8\nshot_first=10\nshot_last=9\n".to_vec());
        texts
    }

    /// Words are there exactly where the proved reader refuses, and for its
    /// number.
    fn agrees(text: &[u8]) {
        for version in 0..=3 {
            let words = fault(version, text);
            let number = Settings::read(version, text).err().map(|why| why.number);
            assert_eq!(
                words.as_ref().map(|fault| fault.number),
                number,
                "{words:?}"
            );
        }
    }

    #[test]
    fn words_wherever_the_proved_reader_refuses() {
        for text in texts() {
            agrees(&text);
            for at in 0..=text.len() {
                agrees(&text[..at]);
                for byte in 0..=255 {
                    let mut changed = text.clone();
                    changed.insert(at, byte);
                    agrees(&changed);
                    changed.remove((at + 1).min(text.len()));
                    agrees(&changed);
                }
            }
        }
    }

    #[test]
    fn words_wherever_the_proved_writer_refuses() {
        let numbers = [
            0,
            1,
            2,
            3,
            7,
            8,
            9,
            16,
            32,
            33,
            999_999,
            1_000_000,
            u64::MAX,
        ];
        for tile in numbers {
            for shot_first in numbers {
                for shot_last in numbers {
                    for plane in numbers {
                        let s = settings([tile, shot_first, shot_last, plane]);
                        for version in [0, 1, 2, 3, u64::MAX] {
                            let why = unfit(version, &s);
                            assert_eq!(why.is_some(), s.text(version).is_err(), "{why:?}");
                        }
                    }
                }
            }
        }
    }

    #[test]
    fn faults_in_words() {
        let said = |version, text: &str| check(version, text.as_bytes()).text("x");
        let sound = "version=2\ntile=16\nshot_first=3\nshot_last=9\nplane=1\n";
        assert_eq!(
            said(2, sound),
            "x: version 2, tile 16, shots 3 to 9, plane 1\n"
        );
        assert_eq!(
            said(1, sound),
            "x: refused by 19: line 1: \"version=2\" stands there; \
             a reader for version 1 takes version=1 alone\n"
        );
        for (from, to, words) in [
            (
                "16",
                "08",
                "line 2: \"tile=08\" stands there; tile=8 or tile=16 or tile=32 may",
            ),
            (
                "=3\n",
                "=10\n",
                "line 3: shot_first=10 is behind shot_last=9; 0 to 9 may be",
            ),
            (
                "=9\n",
                "=9\r\n",
                "line 4: \"shot_last=9\\r\" stands there; shot_last=0 to shot_last=999999, without leading zeros, may",
            ),
            (
                "plane=1\n",
                "plane=1",
                "line 5: \"plane=1\" stands there; a line feed must follow it",
            ),
            (
                "plane=1\n",
                "",
                "line 5: the end stands there; plane=0 to plane=2, without leading zeros, may",
            ),
            (
                "=1\n",
                "=1\n\n",
                "line 6: \"\\n\" stands there; nothing may",
            ),
        ] {
            let text = said(2, &sound.replace(from, to));
            assert_eq!(text, format!("x: refused by 20: {words}\n"));
        }
        assert_eq!(
            said(3, sound),
            "x: refused by 20: there is no version 3; 1 and 2 are\n"
        );
        let json = check(2, b"").json("x").to_string();
        assert!(
            json.contains("\"refusal\": 20, ") && json.contains("\"line\": 1, "),
            "{json}"
        );
        let text = text(1, &settings([8, 0, 9, 1]));
        assert_eq!(
            text,
            Err("refused by 20: plane 1; version 1 holds plane 0 alone".to_string())
        );
    }
}
