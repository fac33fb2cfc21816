//! `wedgepetal y4m check`: what a stream of frames holds, by the library's
//! proved reader; and in words what is wrong where that refuses.

use crate::json::Json;
use std::fmt;
use wedgepetal::{Film, Refusal};

/// What the proved reader says of a stream, with words where it refuses.
pub struct Checked {
    answer: Result<Film, Refusal>,
    fault: Option<Fault>,
}

/// What is wrong with a stream.
#[derive(Debug, PartialEq, Eq)]
pub struct Fault {
    /// The byte at which it shows, from 0.
    pub place: u64,
    what: String,
}

impl fmt::Display for Fault {
    fn fmt(&self, f: &mut fmt::Formatter<'_>) -> fmt::Result {
        write!(f, "at byte {}: {}", self.place, self.what)
    }
}

/// Checks a stream. The proved reader decides; words are looked for if it
/// refuses.
pub fn check(stream: &[u8]) -> Checked {
    let answer = Film::of(stream);
    Checked {
        answer,
        fault: answer.err().and_then(|_| fault(stream)),
    }
}

impl Checked {
    /// Whether it is a stream.
    pub fn is_clean(&self) -> bool {
        self.answer.is_ok()
    }

    /// In words, of a file of this name.
    pub fn text(&self, name: &str) -> String {
        match self.answer {
            Ok(film) => format!("{name}: {}\n", said(&film)),
            Err(_) => self.faults(name),
        }
    }

    /// What is wrong.
    pub fn faults(&self, name: &str) -> String {
        match (self.answer, &self.fault) {
            (Ok(_), _) => String::new(),
            (Err(refusal), Some(fault)) => format!("{name}: {refusal}: {fault}\n"),
            (Err(refusal), None) => format!("{name}: {refusal}\n"),
        }
    }

    /// As JSON.
    pub fn json(&self, name: &str) -> Json {
        let mut fields = vec![
            ("file", Json::text(name)),
            ("clean", Json::Bool(self.is_clean())),
        ];
        match self.answer {
            Ok(film) => fields.extend([
                ("width", Json::Number(film.width)),
                ("height", Json::Number(film.height)),
                ("frn", Json::Number(film.frn)),
                ("frd", Json::Number(film.frd)),
                ("parn", Json::Number(film.parn)),
                ("pard", Json::Number(film.pard)),
                ("pf", Json::Number(film.pf)),
                ("frames", Json::Number(film.frames)),
            ]),
            Err(refusal) => {
                fields.push(("refusal", Json::Number(refusal.number.into())));
                fields.push(("meaning", Json::text(refusal.meaning())));
                if let Some(fault) = &self.fault {
                    fields.push(("byte", Json::Number(fault.place)));
                    fields.push(("fault", Json::text(&fault.what)));
                }
            }
        }
        Json::Object(fields)
    }
}

/// What a stream holds, in words.
fn said(film: &Film) -> String {
    let format = match film.pf {
        0 => "4:2:0",
        2 => "4:2:2",
        _ => "4:4:4",
    };
    let aspect = match film.parn {
        0 => "unknown".to_string(),
        parn => format!("{parn}:{}", film.pard),
    };
    format!(
        "{} frames of {} x {} samples ({format}), {}/{} a second, samples {aspect}",
        film.frames, film.width, film.height, film.frn, film.frd
    )
}

/// What stands at the beginning of these bytes, cut to a few.
fn stands(bytes: &[u8]) -> String {
    const MOST: usize = 24;
    let line = bytes.split_inclusive(|byte| *byte == b'\n').next();
    let line = line.unwrap_or_default();
    match line.len() {
        0 => "the end".to_string(),
        1..=MOST => format!("\"{}\"", line.escape_ascii()),
        _ => format!("\"{}\" ..", line[..MOST].escape_ascii()),
    }
}

/// A stream whose beginning is read.
struct Reader<'a> {
    stream: &'a [u8],
    at: usize,
}

/// A part of the first line: what stands before a number, from which number to
/// which.
type Part = (&'static str, u64, u64);

/// The numbers of the first line: sizes, rate and aspect.
const PARTS: [Part; 6] = [
    ("YUV4MPEG2 W", 16, 1_048_560),
    (" H", 16, 1_048_560),
    (" F", 1, u32::MAX as u64),
    (":", 1, u32::MAX as u64),
    (" Ip A", 0, 0xff_ffff),
    (":", 0, 0xff_ffff),
];

/// What is wrong with a stream, if something is. This reads the stream a second
/// time, from left to right; what the proved reader says does not depend on it.
pub fn fault(stream: &[u8]) -> Option<Fault> {
    let mut reader = Reader { stream, at: 0 };
    reader.header().and_then(|frame| reader.frames(frame)).err()
}

impl Reader<'_> {
    /// What is wrong at a place: what stands there, and what may.
    fn fault(&self, at: usize, may: impl fmt::Display) -> Fault {
        let stands = stands(&self.stream[at.min(self.stream.len())..]);
        let what = format!("{stands} stands there; {may} may");
        let place = at as u64;
        Fault { place, what }
    }

    /// Goes on behind this text.
    fn text(&mut self, text: &str) -> Result<(), Fault> {
        match self.stream[self.at..].starts_with(text.as_bytes()) {
            true => {
                self.at += text.len();
                Ok(())
            }
            false => Err(self.fault(self.at, format!("\"{}\"", text.escape_debug()))),
        }
    }

    /// Goes on behind a number in this range.
    fn number(&mut self, (name, low, high): Part) -> Result<u64, Fault> {
        self.text(name)?;
        let rest = &self.stream[self.at..];
        let length = rest.iter().take_while(|byte| byte.is_ascii_digit()).count();
        let digits = std::str::from_utf8(&rest[..length]).unwrap_or_default();
        let number = match digits.len() == 1 || !digits.starts_with('0') {
            true => digits.parse().ok(),
            false => None,
        };
        match number.filter(|number| (low..=high).contains(number)) {
            Some(number) => {
                self.at += length;
                Ok(number)
            }
            None => {
                let may = format!("a number from {low} to {high} without leading zeros");
                Err(self.fault(self.at, may))
            }
        }
    }

    /// Reads the first line; how many bytes the planes of a frame have.
    fn header(&mut self) -> Result<u64, Fault> {
        let mut numbers = [0; 6];
        let mut places = [0; 6];
        for (i, part) in PARTS.into_iter().enumerate() {
            places[i] = self.at + part.0.len();
            numbers[i] = self.number(part)?;
            if i < 2 && numbers[i] % 16 != 0 {
                return Err(self.fault(places[i], "a multiple of 16"));
            }
        }
        let [width, height, .., across, up] = numbers;
        if (across == 0) != (up == 0) {
            let may = "two numbers above 0, or 0:0,";
            return Err(self.fault(places[4], may));
        }
        let luma = width * height;
        for (name, bytes) in [
            (" C420jpeg\n", luma + luma / 2),
            (" C422\n", 2 * luma),
            (" C444\n", 3 * luma),
        ] {
            if self.text(name).is_ok() {
                return Ok(bytes);
            }
        }
        let may = "\" C420jpeg\", \" C422\" or \" C444\" and a line feed";
        Err(self.fault(self.at, may))
    }

    /// Reads the frames, of so many bytes each.
    fn frames(&mut self, bytes: u64) -> Result<(), Fault> {
        let mut number = 0;
        while self.at < self.stream.len() {
            self.text("FRAME\n").map_err(|fault| Fault {
                what: format!("before frame {number}, {}", fault.what),
                ..fault
            })?;
            let left = (self.stream.len() - self.at) as u64;
            if left < bytes {
                return Err(Fault {
                    place: self.stream.len() as u64,
                    what: format!(
                        "the end, {} bytes before that of frame {number}",
                        bytes - left
                    ),
                });
            }
            self.at += bytes as usize;
            number += 1;
        }
        Ok(())
    }
}

#[cfg(test)]
mod tests {
    use super::*;
    use wedgepetal::Session;

    /// A stream of so many frames.
    fn stream(pf: u64, frames: usize) -> Vec<u8> {
        let header = crate::sample::identification_header();
        let session = Session {
            fmbw: 1,
            fmbh: 2,
            picw: 16,
            pich: 32,
            picx: 0,
            picy: 0,
            pf,
            ..wedgepetal::identification(&header).unwrap()
        };
        let buffer = session.sizes().unwrap().buffer as usize;
        let planes: Vec<u8> = (0..buffer * frames).map(|i| i as u8).collect();
        let mut stream = vec![0; 100 + (buffer + 6) * frames];
        let bytes = session.film(&planes, &mut stream).unwrap();
        stream.truncate(bytes as usize);
        stream
    }

    /// Words are there exactly where the proved reader refuses.
    fn agrees(stream: &[u8]) {
        let words = fault(stream);
        assert_eq!(words.is_some(), Film::of(stream).is_err(), "{words:?}");
    }

    #[test]
    fn words_wherever_the_proved_reader_refuses() {
        for (pf, frames) in [(0, 0), (2, 1), (3, 2)] {
            let sound = stream(pf, frames);
            agrees(&sound);
            let line = sound.iter().position(|byte| *byte == b'\n').unwrap() + 1;
            for at in 0..sound.len().min(line + 8) {
                for byte in 0..=255 {
                    let mut changed = sound.clone();
                    changed[at] = byte;
                    agrees(&changed);
                    changed.insert(at, byte);
                    agrees(&changed);
                }
            }
            for at in 0..sound.len() {
                agrees(&sound[..at]);
                let mut cut = sound.clone();
                cut.remove(at);
                agrees(&cut);
            }
            for more in [&b"F"[..], b"FRAME\n", b"\n", &sound, &sound[line..]] {
                agrees(&[&sound[..], more].concat());
            }
        }
    }

    #[test]
    fn numbers_at_their_ends() {
        let header = |text: String| format!("YUV4MPEG2 {text}\n").into_bytes();
        let numbers = [
            0,
            1,
            15,
            16,
            17,
            1_048_560,
            1_048_576,
            16_777_215,
            16_777_216,
            4_294_967_295,
            4_294_967_296,
            10_000_000_000,
            u64::MAX,
        ];
        for n in numbers {
            for m in numbers {
                agrees(&header(format!("W{n} H{m} F25:1 Ip A0:0 C444")));
                agrees(&header(format!("W16 H16 F{n}:{m} Ip A0:0 C422")));
                agrees(&header(format!("W16 H16 F25:1 Ip A{n}:{m} C420jpeg")));
            }
        }
    }

    #[test]
    fn faults_in_words() {
        let sound = stream(0, 2);
        let said = |stream: &[u8]| check(stream).text("x");
        assert_eq!(
            said(&sound),
            "x: 2 frames of 16 x 32 samples (4:2:0), 25/1 a second, samples 1:1\n"
        );
        let refused = "x: refused by 21, the stream is none that the writer of frames writes: ";
        let text = String::from_utf8_lossy(&sound[..40]).replace("H32", "H032");
        assert_eq!(
            said(text.as_bytes()),
            format!(
                "{refused}at byte 15: \"032 F25:1 Ip A1:1 C420jp\" .. stands there; \
                 a number from 16 to 1048560 without leading zeros may\n"
            )
        );
        assert_eq!(
            said(&sound[..sound.len() - 5]),
            format!(
                "{refused}at byte {}: the end, 5 bytes before that of frame 1\n",
                sound.len() - 5
            )
        );
        let ffmpeg = [&sound[..40], b" XYSCSS=420JPEG\n"].concat();
        let said = said(&ffmpeg);
        assert!(
            said.contains("at byte 31: \" C420jpeg XYSCSS=420JPEG\" .. stands there; "),
            "{said}"
        );
        let json = check(&sound).json("x").to_string();
        assert!(json.ends_with("\"pf\": 0, \"frames\": 2}"), "{json}");
    }
}
