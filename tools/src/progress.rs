//! How far a long work has come, on the standard error: a line that is written
//! anew on a terminal, a line now and then elsewhere.

use std::cell::Cell;
use std::io::{self, IsTerminal, Read, Write};
use std::rc::Rc;
use std::time::{Duration, Instant};

/// How often the line is written on a terminal, and elsewhere.
const ON_TERMINAL: Duration = Duration::from_millis(200);
const IN_LOG: Duration = Duration::from_secs(30);

/// Says how far the work has come.
pub struct Progress {
    quiet: bool,
    terminal: bool,
    /// How many bytes of the recording were read, of how many if that is known.
    read: Rc<Cell<u64>>,
    total: Option<u64>,
    began: Instant,
    last: Instant,
}

impl Progress {
    /// Begins a work on so many bytes. If it is quiet, only faults are said.
    pub fn new(quiet: bool, total: Option<u64>) -> Progress {
        let now = Instant::now();
        Progress {
            quiet,
            terminal: io::stderr().is_terminal(),
            read: Rc::default(),
            total,
            began: now,
            last: now,
        }
    }

    /// Where the bytes that are read are counted.
    pub fn bytes(&self) -> Rc<Cell<u64>> {
        Rc::clone(&self.read)
    }

    /// A packet is done.
    pub fn packet(&mut self, number: u64) {
        let often = match self.terminal {
            true => ON_TERMINAL,
            false => IN_LOG,
        };
        if self.quiet || self.last.elapsed() < often {
            return;
        }
        self.last = Instant::now();
        let text = line(number, self.began.elapsed(), self.read.get(), self.total);
        match self.terminal {
            true => self.write(&format!("\r{text}\x1b[K")),
            false => self.write(&format!("{text}\n")),
        }
    }

    /// Says something on the standard error, on a line of its own.
    pub fn say(&self, text: &str) {
        self.clear();
        self.write(&format!("wedgepetal: {text}\n"));
    }

    /// Takes the line away.
    pub fn clear(&self) {
        if self.terminal && !self.quiet {
            self.write("\r\x1b[K");
        }
    }

    /// Writes to the standard error. Whoever closed it does not want to know.
    fn write(&self, text: &str) {
        let _ = io::stderr().write_all(text.as_bytes());
    }
}

/// The text of the line.
fn line(number: u64, time: Duration, read: u64, total: Option<u64>) -> String {
    let seconds = time.as_secs_f64().max(1e-9);
    let speed = number as f64 / seconds;
    match total {
        Some(total) if read > 0 => {
            let part = (read as f64 / total as f64).min(1.0);
            let left = Duration::from_secs_f64(seconds * (1.0 - part) / part);
            format!(
                "packet {number}, {:.0} %, {speed:.0} a second, {} left",
                100.0 * part,
                clock(left)
            )
        }
        _ => format!("packet {number}, {speed:.0} a second"),
    }
}

/// A time as minutes and seconds, or hours and minutes.
pub fn clock(time: Duration) -> String {
    let seconds = time.as_secs();
    match seconds {
        0..3600 => format!("{} min {:02} s", seconds / 60, seconds % 60),
        _ => format!("{} h {:02} min", seconds / 3600, seconds / 60 % 60),
    }
}

/// A reader that counts its bytes.
pub struct Counted<R> {
    reader: R,
    count: Rc<Cell<u64>>,
}

impl<R> Counted<R> {
    /// Counts what is read from now on.
    pub fn new(reader: R, count: Rc<Cell<u64>>) -> Counted<R> {
        Counted { reader, count }
    }
}

impl<R: Read> Read for Counted<R> {
    fn read(&mut self, buffer: &mut [u8]) -> io::Result<usize> {
        let got = self.reader.read(buffer)?;
        self.count.set(self.count.get() + got as u64);
        Ok(got)
    }
}

#[cfg(test)]
mod tests {
    use super::*;

    #[test]
    fn bytes_are_counted() {
        let progress = Progress::new(true, Some(5));
        let mut reader = Counted::new(&b"abcde"[..], progress.bytes());
        let mut first = [0; 2];
        reader.read_exact(&mut first).unwrap();
        assert_eq!(progress.read.get(), 2);
    }

    #[test]
    fn lines() {
        let time = Duration::from_secs(50);
        assert_eq!(
            line(100, time, 1, Some(4)),
            "packet 100, 25 %, 2 a second, 2 min 30 s left"
        );
        assert_eq!(line(100, time, 1, None), "packet 100, 2 a second");
        assert_eq!(clock(Duration::from_secs(7260)), "2 h 01 min");
    }
}
