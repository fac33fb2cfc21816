//! Recordings: their headers by the library and by the independent
//! implementation, and what libtheora says of them in the text beside each.

use crate::check::{Difference, Tally};
use crate::damage::damage_bit;
use crate::packets;
use crate::random::Random;
use crate::reference::identification::identification;
use crate::reference::session::{Fields, NAMES};
use crate::reference::setup::Setup;
use crate::reference::table_memory::left_by;
use crate::setups;
use crate::tables;
use recording::hash::hash;
use std::collections::BTreeSet;
use std::fs::{self, File};
use std::io::BufReader;
use std::path::Path;

/// How many single-bit changes of each setup header are tried.
const DAMAGES: u64 = 500;

/// How many of them, and of each identification header, are also padded.
const PADDED: u64 = 20;

/// What was compared so far.
struct Run {
    random: Random,
    packets: packets::Report,
    setups: setups::Report,
    tables: Tally,
    /// The setup headers that were met.
    met: BTreeSet<Vec<u8>>,
    /// How many recordings have no text beside them.
    without_text: u64,
}

/// Compares recordings and prints what was compared.
pub fn compare(files: &[String]) -> Result<(), String> {
    let mut run = Run {
        random: Random::new(1),
        packets: packets::Report::new(),
        setups: setups::Report::new(),
        tables: Tally::new(),
        met: BTreeSet::new(),
        without_text: 0,
    };
    for file in files {
        let line = run
            .recording(Path::new(file))
            .map_err(|text| format!("{file}\n{text}"))?;
        println!("{file}: {line}");
    }
    println!(
        "recordings: {}, without a text: {}, different setup headers: {}\n{}{}{}",
        files.len(),
        run.without_text,
        run.met.len(),
        run.packets,
        run.setups,
        run.tables
    );
    Ok(())
}

impl Run {
    /// Compares one recording and says what it is.
    fn recording(&mut self, path: &Path) -> Result<String, String> {
        let file = File::open(path).map_err(|error| error.to_string())?;
        let packets =
            recording::packets(BufReader::new(file)).map_err(|fault| fault.to_string())?;
        let [first, _, third, ..] = &packets[..] else {
            return Err(format!("{} packets only", packets.len()));
        };
        packets::every_cut(&mut self.packets, first).map_err(text)?;
        self.identification_padded(first).map_err(text)?;
        let fields = identification(first).map_err(|fault| format!("{fault:?}"))?;
        let setup = self.setup(third)?;
        let beside = path.with_extension("txt");
        match fs::read_to_string(beside) {
            Ok(said) => compare_text(&said, &fields, &packets)?,
            Err(_) => self.without_text += 1,
        }
        Ok(describe(&packets, &fields, &setup))
    }

    /// Compares a setup header, whole; when it is met first also its table
    /// memory, its limits and matrices, its cuts and damaged copies.
    fn setup(&mut self, packet: &[u8]) -> Result<Setup, String> {
        let read = self.setups.compare_read(packet).map_err(text)?;
        let table = left_by(packet, &read);
        let setup = read.map_err(|fault| format!("{fault:?}"))?;
        if self.met.insert(packet.to_vec()) {
            tables::compare_one(&mut self.random, &mut self.tables, &table).map_err(text)?;
            tables::whole(&mut self.tables, &table).map_err(text)?;
            self.damaged(packet).map_err(text)?;
            self.setups.padded(&mut self.random, packet).map_err(text)?;
        }
        Ok(setup)
    }

    /// Compares an identification header with bytes behind it, whole and with a
    /// bit changed.
    fn identification_padded(&mut self, packet: &[u8]) -> Result<(), Difference> {
        self.packets.padded(&mut self.random, packet)?;
        for _ in 0..PADDED {
            let mut damaged = packet.to_vec();
            damage_bit(&mut self.random, &mut damaged);
            self.packets.padded(&mut self.random, &damaged)?;
        }
        Ok(())
    }

    /// Compares a setup header cut at each length, and with a bit changed.
    fn damaged(&mut self, packet: &[u8]) -> Result<(), Difference> {
        setups::every_cut(&mut self.setups, packet)?;
        for number in 0..DAMAGES {
            let mut damaged = packet.to_vec();
            damage_bit(&mut self.random, &mut damaged);
            self.setups.compare(&damaged)?;
            if number < PADDED {
                self.setups.padded(&mut self.random, &damaged)?;
            }
        }
        Ok(())
    }
}

/// A difference as text.
fn text(difference: Difference) -> String {
    difference.to_string()
}

/// What a recording is.
fn describe(packets: &[Vec<u8>], fields: &Fields, setup: &Setup) -> String {
    let lengths = setup.codes.iter().flatten().map(|code| code.length);
    let ranges: Vec<usize> = setup.ranges.iter().map(|set| set.sizes.len()).collect();
    format!(
        "{} packets, {} by {} macro blocks, format {}, {} base matrices, {ranges:?} ranges, codes to {} bits",
        packets.len(),
        fields.fmbw,
        fields.fmbh,
        fields.pf,
        setup.base_matrices.len(),
        lengths.max().unwrap_or(0)
    )
}

/// Compares the packets and the fields with what libtheora says of them.
fn compare_text(said: &str, fields: &Fields, packets: &[Vec<u8>]) -> Result<(), String> {
    let lines: BTreeSet<&str> = said.lines().collect();
    let expect = |line: String| match lines.contains(&line[..]) {
        true => Ok(()),
        false => Err(format!("libtheora does not say: {line}")),
    };
    for (name, number) in NAMES.iter().zip(fields.numbers()) {
        expect(format!("{name} {number}"))?;
    }
    for (number, packet) in packets.iter().enumerate() {
        let hash = hash(packet);
        expect(format!("packet {number} {} {hash:016x}", packet.len()))?;
    }
    let there = lines.iter().filter(|line| line.starts_with("packet "));
    match there.count() {
        count if count == packets.len() => Ok(()),
        count => Err(format!("libtheora has {count} packets")),
    }
}

#[cfg(test)]
mod tests {
    use super::*;

    #[test]
    fn a_text_must_say_all() {
        let fields = Fields::default();
        let mut said: String = NAMES.iter().map(|name| format!("{name} 0\n")).collect();
        let packets = [b"foobar".to_vec()];
        assert!(compare_text(&said, &fields, &packets).is_err());
        said.push_str("packet 0 6 85944171f73967e8\n");
        assert_eq!(compare_text(&said, &fields, &packets), Ok(()));
        said.push_str("packet 1 0 cbf29ce484222325\n");
        assert!(compare_text(&said, &fields, &packets).is_err());
        let other = Fields { pf: 3, ..fields };
        assert!(compare_text(&said, &other, &packets).is_err());
    }

    #[test]
    fn what_is_no_recording_is_said() {
        let files = ["no-such-file.ogv".to_string()];
        assert!(compare(&files).is_err());
    }
}
