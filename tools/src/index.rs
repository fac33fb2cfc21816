//! A table of all packets, as CSV.

use crate::clock::Time;
use crate::output::{Answer, kind_name, qi_list};
use crate::target::Target;
use std::path::Path;

/// The names of the columns.
const COLUMNS: &str =
    "stream,packet,frame,kind,qi,tokens,key_frame,since,refusal,bit,meaning,time_s\n";

/// A line for each packet and each gap.
pub struct Index(Target);

impl Index {
    /// Plans a table.
    ///
    /// # Errors
    ///
    /// A file is there already and may not be replaced.
    pub fn plan(path: &Path, force: bool) -> Result<Index, String> {
        Target::plan(path, force).map(Index)
    }

    /// The packets of a stream follow.
    pub fn begin(&mut self) -> Result<(), String> {
        if self.0.is_planned() {
            self.0.open()?;
            self.0.write(|out| out.write_all(COLUMNS.as_bytes()))?;
        }
        Ok(())
    }

    /// The line of a packet. It may be left out behind a gap.
    pub fn packet(
        &mut self,
        stream: u64,
        answer: &Answer<'_>,
        left_out: bool,
        time: Time,
    ) -> Result<(), String> {
        let packet = answer.packet;
        let line = match answer.answer {
            Ok(accepted) => {
                let (number, kind) = (answer.number, kind_name(accepted.kind));
                let (qis, tokens) = (qi_list(&accepted, " "), accepted.tokens);
                let session = answer.player.session();
                let place = format!("{},{}", session.key_frames, session.others);
                format!("{stream},{packet},{number},{kind},{qis},{tokens},{place},,,,{time}\n")
            }
            Err(refusal) => {
                let kind = if left_out { "left out" } else { "refused" };
                let (number, bit) = (refusal.number, refusal.place);
                let meaning = quoted(refusal.meaning());
                format!("{stream},{packet},,{kind},,,,,{number},{bit},{meaning},{time}\n")
            }
        };
        self.0.write(|out| out.write_all(line.as_bytes()))
    }

    /// The line of a gap, between two packets.
    pub fn gap(&mut self, stream: u64, what: &str, time: Time) -> Result<(), String> {
        let line = format!("{stream},,,gap,,,,,,,{},{time}\n", quoted(what));
        self.0.write(|out| out.write_all(line.as_bytes()))
    }

    /// Writes what is still held back.
    pub fn flush(&mut self) -> Result<(), String> {
        self.0.flush()
    }

    /// All is written: it takes its own name.
    pub fn finish(&mut self) -> Result<(), String> {
        self.0.finish()
    }
}

/// A text as CSV has it.
pub fn quoted(text: &str) -> String {
    format!("\"{}\"", text.replace('"', "\"\""))
}

#[cfg(test)]
mod tests {
    use super::*;

    #[test]
    fn texts_are_quoted() {
        assert_eq!(quoted("a \"b\", c"), "\"a \"\"b\"\", c\"");
    }
}
