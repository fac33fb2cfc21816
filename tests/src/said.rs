//! What the independent implementation alone says of recordings, packet by
//! packet, in the words of the program `crates/play`: what `tests/streams/store`
//! holds that program to.

use crate::reference::bits::Fault;
use crate::reference::decode::{Lent, frame_call};
use crate::reference::frame::Kind;
use crate::reference::identification::identification;
use crate::reference::samples::ways::Way;
use crate::reference::session::Session;
use crate::reference::setup::setup;
use crate::reference::sizes::sizes;
use crate::reference::table_face::Table;
use crate::reference::table_memory::left_by;
use crate::reference::work_memory;
use recording::hash::hash;
use std::fs::File;
use std::io::BufReader;
use std::path::Path;

/// Prints what is said of each recording.
pub fn say(files: &[String]) -> Result<(), String> {
    for file in files {
        let path = Path::new(file);
        let text = File::open(path)
            .map_err(|error| error.to_string())
            .and_then(|file| {
                recording::packets(BufReader::new(file)).map_err(|fault| fault.to_string())
            })
            .and_then(|packets| lines(&packets))
            .map_err(|text| format!("{file}\n{text}"))?;
        let name = path.file_name().unwrap_or_default();
        print!("{}\n{text}", name.to_string_lossy());
    }
    Ok(())
}

/// A line for each packet but the comment header; that of a frame ends with the
/// number of its tokens. A recording whose first
/// header is refused says nothing more.
fn lines(packets: &[Vec<u8>]) -> Result<String, String> {
    let [first, _, third, frames @ ..] = packets else {
        return Err(format!("{} packets only", packets.len()));
    };
    let fields = match identification(first) {
        Ok(fields) => fields,
        Err(fault) => return Ok(format!("header 0 {}\n", refused(fault))),
    };
    let read = setup(third);
    let second = match &read {
        Ok(_) => "accepted".to_string(),
        Err(fault) => refused(fault.fault),
    };
    let mut text = format!("header 0 accepted\nheader 2 {second}\n");
    let table = Table::read(&left_by(third, &read));
    let sizes = sizes(&fields);
    let (mut golden, mut previous) = (
        vec![0; sizes.buffer as usize],
        vec![0; sizes.buffer as usize],
    );
    let mut session = Session::fresh(fields);
    for (number, packet) in (3..).zip(frames) {
        let mut new = vec![0; sizes.buffer as usize];
        let lent = Lent {
            table: &table,
            work: work_memory::lengths(&sizes),
            golden: &golden,
            previous: &previous,
        };
        let outcome = frame_call(&session, packet, lent, Way::First, &mut new);
        session = outcome.session;
        let said = match outcome.answer {
            Err(fault) => refused(fault),
            Ok(accepted) => {
                if accepted.kind == Kind::Intra {
                    golden.copy_from_slice(&new);
                }
                previous = new;
                let said = frame(accepted.kind, &accepted.qis, &previous);
                format!("{said} {}", accepted.tokens)
            }
        };
        text += &format!("frame {number} {said}\n");
    }
    Ok(text)
}

/// A refusal with its number and bit place.
fn refused(fault: Fault) -> String {
    format!("refused {} at {}", fault.number, fault.place)
}

/// A frame: its kind, its qi list and the hash of its planes.
pub fn frame(kind: Kind, qis: &[usize], planes: &[u8]) -> String {
    let kind = match kind {
        Kind::Intra => "intra",
        Kind::Inter => "inter",
        Kind::Repeat => "repeat",
    };
    let qis: Vec<String> = qis.iter().map(usize::to_string).collect();
    let qis = match qis.is_empty() {
        true => "-".to_string(),
        false => qis.join(","),
    };
    format!("{kind} {qis} {:016x}", hash(planes))
}

#[cfg(test)]
mod tests {
    use super::*;
    use crate::packets::{COMMENT_HEADER, header_of};
    use crate::reference::session::Fields;
    use crate::reference::setup::tests::small;

    #[test]
    fn a_line_for_each_packet() {
        let header = header_of(&Fields {
            kfgshift: 1,
            ..Fields::of_frame(1, 1, 0)
        });
        // Token 0 ends each block at position 0.
        let intra = vec![63, 0, 0, 0];
        let packets = [
            header.clone(),
            COMMENT_HEADER.to_vec(),
            small().bytes().to_vec(),
            vec![0x40],
            intra.clone(),
            Vec::new(),
            intra[..1].to_vec(),
            Vec::new(),
        ];
        let grey = hash(&[128; 384]);
        let expected = format!(
            "header 0 accepted\nheader 2 accepted\nframe 3 refused 9 at 1\n\
             frame 4 intra 63 {grey:016x} 6\nframe 5 repeat - {grey:016x} 0\nframe 6 refused 4 at 8\n\
             frame 7 refused 17 at 0\n"
        );
        assert_eq!(lines(&packets), Ok(expected));
        let cut = [header[..41].to_vec(), Vec::new(), Vec::new()];
        assert_eq!(lines(&cut), Ok("header 0 refused 4 at 326\n".to_string()));
        let no_setup = [header, Vec::new(), Vec::new(), intra];
        let expected = "header 0 accepted\nheader 2 refused 4 at 0\nframe 3 refused 8 at 0\n";
        assert_eq!(lines(&no_setup), Ok(expected.to_string()));
        assert!(lines(&packets[..2]).is_err());
    }
}
