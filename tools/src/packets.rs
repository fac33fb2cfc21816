//! `wedgepetal packets`: the packets of a Theora stream as a packet file.

use crate::Failure;
use crate::input::Input;
use crate::json::Json;
use crate::left;
use crate::target::Target;
use recording::part::{End, Part};
use recording::{Choice, Parts};

/// What was written, and what was left.
#[derive(Default)]
pub struct Written {
    packets: u64,
    left: Vec<String>,
}

impl Written {
    /// Whether all was read.
    pub fn is_clean(&self) -> bool {
        self.left.is_empty()
    }

    /// In words, of a recording of this name.
    pub fn text(&self, name: &str) -> String {
        let packets = self.packets;
        format!("{name}: {packets} packets written\n{}", self.faults(name))
    }

    /// What was left, a line each.
    pub fn faults(&self, name: &str) -> String {
        let line = |left| format!("{name}: {left}\n");
        self.left.iter().map(line).collect()
    }

    /// As JSON.
    pub fn json(&self, name: &str) -> Json {
        Json::Object(vec![
            ("recording", Json::text(name)),
            ("clean", Json::Bool(self.is_clean())),
            ("packets", Json::Number(self.packets)),
            ("left", Json::texts(&self.left)),
        ])
    }
}

/// Writes the packets of one stream: the chosen one, else the first. It stops
/// at a gap, since a packet file has no place to say that there is one.
pub fn write(input: Input, choice: Choice, mut target: Target) -> Result<Written, Failure> {
    let mut written = Written::default();
    let failed = |fault| Failure::of_fault(&input.name, &fault);
    let one = match choice {
        Choice::Joined => Choice::One(1),
        choice => choice,
    };
    for part in Parts::new(input.reader, one).map_err(failed)? {
        match part.map_err(failed)? {
            Part::Begin(_) => target.open().map_err(Failure::File)?,
            Part::Packet(packet) => {
                write_packet(&mut target, &packet.bytes).map_err(Failure::File)?;
                written.packets += 1;
            }
            Part::Gap(gap) => {
                written.left.push(format!("{gap}; reading stops there"));
                break;
            }
            Part::Beside(stream) if choice == Choice::Joined => {
                written.left.push(left::beside(&stream));
            }
            Part::End { end, .. } if end != End::Whole => written.left.push(end.to_string()),
            part => written.left.extend(left::unread(&part)),
        }
    }
    if target.is_planned() {
        let text = format!("{}: there is no such Theora stream", input.name);
        return Err(Failure::Refused(text));
    }
    target.finish().map_err(Failure::File)?;
    Ok(written)
}

/// Writes a packet behind its length.
fn write_packet(target: &mut Target, packet: &[u8]) -> Result<(), String> {
    let length = u32::try_from(packet.len()).map_err(|_| "a packet is too long".to_string())?;
    target.write(|out| {
        out.write_all(&length.to_le_bytes())?;
        out.write_all(packet)
    })
}
