//! Packet files: the packets of one stream, one after the other, each as its
//! length (4 bytes, the least significant first) and its bytes. Nothing else.

use super::part::{End, Packet, Part, Stream};
use super::{Choice, Fault};
use std::collections::VecDeque;
use std::io::Read;

/// The number of a packet file's stream.
const STREAM: u64 = 1;

/// Gives the parts of a packet file, one by one. After a fault there are no
/// more.
pub struct Parts<R> {
    reader: R,
    /// The byte place of the next packet.
    place: u64,
    /// What is given before the next packet is read.
    queue: VecDeque<Part>,
    done: bool,
}

impl<R: Read> Parts<R> {
    /// Reads a packet file from its beginning.
    pub fn new(reader: R, choice: Choice) -> Parts<R> {
        let stream = Stream {
            number: STREAM,
            serial: None,
        };
        let done = !matches!(choice, Choice::Joined | Choice::All | Choice::One(STREAM));
        let begin = match done {
            true => Part::Beside(stream),
            false => Part::Begin(stream),
        };
        Parts {
            reader,
            place: 0,
            queue: VecDeque::from([begin]),
            done,
        }
    }

    /// The next packet, or the end.
    fn advance(&mut self) -> Result<Part, Fault> {
        let packet = self.packet()?;
        self.done = packet.is_err();
        Ok(match packet {
            Ok(bytes) => Part::Packet(Packet {
                stream: STREAM,
                bytes,
                granule: None,
            }),
            Err(end) => Part::End {
                stream: STREAM,
                end,
            },
        })
    }

    /// The bytes of the next packet, or how the file ends.
    fn packet(&mut self) -> Result<Result<Vec<u8>, End>, Fault> {
        let length = self.bytes(4)?;
        let Ok(length) = <[u8; 4]>::try_from(&length[..]) else {
            return Ok(Err(match length[..] {
                [] => End::Whole,
                _ => End::InPacket(self.place),
            }));
        };
        let length = u64::from(u32::from_le_bytes(length));
        let packet = self.bytes(length)?;
        if (packet.len() as u64) < length {
            return Ok(Err(End::InPacket(self.place)));
        }
        self.place += 4 + length;
        Ok(Ok(packet))
    }

    /// So many bytes, or fewer if the file ends.
    fn bytes(&mut self, length: u64) -> Result<Vec<u8>, Fault> {
        let mut bytes = Vec::new();
        let mut part = self.reader.by_ref().take(length);
        part.read_to_end(&mut bytes).map_err(Fault::Read)?;
        Ok(bytes)
    }
}

impl<R: Read> Iterator for Parts<R> {
    type Item = Result<Part, Fault>;

    fn next(&mut self) -> Option<Self::Item> {
        if let Some(part) = self.queue.pop_front() {
            return Some(Ok(part));
        }
        if self.done {
            return None;
        }
        let part = self.advance();
        self.done |= part.is_err();
        Some(part)
    }
}

/// The packet file of these packets, each shorter than 2^32 bytes.
pub fn write(packets: &[Vec<u8>]) -> Vec<u8> {
    let mut file = Vec::new();
    for packet in packets {
        file.extend((packet.len() as u32).to_le_bytes());
        file.extend(packet);
    }
    file
}

#[cfg(test)]
mod tests {
    use super::*;

    /// The packets of a file, and how it ends.
    fn read(file: &[u8]) -> (Vec<Vec<u8>>, End) {
        let mut packets = Vec::new();
        for part in Parts::new(file, Choice::Joined) {
            match part.unwrap() {
                Part::Packet(packet) => packets.push(packet.bytes),
                Part::End { end, .. } => return (packets, end),
                part => assert!(matches!(part, Part::Begin(_))),
            }
        }
        unreachable!("a packet file ends");
    }

    #[test]
    fn packets_read_back() {
        let packets = vec![b"abc".to_vec(), Vec::new(), vec![9; 300]];
        let file = write(&packets);
        assert_eq!(file[..7], *b"\x03\0\0\0abc");
        assert_eq!(read(&file), (packets, End::Whole));
        assert_eq!(read(&[]), (Vec::new(), End::Whole));
    }

    #[test]
    fn cut_files_are_said() {
        let file = write(&[b"abc".to_vec(), b"de".to_vec()]);
        for length in (1..file.len()).filter(|length| *length != 7) {
            let wanted = if length < 7 { 0 } else { 7 };
            assert_eq!(read(&file[..length]).1, End::InPacket(wanted));
        }
        assert_eq!(read(b"\xFF\xFF\xFF\xFFabc").1, End::InPacket(0));
    }

    #[test]
    fn another_stream_is_not_there() {
        let parts: Vec<_> = Parts::new(&b""[..], Choice::One(2)).collect();
        assert!(matches!(parts[..], [Ok(Part::Beside(_))]));
    }
}
