//! The place of each frame of a stream: its key frame's number, how many packets
//! came since, and its time.

use crate::clock::Time;
use crate::json::Json;
use crate::memory::Limit;
use wedgepetal::{Player, Session, Table};

/// The places of a stream's frames.
pub struct Places {
    limit: Limit,
    /// Who decodes them, once the headers are read.
    player: Option<Box<Player>>,
    places: Vec<Place>,
    faults: Vec<String>,
}

/// The place of a frame.
struct Place {
    packet: u64,
    key_frame: u64,
    since: u64,
    time: Time,
}

impl Places {
    /// Of a stream that begins; its frames may take so much memory.
    pub fn new(limit: Limit) -> Places {
        Places {
            limit,
            player: None,
            places: Vec::new(),
            faults: Vec::new(),
        }
    }

    /// The headers are read.
    pub fn begin(&mut self, session: &Session, table: &Table) {
        let player = match self.limit.excess(session, 0) {
            Ok(None) => Player::new(session.clone(), table.clone()).map_err(|why| why.to_string()),
            Ok(Some(text)) => Err(text),
            Err(refusal) => Err(refusal.to_string()),
        };
        match player {
            Ok(player) => self.player = Some(Box::new(player)),
            Err(text) => self.faults.push(text),
        }
    }

    /// Packets are missing here.
    pub fn restart(&mut self) {
        if let Some(player) = &mut self.player {
            player.restart();
        }
    }

    /// The frame packet of this number, at this time.
    pub fn packet(&mut self, packet: u64, bytes: &[u8], time: Time) {
        let Some(player) = &mut self.player else {
            return;
        };
        match player.decode(bytes) {
            Ok(_) => self.places.push(Place {
                packet,
                key_frame: player.session().key_frames,
                since: player.session().others,
                time,
            }),
            Err(refusal) => {
                let refusal = refusal.in_packet(bytes.len());
                self.faults.push(format!("packet {packet}: {refusal}"));
            }
        }
    }

    /// What is wrong.
    pub fn faults(&self) -> &[String] {
        &self.faults
    }

    /// A line for each frame.
    pub fn text(&self) -> String {
        let line = |(frame, place): (usize, &Place)| {
            let Place {
                packet,
                key_frame,
                since,
                time,
            } = place;
            format!(
                "  frame {frame}: packet {packet}, key frame {key_frame} and {since} since, at {time} s\n"
            )
        };
        self.places.iter().enumerate().map(line).collect()
    }

    /// As JSON.
    pub fn json(&self) -> Json {
        let object = |(frame, place): (u64, &Place)| {
            Json::Object(vec![
                ("frame", Json::Number(frame)),
                ("packet", Json::Number(place.packet)),
                ("key_frame", Json::Number(place.key_frame)),
                ("since", Json::Number(place.since)),
                ("time_s", Json::Decimal(place.time.to_string())),
            ])
        };
        Json::List((0..).zip(&self.places).map(object).collect())
    }
}
