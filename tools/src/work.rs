//! `wedgepetal work`: how much work the packets of a recording cause, in tokens
//! and in time.

use crate::Failure;
use crate::input::Input;
use crate::json::Json;
use crate::memory::Limit;
use std::time::{Duration, Instant};
use wedgepetal::{Player, identification, setup};

/// How often a recording is decoded. The time of a packet is the least.
const ROUNDS: usize = 5;

/// What decoding a recording takes.
pub struct Work {
    /// How many blocks a frame has.
    blocks: u64,
    /// The packets that were accepted.
    frames: Vec<Cost>,
    refused: u64,
}

/// What an accepted packet takes.
#[derive(Clone, Copy)]
struct Cost {
    packet: u64,
    tokens: u64,
    time: Duration,
}

/// Decodes the first Theora stream of a whole recording several times.
pub fn measure(input: Input, limit: &Limit) -> Result<Work, Failure> {
    let refused = |text: String| Failure::Refused(format!("{}: {text}", input.name));
    let packets =
        recording::packets(input.reader).map_err(|fault| Failure::of_fault(&input.name, &fault))?;
    let [first, _, third, frames @ ..] = &packets[..] else {
        return Err(refused("it ends before its first frame".to_string()));
    };
    let session = identification(first).map_err(|why| refused(why.in_packet(first.len())))?;
    let table = setup(third).map_err(|why| refused(why.in_packet(third.len())))?;
    if let Some(text) = limit
        .excess(&session, 0)
        .map_err(|why| refused(why.to_string()))?
    {
        return Err(refused(text));
    }
    let player = Player::new(session.clone(), table.clone());
    let mut player = player.map_err(|why| refused(why.to_string()))?;
    let mut work = one_round(&mut player, frames);
    for _ in 1..ROUNDS {
        player.restart();
        let again = one_round(&mut player, frames);
        for (cost, again) in work.frames.iter_mut().zip(again.frames) {
            cost.time = cost.time.min(again.time);
        }
    }
    Ok(work)
}

/// Decodes all frame packets once.
fn one_round(player: &mut Player, frames: &[Vec<u8>]) -> Work {
    let mut work = Work {
        blocks: player.sizes().blocks,
        frames: Vec::new(),
        refused: 0,
    };
    for (packet, bytes) in (3..).zip(frames) {
        let start = Instant::now();
        let answer = player.decode(bytes);
        let time = start.elapsed();
        match answer {
            Ok(answer) => work.frames.push(Cost {
                packet,
                tokens: answer.tokens,
                time,
            }),
            Err(_) => work.refused += 1,
        }
    }
    work
}

impl Work {
    /// The most tokens that a frame can have.
    fn bound(&self) -> u64 {
        64 * self.blocks
    }

    /// Whether no packet was refused.
    pub fn is_clean(&self) -> bool {
        self.refused == 0
    }

    /// The mean of a number of all frames, 0 without frames.
    fn mean(&self, number: impl Fn(&Cost) -> u64) -> u64 {
        let sum: u64 = self.frames.iter().map(number).sum();
        sum / (self.frames.len() as u64).max(1)
    }

    /// The frame with the most of something.
    fn most(&self, number: impl Fn(&Cost) -> u64) -> Option<Cost> {
        self.frames.iter().copied().max_by_key(number)
    }

    /// In words, of a recording of this name.
    pub fn text(&self, name: &str) -> String {
        let (frames, blocks, bound) = (self.frames.len(), self.blocks, self.bound());
        let mut text =
            format!("{name}: {frames} frames of {blocks} blocks, at most {bound} tokens each\n");
        if let (Some(largest), Some(slowest)) = (self.most(tokens), self.most(time)) {
            let (mean_tokens, mean_time) = (self.mean(tokens), self.mean(time));
            text += &format!(
                "  tokens    {mean_tokens} a frame, most {} (packet {})\n  \
                   time      {} a frame, most {} (packet {})\n",
                largest.tokens,
                largest.packet,
                microseconds(mean_time),
                microseconds(time(&slowest)),
                slowest.packet
            );
        }
        text + &self.faults(name)
    }

    /// What was refused.
    pub fn faults(&self, name: &str) -> String {
        match self.refused {
            0 => String::new(),
            refused => format!("{name}: packets refused: {refused}; hashes --index lists them\n"),
        }
    }

    /// As JSON, with a line for each frame.
    pub fn json(&self, name: &str) -> Json {
        let frames = self.frames.iter().map(|cost| {
            Json::Object(vec![
                ("packet", Json::Number(cost.packet)),
                ("tokens", Json::Number(cost.tokens)),
                ("ns", Json::Number(time(cost))),
            ])
        });
        Json::Object(vec![
            ("recording", Json::text(name)),
            ("clean", Json::Bool(self.is_clean())),
            ("blocks", Json::Number(self.blocks)),
            ("bound", Json::Number(self.bound())),
            ("frames", Json::List(frames.collect())),
            ("refused", Json::Number(self.refused)),
        ])
    }
}

fn tokens(cost: &Cost) -> u64 {
    cost.tokens
}

/// In nanoseconds.
fn time(cost: &Cost) -> u64 {
    // 64 bits of nanoseconds are five hundred years.
    cost.time.as_nanos() as u64
}

/// So many nanoseconds in words.
fn microseconds(nanoseconds: u64) -> String {
    format!("{}.{} µs", nanoseconds / 1000, nanoseconds / 100 % 10)
}

#[cfg(test)]
mod tests {
    use super::*;

    #[test]
    fn means_and_mosts() {
        let cost = |packet, tokens, time| Cost {
            packet,
            tokens,
            time: Duration::from_nanos(time),
        };
        let work = Work {
            blocks: 6,
            frames: vec![cost(3, 100, 2500), cost(5, 21, 9150)],
            refused: 1,
        };
        assert_eq!(
            work.text("x"),
            "x: 2 frames of 6 blocks, at most 384 tokens each\n  \
               tokens    60 a frame, most 100 (packet 3)\n  \
               time      5.8 µs a frame, most 9.1 µs (packet 5)\n\
             x: packets refused: 1; hashes --index lists them\n"
        );
        let none = Work {
            blocks: 6,
            frames: Vec::new(),
            refused: 0,
        };
        assert_eq!(none.text("x").lines().count(), 1);
    }
}
