//! Wedgepetal, a proved Theora decoder: the safe face for Rust.
//!
//! A recording's first packet is its identification header ([`identification`]
//! gives the [`Session`]), the third its setup header ([`setup`] gives the
//! [`Table`]). A [`Player`] of both decodes the packets that follow, one by one
//! or many in one call, into planes. Whatever a packet holds, each call ends with
//! an answer, and a refusal ([`Refusal`]) changes nothing and says where in the
//! packet it was found.
//!
//! Packets of Ogg files come from [`recording`]. [`Player::frames`] is an iterator
//! over frames, [`Player::picture`] what should be shown of one, the top row first.
//!
//! Of decoded frames [`Session::rgb`] makes colours, and a [`FilmWriter`] a
//! YUV4MPEG2 stream, which [`Film::read`] reads back. [`Settings`] are those of
//! the scoring scripts, as texts; [`Player::tiles`] says which tiles changed.
//! [`check`] holds another decoder's stream to a recording, [`Report::count`]
//! counts what recordings hold.
//!
//! ```
//! use wedgepetal::{Refusal, identification};
//!
//! // A packet that ends before its type byte.
//! assert_eq!(identification(b""), Err(Refusal::PACKET_ENDS));
//! // A comment header is another header.
//! assert_eq!(identification(b"\x81theora"), Err(Refusal::OTHER_HEADER));
//! // One whose fourth letter is wrong.
//! assert_eq!(identification(b"\x80theXra"), Err(Refusal::OTHER_HEADER.at(32)));
//! ```
//!
//! ```no_run
//! use wedgepetal::{Player, identification, setup};
//!
//! fn brightness(packets: &[Vec<u8>]) -> Result<(), Box<dyn std::error::Error>> {
//!     let mut player = Player::new(identification(&packets[0])?, setup(&packets[2])?)?;
//!     for (number, packet) in packets.iter().enumerate().skip(3) {
//!         match player.decode(packet) {
//!             Ok(answer) => {
//!                 let [luma, _, _] = player.frame().expect("a packet was accepted").planes();
//!                 let sum: u64 = luma.bytes.iter().map(|sample| u64::from(*sample)).sum();
//!                 println!("{number}: {:?}, {}", answer.kind, sum / luma.bytes.len() as u64);
//!             }
//!             Err(refusal) => println!("{number}: {}", refusal.in_packet(packet.len())),
//!         }
//!     }
//!     Ok(())
//! }
//! ```

mod census;
mod check;
mod film;
mod frame;
mod frames;
pub mod lists;
mod memory;
mod player;
pub mod recording;
mod refusal;
mod session;
mod settings;
mod shot;
mod table;
mod tiles;
mod unplayable;
mod work;

pub use census::Report;
pub use check::{Checked, check, check_within};
pub use film::{FILM_HEADER_BYTES, Film, FilmWriter};
pub use frame::{Frame, FrameAnswer, Kind, Samples, View};
pub use frames::{Decoded, Frames};
pub use lists::Buffers;
pub use memory::free_memory;
pub use player::Player;
pub use refusal::{Refusal, Refused, grouped};
pub use session::{Session, identification};
pub use settings::{SETTINGS_BYTES, Settings};
pub use shot::{Names, Packets};
pub use table::{MatrixType, Table, setup};
pub use tiles::{TileMap, TileMaps};
pub use unplayable::Unplayable;
pub use work::{Work, WorkLengths};

/// The version of this package.
pub const VERSION: &str = env!("CARGO_PKG_VERSION");

/// Which proved sources the linked library was made of: git's hash of `crates/`.
pub const CRATES: &str = env!("WEDGEPETAL_CRATES");

/// The sizes of a session's frames.
#[derive(Clone, Debug, PartialEq, Eq)]
pub struct Sizes {
    /// NMBS, the number of macro blocks.
    pub macro_blocks: u64,
    /// NBS, the number of blocks of all planes.
    pub blocks: u64,
    /// NSBS, the number of super blocks of all planes.
    pub super_blocks: u64,
    /// The length of a plane buffer in bytes, 64·NBS.
    pub buffer: u64,
    /// The planes Y', Cb, Cr.
    pub planes: [Plane; 3],
}

/// One plane of a frame.
#[derive(Clone, Debug, PartialEq, Eq)]
pub struct Plane {
    /// How many blocks lie side by side.
    pub blocks_across: u64,
    /// How many blocks lie on top of each other.
    pub blocks_up: u64,
    /// Where the plane begins in the buffer, in bytes.
    pub offset: u64,
    /// How many bytes the plane has.
    pub length: u64,
}

/// A block of 8 by 8 samples; (0, 0) is the lower left one of its plane.
#[derive(Clone, Copy, Debug, PartialEq, Eq, Hash)]
pub struct Block {
    /// The plane: 0 is Y', 1 is Cb, 2 is Cr.
    pub plane: u64,
    /// The block's column, counted from the left.
    pub x: u64,
    /// The block's row, counted from the bottom.
    pub y: u64,
}

/// A macro block of 16 by 16 luma samples; (0, 0) is the lower left one.
#[derive(Clone, Copy, Debug, PartialEq, Eq, Hash)]
pub struct MacroBlock {
    /// The macro block's column, counted from the left.
    pub x: u64,
    /// The macro block's row, counted from the bottom.
    pub y: u64,
}

/// The lines of README.md, which the tests compile.
#[doc = include_str!("../README.md")]
#[cfg(doctest)]
struct Readme;
