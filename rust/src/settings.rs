//! The settings of the scoring scripts, as texts of two versions.

use crate::Refusal;
use crate::lists::{self, SETTINGS_NUMBERS};
use crate::session::one;

/// The longest text of settings, in bytes.
pub const SETTINGS_BYTES: usize = 61;

/// Settings. The fields may hold any numbers; those out of range have no text.
///
/// ```
/// use wedgepetal::{Refusal, Settings};
///
/// let settings = Settings { tile: 8, shot_first: 0, shot_last: 9, plane: 0 };
/// let text = "version=1\ntile=8\nshot_first=0\nshot_last=9\n";
/// assert_eq!(settings.text(1).unwrap(), text);
/// assert_eq!(Settings::read(2, text.as_bytes()), Ok(settings));
/// assert_eq!(Settings::read(1, b"version=2\n"), Err(Refusal::LATER_VERSION));
/// assert_eq!(Settings::read(1, b"version=1\ntile=08\n"), Err(Refusal::BAD_SETTINGS));
/// ```
#[derive(Clone, Copy, Debug, PartialEq, Eq, Hash)]
pub struct Settings {
    /// The width and height of a tile: 8, 16 or 32.
    pub tile: u64,
    /// The first shot: 0 to the last.
    pub shot_first: u64,
    /// The last shot: 0 to 999,999.
    pub shot_last: u64,
    /// The plane: 0 is Y', 1 is Cb, 2 is Cr. Version 1 holds plane 0 alone.
    pub plane: u64,
}

impl Settings {
    /// Writes their text in a version. Answers how many bytes it has, at most
    /// [`SETTINGS_BYTES`]; those behind it stay.
    ///
    /// # Errors
    ///
    /// Number 20 for values out of range, plane 1 or 2 as version 1, and versions
    /// other than 1 and 2; then 14 if `out` is too short. Nothing is written.
    pub fn write(&self, version: u64, out: &mut [u8]) -> Result<u64, Refusal> {
        one(|written| lists::settings_write(version, &self.to_list(), out, written))
    }

    /// Their text in a version.
    ///
    /// # Errors
    ///
    /// Number 20, as for [`Settings::write`].
    pub fn text(&self, version: u64) -> Result<String, Refusal> {
        let mut text = vec![0; SETTINGS_BYTES];
        let bytes = self.write(version, &mut text)?;
        // At most 61.
        text.truncate(bytes as usize);
        Ok(String::from_utf8(text).expect("keys, digits and line feeds are ASCII"))
    }

    /// Reads a text for a version. The reader for version 2 takes texts of
    /// version 1 too, as plane 0.
    ///
    /// # Errors
    ///
    /// Number 19 by the reader for version 1 if the text begins with the line
    /// `version=2`; 20 for any other fault, and for versions other than 1 and 2.
    pub fn read(version: u64, text: &[u8]) -> Result<Settings, Refusal> {
        let mut settings = Settings::from_list(&[0; SETTINGS_NUMBERS]);
        settings.load(version, text)?;
        Ok(settings)
    }

    /// Reads a text into these settings, which are in use.
    ///
    /// # Errors
    ///
    /// As for [`Settings::read`]. They are then as they were.
    pub fn load(&mut self, version: u64, text: &[u8]) -> Result<(), Refusal> {
        let mut list = self.to_list();
        let number = lists::settings_read(version, text, &mut list);
        // The call itself leaves the list as it was if it refuses.
        *self = Settings::from_list(&list);
        Refusal::check(number)
    }

    /// The settings as a list of numbers.
    pub fn to_list(self) -> [u64; SETTINGS_NUMBERS] {
        [self.tile, self.shot_first, self.shot_last, self.plane]
    }

    /// The settings that a list of numbers stands for.
    fn from_list(list: &[u64; SETTINGS_NUMBERS]) -> Settings {
        let [tile, shot_first, shot_last, plane] = *list;
        Settings {
            tile,
            shot_first,
            shot_last,
            plane,
        }
    }
}
