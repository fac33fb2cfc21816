//! How much memory decoding may take.

use wedgepetal::{Player, Refusal, Session, free_memory};

/// A limit, and what sets it.
#[derive(Clone, Debug, PartialEq, Eq)]
pub struct Limit {
    bytes: u64,
    by: &'static str,
}

impl Limit {
    /// The limit that was given, else what is free on this machine.
    pub fn new(given: Option<u64>) -> Limit {
        let limit = |bytes, by| Limit { bytes, by };
        match given {
            Some(bytes) => limit(bytes, "--max-memory allows"),
            None => limit(
                free_memory(),
                "are free here (--max-memory sets another limit)",
            ),
        }
    }

    /// The limit in bytes.
    pub fn bytes(&self) -> u64 {
        self.bytes
    }

    /// What a player of this session would take too much, in words, if it does,
    /// with so many bytes beside it.
    ///
    /// # Errors
    ///
    /// Number 8, as for every call on a session.
    pub fn excess(&self, session: &Session, beside: u64) -> Result<Option<String>, Refusal> {
        let bytes = Player::memory(session)? + beside;
        let text = || {
            let (wanted, allowed) = (counted(bytes), counted(self.bytes));
            format!(
                "its frames need {wanted} of memory, more than the {allowed} that {}",
                self.by
            )
        };
        Ok((bytes > self.bytes).then(text))
    }
}

/// A number of bytes in words.
pub fn counted(bytes: u64) -> String {
    const UNITS: [&str; 5] = ["bytes", "kB", "MB", "GB", "TB"];
    let unit = (0..UNITS.len())
        .rev()
        .find(|power| bytes >= 1000_u64.pow(*power as u32))
        .unwrap_or(0);
    match unit {
        0 => format!("{bytes} bytes"),
        _ => format!(
            "{:.1} {}",
            bytes as f64 / 1000_f64.powi(unit as i32),
            UNITS[unit]
        ),
    }
}

/// A number of bytes as people write it: digits, and K, M, G or T for powers of
/// 1024.
pub fn parse(text: &str) -> Option<u64> {
    let digits = text.trim_end_matches(['K', 'M', 'G', 'T']);
    let power = match &text[digits.len()..] {
        "" => 0,
        "K" => 1,
        "M" => 2,
        "G" => 3,
        "T" => 4,
        _ => return None,
    };
    let number: u64 = digits.parse().ok()?;
    number.checked_mul(1 << (10 * power))
}

#[cfg(test)]
mod tests {
    use super::*;

    #[test]
    fn numbers_of_bytes() {
        assert_eq!(parse("0"), Some(0));
        assert_eq!(parse("12K"), Some(12288));
        assert_eq!(parse("3T"), Some(3 << 40));
        for text in ["", "K", "4KB", "4GG", "-1", "1.5G", "99999999999T"] {
            assert_eq!(parse(text), None, "{text}");
        }
        assert_eq!(counted(999), "999 bytes");
        assert_eq!(counted(621_540), "621.5 kB");
        assert_eq!(counted(8_897_827_047_447), "8.9 TB");
    }

    #[test]
    fn what_is_too_much_is_said() {
        let header = crate::sample::identification_header();
        let session = wedgepetal::identification(&header).unwrap();
        let need = Player::memory(&session).unwrap();
        assert_eq!(Limit::new(Some(need)).excess(&session, 0), Ok(None));
        let text = Limit::new(Some(need - 1))
            .excess(&session, 0)
            .unwrap()
            .unwrap();
        assert!(text.contains("need 649.7 kB"), "{text}");
    }
}
